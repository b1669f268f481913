#!/bin/sh
# It tells of itself: the user, the folder that it is in with its mode and owner, its words, and the settings there.
echo "${0##*/}|$(id -u)|$(stat -c '%n|%a|%u' "$PWD")|$*|$(cat conf 2>&1 | tr '\n' ' ')" >>NOTED
case $0 in *perf) echo no events >&2; exit 1;; esac
