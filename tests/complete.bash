# What bash completes the last word to: for tests/completion_tests.py.
source "$1"
shift
COMP_WORDS=("$@")
COMP_CWORD=$(($# - 1))
_pc_sim
printf '%s\n' "${COMPREPLY[@]}"
