#!/usr/bin/env python3
"""Writes a page that walks one script through the layers: each line, its reply, and what each agent knows after it.

    tools/walk_through.py PROGRAM SCRIPT

All replies and all that agents know are what PROGRAM prints: after each command it is asked to show the view of each agent, which
changes nothing. The script's comments are the page's text. tools/package makes that of examples/crash-and-steal.script.
"""
import pathlib
import re
import subprocess
import sys
import textwrap

# How the page begins.
HEAD = (pathlib.Path(__file__).resolve().parent / "pages/walk_through.txt").read_text()


def blocks_of(lines):
    """The script's lines by paragraph: comments that begin it, and the commands that follow."""
    text, commands = [], []
    for line in filter(str.strip, lines):
        if line.startswith("#") and commands:
            yield text, commands
            text, commands = [], []
        (text if line.startswith("#") else commands).append(line.removeprefix("#").strip())
    yield text, commands


def view_text(rows):
    """The threads of a view, in words."""
    told = []
    for row in rows:
        name, number, state, early = re.fullmatch(r"(t\d+) upto (\d+) (\S+)(?: .*)? early (.*)", row).groups()
        told.append(f"{name} up to {number}" + f" {state}" * (state != "-") + f", past a gap {early}" * (early != "-"))
    return "; ".join(told) or "nothing"


def steps_of(program, commands, cpus):
    """Of each command the reply, and the view of each agent after it: views are shown in one run of the script."""
    asked = [line for command in commands for line in (command, *(f"show {cpu}" for cpu in range(cpus)))]
    run = subprocess.run([program, "replay"], input="\n".join([*asked, ""]), capture_output=True, text=True, check=True)
    lines = iter(run.stdout.splitlines())
    told = [view_text(iter(lines.__next__, "end")) if line[:5] == "show " else f"`{next(lines)}`" for line in asked]
    for place in range(0, len(told), cpus + 1):
        yield told[place], told[place + 1:place + 1 + cpus]


def page(program, path):
    blocks = list(blocks_of(path.read_text().splitlines()))
    every = [command for _, commands in blocks for command in commands]
    cpus = next(int(command.split()[1]) for command in every if command.startswith("enclave"))
    steps, before = steps_of(program, every, cpus), ["nothing"] * cpus
    yield HEAD.format(name=path.name)
    for text, commands in blocks:
        if text:
            yield textwrap.fill(" ".join(text), 120, break_long_words=False, break_on_hyphens=False) + "\n"
        if not commands:
            continue
        yield "| line | reply |" + "".join(f" agent {cpu} knows |" for cpu in range(cpus))
        yield "|---|---|" + "---|" * cpus
        for command in commands:
            reply, views = next(steps)
            cells = ["" if view == old else view for view, old in zip(views, before)]
            yield f"| `{command}` | {reply} |" + "".join(f" {cell} |" for cell in cells)
            before = views
        yield ""


def main():
    if len(sys.argv) != 3:
        sys.exit(__doc__)
    print("\n".join(page(sys.argv[1], pathlib.Path(sys.argv[2]))).rstrip())


if __name__ == "__main__":
    main()
