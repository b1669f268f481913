#!/usr/bin/env python3
"""Has a real browser show pictures that the built program draws, and keeps what it shows as PNG.

    tests/draw_in_browser.py [--program PROGRAM] [--browser BROWSER] [--to FOLDER] [--time] [--variants FILE] [FILE ..]

FILE is a script or settings (of which the report is drawn); without one, three of examples/. With --time scripts are drawn by their
ticks. With --variants it is a load of the lab, whose waits are drawn under these variants. It needs headless Chromium (Debian's package
`chromium`). ./test does not need it: the pictures are for people, and docs/pictures keeps four. A picture that the browser cannot parse,
or that shows no element, is a failure.
"""
import functools
import pathlib
import re
import shutil
import tempfile
from collections.abc import Callable

import rig
from rig import ROOT, run

NAMES = ("crash-and-steal.script", "recordings/python-pool.script", "steals-and-restarts.toml")
EXAMPLES = [ROOT / "examples" / name for name in NAMES]
FLAGS = ["--headless", "--no-sandbox", "--disable-gpu", "--hide-scrollbars", "--force-device-scale-factor=1"]
# What the browser tells of a picture that it has parsed: how many elements are shown, and how many have a title.
PAGE = (ROOT / "tests/draw_in_browser.html").read_text()


def asked(file: pathlib.Path) -> tuple[list[object], str]:
    """The words by which the program draws the file, and the name of that picture."""
    if rig.options.variants:
        return ["lab", "--picture", "--variants", rig.options.variants], f"{file.stem}-waits"
    if file.suffix == ".toml":
        return ["run", "--draw"], f"{file.stem}-report"
    return (["draw", "--time"], f"{file.stem}-ticks") if rig.options.time else (["draw"], file.stem)


def browse(folder: pathlib.Path, *words: str) -> str:
    browser = rig.options.browser
    told = run(browser, *FLAGS, f"--user-data-dir={folder / 'profile'}", *words)
    assert told.returncode == 0, f"{browser} ended with {told.returncode}: {told.stderr[-300:]}"
    return told.stdout


def shows(file: pathlib.Path) -> None:
    """A browser shows the picture of the file, of which PNG and SVG are put into the folder."""
    words, name = asked(file)
    drawn = run(rig.program, *words, file, text=False)
    assert drawn.returncode in (0, 1) and drawn.stdout, f"the program ended with {drawn.returncode}"
    width, height = map(int, re.search(rb'<svg [^>]*width="(\d+)" height="(\d+)"', drawn.stdout).groups())
    rig.options.to.mkdir(parents=True, exist_ok=True)
    svg, png = (rig.options.to / f"{name}{suffix}" for suffix in (".svg", ".png"))
    svg.write_bytes(drawn.stdout)
    with rig.file(PAGE.replace("PICTURE", repr(drawn.stdout.decode("ascii"))), "page.html") as page:
        told = re.search(r"<title>faults (\d+) shown (\d+) titles (\d+)</title>", browse(page.parent, "--dump-dom", page.as_uri()))
        browse(page.parent, f"--screenshot={png}", f"--window-size={width},{height}", svg.resolve().as_uri())
    assert told, "the browser did not tell what it shows"
    faults, shown, titles = map(int, told.groups())
    assert not faults and shown and titles, f"{faults} faults, {shown} elements shown, {titles} titles"
    assert png.is_file() and png.read_bytes().startswith(b"\x89PNG"), "no screenshot was made"
    print(f"{file.name}: {width} x {height}, {len(drawn.stdout)} bytes, {shown} elements shown, {titles} titles: {png}")


def add_words(add: Callable[..., object]) -> None:
    add("--browser", default=shutil.which("chromium") or "chromium")
    add("--to", type=pathlib.Path, default=pathlib.Path(tempfile.gettempdir()))
    add("--time", action="store_true", help="draws scripts by their ticks")
    add("--variants", type=pathlib.Path, metavar="FILE")
    add("file", type=pathlib.Path, nargs="*", default=EXAMPLES)


if __name__ == "__main__":
    rig.main(__doc__, lambda: [(file.name, functools.partial(shows, file)) for file in rig.options.file], add_words)
