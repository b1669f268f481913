"""What a tool makes of a file: it is written beside its place, and put there when it is whole; what was read is not written over."""
import contextlib
import errno
import os
import shutil


def is_regular(path: str | os.PathLike[str]) -> bool:
    """Whether a write there makes or replaces a file on a disk: a device or a pipe is written to as it stands."""
    return os.path.isfile(path) or not os.path.lexists(path)


def refuse_own(outputs: list[str | os.PathLike[str]], inputs: list[str | os.PathLike[str]]) -> None:
    """Raises an OSError where one of the files to be made is one of those that are read, by whatever name."""
    for made in filter(os.path.isfile, outputs):
        for read in filter(os.path.exists, inputs):
            if os.path.samefile(made, read):
                raise OSError(errno.EEXIST, "it is what is read, and stays as it is", os.fspath(made))


def put(path: str | os.PathLike[str], text: str) -> None:
    """Writes a file, all of it or nothing."""
    if not is_regular(path):
        with open(path, "w", newline="\n", encoding="utf-8") as file:
            file.write(text)
        return
    place = os.path.realpath(path)
    part = f"{place}.{os.getpid()}.part"
    try:
        with open(part, "x", newline="\n", encoding="utf-8") as file:
            file.write(text)
        if os.path.exists(place):
            shutil.copymode(place, part)
        os.replace(part, place)
    except BaseException:
        with contextlib.suppress(OSError):
            os.unlink(part)
        raise
