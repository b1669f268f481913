"""A folder for what root writes, where others may have put links: theirs are refused, and none is written through."""
import contextlib
import os
import pathlib
import secrets
import stat

from load_kinds import Fault


def is_link(name: str, at: int | None) -> bool:
    """Whether this is a link. One of another user is refused, but for root's."""
    with contextlib.suppress(FileNotFoundError):
        about = os.stat(name, dir_fd=at, follow_symlinks=False)
        if stat.S_ISLNK(about.st_mode) and about.st_uid not in (0, os.geteuid()):
            raise Fault(f"`{name}` is a link of another user")
        return stat.S_ISLNK(about.st_mode)
    return False


def folder_at(name: str, at: int | None) -> int:
    """Opens a folder, which is made where there is none."""
    with contextlib.suppress(FileExistsError):
        os.mkdir(name, 0o755, dir_fd=at)
    follow = 0 if is_link(name, at) else os.O_NOFOLLOW
    return os.open(name, os.O_PATH | os.O_DIRECTORY | follow, dir_fd=at)


class OwnFolder:
    """A folder of who runs this, where nobody else may put anything.

    It is held open and asked by its number: whoever moves it, and puts another in its place, changes nothing.
    """

    def __init__(self, stack: contextlib.ExitStack, path: pathlib.Path, at: int | None = None) -> None:
        for part in path.parts or (".",):
            at = folder_at(part, at)
            stack.callback(os.close, at)
        assert at is not None
        self.at, about = at, os.stat(at)
        if about.st_uid != os.geteuid():
            raise Fault(f"{path} belongs to another user; name a folder of your own, or one that is not there yet")
        if about.st_mode & (stat.S_IWGRP | stat.S_IWOTH):
            raise Fault(f"others may write in {path}; `chmod go-w` keeps them out")

    def place(self, *read: str) -> pathlib.Path:
        """Where a command finds it that reads files of these names there."""
        for name in read:
            is_link(name, self.at)
        return pathlib.Path(f"/proc/self/fd/{self.at}")

    def write(self, name: str, text: str) -> None:
        """A fresh file comes in the place of what has this name: where that is a link, what it leads to stays."""
        fresh = f".{name}.{secrets.token_hex(8)}"
        kind = os.O_WRONLY | os.O_CREAT | os.O_EXCL | os.O_NOFOLLOW
        with open(os.open(fresh, kind, 0o644, dir_fd=self.at), "w", newline="") as file:
            try:
                file.write(text)
                file.flush()
                os.replace(fresh, name, src_dir_fd=self.at, dst_dir_fd=self.at)
            except OSError:
                os.unlink(fresh, dir_fd=self.at)
                raise
