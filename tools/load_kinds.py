"""The kinds of loads that `record-loads` records: what each wants, and how it begins."""
import contextlib
import os
import pathlib
import pwd
import random
import shutil
import signal
import subprocess
import sys
import time
import tomllib
from collections.abc import Callable
from typing import NamedTuple

CPUS = os.cpu_count() or 1
HALF = max(CPUS // 2, 1)
SLOW = 600  # seconds until what should have ended counts as stuck

TEXTS = tomllib.loads((pathlib.Path(__file__).resolve().parent / "load_texts.toml").read_text())


class Fault(Exception):
    """Why a kind is passed over."""


def run(*words: object, **options: object) -> subprocess.CompletedProcess[str]:
    return subprocess.run([str(word) for word in words], stdin=subprocess.DEVNULL, capture_output=True, text=True,
                          timeout=SLOW, **options)  # type: ignore[call-overload,no-any-return]


def last_line(text: str) -> str:
    return (text.strip().splitlines() or ["it does not say why"])[-1]


def found(command: str) -> str | None:
    """Where a command is. Debian keeps the servers of PostgreSQL off the path, and users' paths off /usr/sbin."""
    path = os.environ.get("PATH", "")
    servers = sorted(pathlib.Path("/usr/lib/postgresql").glob("*/bin"))
    return shutil.which(command, path=":".join([path, "/usr/sbin", *map(str, reversed(servers))]) if path else path)


def user_of(*keys: str | int) -> pwd.struct_passwd:
    """The first of these users that there is, by name or number."""
    for key in keys:
        with contextlib.suppress(KeyError):
            return pwd.getpwuid(key) if isinstance(key, int) else pwd.getpwnam(key)
    raise Fault(f"there is no user {' or '.join(map(str, keys))}")


class Running:
    """The processes of a load in a folder of its own; they end in the opposite order of their beginning.

    The folder is fresh and nobody else's: who gets into it may command a server.
    """

    def __init__(
            self, stack: contextlib.ExitStack, folder: pathlib.Path, user: pwd.struct_passwd | None = None) -> None:
        self.stack, self.folder = stack, folder
        self.who = {"user": user.pw_uid, "group": user.pw_gid, "extra_groups": []} if user else {}

    def without_root(self, *names: str) -> "Running":
        """Has the first of these users that there is run what follows, where root would. The folder becomes that
        user's, so from here on root writes nothing there: it might follow a link."""
        if os.geteuid():
            return self
        user = user_of(*names)
        for path in [*self.folder.rglob("*"), self.folder]:
            os.chown(path, user.pw_uid, user.pw_gid)
        return Running(self.stack, self.folder, user)

    def begin(self, *words: object, end: int = signal.SIGTERM) -> None:
        none = subprocess.DEVNULL
        child = subprocess.Popen([str(word) for word in words], cwd=self.folder, stdin=none, stdout=none, stderr=none,
                                 start_new_session=True, **self.who)  # type: ignore[call-overload]
        self.stack.callback(self.end, child, end)

    def end(self, child: subprocess.Popen[bytes], how: int) -> None:
        for signum in (how, signal.SIGKILL):
            with contextlib.suppress(ProcessLookupError):
                os.killpg(child.pid, signum)
            with contextlib.suppress(subprocess.TimeoutExpired):
                child.wait(10)

    def do(self, *words: object) -> None:
        """What has to end before the load goes on."""
        if (told := run(*words, cwd=self.folder, **self.who)).returncode:
            raise Fault(f"{words[0]}: {last_line(told.stderr)}")


def compiler(it: Running) -> None:
    text = "#include <stdio.h>\n#include <string.h>\n" + "".join(TEXTS["part"].format(part) for part in range(40))
    calls = " + ".join(f"part_{part}(text, {part})" for part in range(40))
    for place in range(6 * CPUS):
        (it.folder / f"file{place}.c").write_text(f"{text}\nint all_{place}(const char *text) {{ return {calls}; }}\n")
    (it.folder / "Makefile").write_text(TEXTS["makefile"])
    it.begin("sh", "-c", f"while make -s -B -j {2 * CPUS}; do :; done")


def web(it: Running) -> None:
    (it.folder / "site").mkdir()
    for name, size in (("small", 1_000), ("large", 200_000)):
        (it.folder / "site" / name).write_bytes(b"." * size)
    port = random.randrange(20_000, 30_000)
    (it.folder / "conf").write_text(TEXTS["site"].format(workers=HALF, folder=it.folder, port=port))
    it = it.without_root("www-data", "nobody")
    it.do(found("nginx"), "-t", "-p", it.folder, "-c", it.folder / "conf")
    it.begin(found("nginx"), "-p", it.folder, "-c", it.folder / "conf")
    time.sleep(0.5)
    for name, clients in (("small", 16), ("large", 4)):
        it.begin("wrk", "-t", 2, "-c", clients, "-d", SLOW, f"http://127.0.0.1:{port}/{name}")


def pool(it: Running) -> None:
    it.begin(sys.executable, "-c", TEXTS["pool"].format(workers=2 * CPUS))


def nice(it: Running) -> None:
    for value in (0, 5, 10, 19):
        for _ in range(HALF):
            it.begin(sys.executable, "-c", TEXTS["busy"].format(nice=value))
    for _ in range(2 * CPUS):
        it.begin(sys.executable, "-c", TEXTS["sleeper"])


def database(it: Running) -> None:
    """A server of its own, in memory where it can be, so that the disk of a machine does not decide.

    Who may ask it may run programs as its user: it listens at a socket in its folder alone, and asks who calls.
    """
    it = it.without_root("postgres")
    name = user_of(it.folder.stat().st_uid).pw_name
    data, server = it.folder / "data", {
        "unix_socket_directories": it.folder, "unix_socket_permissions": "0700", "listen_addresses": "", "fsync": "off"}
    it.do(found("initdb"), "-D", data, "--auth-local=peer", "--auth-host=reject", "-U", name)
    words = [word for key, value in server.items() for word in ("-c", f"{key}={value}")]
    it.begin(found("postgres"), "-D", data, *words, end=signal.SIGINT)
    time.sleep(2)
    client = ("pgbench", "-h", it.folder, "-U", name)
    it.do(*client, "-i", "-q", "-s", 10, "postgres")
    it.begin(*client, "-c", 4 * CPUS, "-j", 2, "-T", SLOW, "postgres")


# What it is, which commands of which Debian packages it wants, and how it begins.
Kind = NamedTuple("Kind", [("title", str), ("wants", dict[str, str]), ("begin", Callable[[Running], None])])
KINDS = {
    "compiler": Kind(f"`make -j {2 * CPUS}` of {6 * CPUS} files in C", {"make": "make", "gcc": "gcc"}, compiler),
    "web": Kind(f"nginx with {HALF} workers under wrk with 20 connections", {"nginx": "nginx", "wrk": "wrk"}, web),
    "pool": Kind(f"bursts of 64 tasks for {2 * CPUS} processes of Python's `multiprocessing`", {}, pool),
    "nice": Kind(
        f"{4 * HALF} busy loops of niceness 0, 5, 10 and 19 beside {2 * CPUS} threads that sleep and wake", {}, nice),
    "database": Kind(f"PostgreSQL under pgbench with {4 * CPUS} clients", {
        "postgres": "postgresql", "initdb": "postgresql", "pgbench": "postgresql-contrib"}, database),
}
