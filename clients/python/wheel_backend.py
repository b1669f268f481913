"""Makes the wheel of this package, by the standard library alone, so that pip needs no network (PEP 517 and 427)."""
import base64
import hashlib
import io
import pathlib
import tarfile
import tomllib
import zipfile

HERE = pathlib.Path(__file__).resolve().parent
EPOCH = (1980, 1, 1, 0, 0, 0)


def _project() -> dict[str, str]:
    project = tomllib.loads((HERE / "pyproject.toml").read_text())["project"]
    return {key: value for key, value in project.items() if isinstance(value, str)}


def _metadata(project: dict[str, str]) -> str:
    head = {"Name": "name", "Version": "version", "Summary": "description", "Requires-Python": "requires-python"}
    rows = "".join(f"{title}: {project[key]}\n" for title, key in head.items())
    text = (HERE / project["readme"]).read_text()
    return f"Metadata-Version: 2.1\n{rows}Description-Content-Type: text/markdown\n\n{text}"


def _row(name: str, data: bytes) -> str:
    digest = base64.urlsafe_b64encode(hashlib.sha256(data).digest()).rstrip(b"=").decode()
    return f"{name},sha256={digest},{len(data)}\n"


def build_wheel(wheel_directory: str, config_settings: object = None, metadata_directory: object = None) -> str:
    project = _project()
    stem = f"{project['name']}-{project['version']}"
    info = f"{stem}.dist-info"
    source = HERE / "src"
    files = {path.relative_to(source).as_posix(): path.read_bytes() for path in sorted(source.rglob("*"))
             if path.suffix == ".py" or path.name == "py.typed"}
    files[f"{info}/METADATA"] = _metadata(project).encode()
    files[f"{info}/WHEEL"] = b"Wheel-Version: 1.0\nGenerator: wheel_backend\nRoot-Is-Purelib: true\nTag: py3-none-any\n"
    files[f"{info}/RECORD"] = "".join([*(_row(*file) for file in files.items()), f"{info}/RECORD,,\n"]).encode()
    wheel = f"{stem}-py3-none-any.whl"
    with zipfile.ZipFile(pathlib.Path(wheel_directory) / wheel, "w", zipfile.ZIP_DEFLATED) as archive:
        for name, data in files.items():
            archive.writestr(zipfile.ZipInfo(name, EPOCH), data, zipfile.ZIP_DEFLATED)
    return wheel


def build_sdist(sdist_directory: str, config_settings: object = None) -> str:
    project = _project()
    stem = f"{project['name']}-{project['version']}"
    with tarfile.open(pathlib.Path(sdist_directory) / f"{stem}.tar.gz", "w:gz") as archive:
        for name in ("pyproject.toml", "wheel_backend.py", "README.md", "src"):
            archive.add(HERE / name, f"{stem}/{name}", filter=_plain)
        data = _metadata(project).encode()
        entry = tarfile.TarInfo(f"{stem}/PKG-INFO")
        entry.size = len(data)
        archive.addfile(entry, io.BytesIO(data))
    return f"{stem}.tar.gz"


def _plain(entry: tarfile.TarInfo) -> tarfile.TarInfo | None:
    return None if "__pycache__" in entry.name else entry
