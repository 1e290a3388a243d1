"""The build backend of the package: the hooks of PEP 517 and PEP 660 that make a wheel and an sdist. It needs only the standard library.

A wheel contains the program, and has a command `span`, if the setting `program` names it. The setting `platform` is then the platform
of the wheel, such as manylinux_2_34_x86_64 (by default linux_x86_64), and the setting `record`, if there is one, names the record of the
proof.

The same files always give the same bytes: names are sorted, a wheel is not compressed, and every file has the time of
SOURCE_DATE_EPOCH, or by default one fixed time.
"""
import base64
import gzip
import hashlib
import io
import os
import re
import tarfile
import time
import zipfile
from pathlib import Path
from typing import Dict, List, NamedTuple, Optional

ROOT = Path(__file__).resolve().parent.parent
PACKAGE = ROOT / "src" / "span_margin"
EARLIEST = 315532800  # 1980-01-01, the earliest time in a zip archive
Settings = Optional[Dict[str, str]]


class Packed(NamedTuple):
    """A file in a wheel or an sdist."""

    name: str
    data: bytes
    mode: int = 0o644


def section(name: str) -> str:
    """A section of pyproject.toml."""
    return (ROOT / "pyproject.toml").read_text(encoding="utf-8").split(f"[{name}]\n")[1].split("\n[")[0]


def project() -> Dict[str, str]:
    """The text fields of [project] in pyproject.toml, and the version of the package."""
    fields = dict(re.findall(r'^([a-z-]+) = "(.*)"$', section("project"), re.MULTILINE))
    init = (PACKAGE / "__init__.py").read_text(encoding="utf-8")
    found = re.search(r'^__version__ = "(.*)"$', init, re.MULTILINE)
    if not found:
        raise RuntimeError("src/span_margin/__init__.py has no line __version__")
    return {**fields, "version": found[1]}


def stem() -> str:
    """The name and the version, as they begin the names of the files."""
    fields = project()
    return f"{fields['name'].replace('-', '_')}-{fields['version']}"


def metadata() -> bytes:
    fields, text = project(), section("project")
    lines = [
        "Metadata-Version: 2.1",
        f"Name: {fields['name']}",
        f"Version: {fields['version']}",
        f"Summary: {fields['description']}",
        *(f"Author: {it}" for it in re.findall(r'^authors = .*name = "(.*?)"', text, re.MULTILINE)),
        *(f"License: {it}" for it in re.findall(r'^license = .*text = "(.*?)"', text, re.MULTILINE)),
        f"Requires-Python: {fields['requires-python']}",
        *(f"Classifier: {it}" for it in re.findall(r'^ +"(.*)",$', text, re.MULTILINE)),
        "Description-Content-Type: text/markdown",
        "",
        (ROOT / fields["readme"]).read_text(encoding="utf-8"),
    ]
    return "\n".join(lines).encode()


def wheel_fields(tag: str) -> bytes:
    is_pure = "true" if tag.endswith("-any") else "false"
    return f"Wheel-Version: 1.0\nGenerator: span_build\nRoot-Is-Purelib: {is_pure}\nTag: {tag}\n".encode()


def entry_points(has_program: bool) -> bytes:
    """The commands that an installer makes."""
    own = "span = span_margin._own:main\n" if has_program else ""
    return ("[console_scripts]\n" + section("project.scripts").replace('"', "").strip() + "\n" + own).encode()


def moment() -> int:
    """The time of all packed files, in seconds since 1970."""
    return max(int(os.environ.get("SOURCE_DATE_EPOCH", EARLIEST)), EARLIEST)


def modules() -> List[Packed]:
    """The files of the package, sorted by name."""
    files = (it for it in PACKAGE.rglob("*") if it.suffix in (".py", ".css", ".js") or it.name == "py.typed")
    return [Packed(it.relative_to(PACKAGE.parent).as_posix(), it.read_bytes()) for it in sorted(files)]


def digest(content: bytes) -> str:
    return base64.urlsafe_b64encode(hashlib.sha256(content).digest()).rstrip(b"=").decode()


def write_wheel(directory: str, content: List[Packed], platform: str = "any") -> str:
    """Writes a wheel of these files and returns its name."""
    info, tag = f"{stem()}.dist-info", f"py3-none-{platform}"
    about = {"METADATA": metadata(), "WHEEL": wheel_fields(tag), "entry_points.txt": entry_points(platform != "any")}
    entries = [*content, *(Packed(f"{info}/{name}", data) for name, data in about.items())]
    rows = [f"{it.name},sha256={digest(it.data)},{len(it.data)}\n" for it in entries]
    entries.append(Packed(f"{info}/RECORD", ("".join(rows) + f"{info}/RECORD,,\n").encode()))
    wheel = f"{stem()}-{tag}.whl"
    with zipfile.ZipFile(Path(directory) / wheel, "w") as archive:
        for it in entries:
            entry = zipfile.ZipInfo(it.name, time.gmtime(moment())[:6])
            entry.create_system, entry.external_attr = 3, (0o100000 | it.mode) << 16
            archive.writestr(entry, it.data)
    return wheel


def program_of(settings: Dict[str, str]) -> List[Packed]:
    """The program and the record of its proof, if the settings name them."""
    found = []
    for key, name, mode in (("program", "span", 0o755), ("record", "PROVED", 0o644)):
        if key in settings:
            found.append(Packed(f"span_margin/bin/{name}", Path(settings[key]).read_bytes(), mode))
    return found


# --- The hooks ---


def build_wheel(wheel_directory: str, config_settings: Settings = None, metadata_directory: Optional[str] = None) -> str:
    settings = config_settings or {}
    platform = settings.get("platform", "linux_x86_64") if "program" in settings else "any"
    return write_wheel(wheel_directory, modules() + program_of(settings), platform)


def build_editable(wheel_directory: str, config_settings: Settings = None, metadata_directory: Optional[str] = None) -> str:
    return write_wheel(wheel_directory, [Packed("span_margin.pth", f"{PACKAGE.parent}\n".encode())])


def build_sdist(sdist_directory: str, config_settings: Settings = None) -> str:
    files = [ROOT / "pyproject.toml", ROOT / "README.md", Path(__file__).resolve()]
    content = [Packed("PKG-INFO", metadata()), *(Packed(str(it.relative_to(ROOT)), it.read_bytes()) for it in files),
               *(it._replace(name=f"src/{it.name}") for it in modules())]
    name = f"{stem()}.tar.gz"
    with open(Path(sdist_directory) / name, "wb") as file, gzip.GzipFile("", "wb", 9, file, moment()) as packed:
        with tarfile.open(mode="w", fileobj=packed, format=tarfile.USTAR_FORMAT) as archive:
            for it in content:
                entry = tarfile.TarInfo(f"{stem()}/{it.name}")
                entry.size, entry.mtime, entry.mode = len(it.data), moment(), it.mode
                archive.addfile(entry, io.BytesIO(it.data))
    return name
