"""The package as it is installed: wheels with the same bytes each time, and pip without a network."""
import ast
import email
import hashlib
import os
import platform
import shutil
import subprocess
import sys
import tarfile
import unittest
import zipfile
from importlib import import_module
from pathlib import Path
from typing import Dict, Optional, Tuple
from unittest import mock

import span_margin as span
from span_margin import _program
from shared import EXAMPLES, PARAMS, POSITIONS, Case

PACKAGE = Path(__file__).resolve().parents[2] / "python"
WHEEL = f"span_margin-{span.__version__}-py3-none-any.whl"
PLATFORM = "manylinux_2_34_x86_64"
WITH_PROGRAM = WHEEL.replace("any", PLATFORM)
INFO = f"span_margin-{span.__version__}.dist-info"


def glibc() -> Tuple[int, ...]:
    """The version of the C library; () if it is another one."""
    name, version = platform.libc_ver()
    return tuple(map(int, version.split("."))) if name == "glibc" else ()


HAS_VENV = subprocess.run([sys.executable, "-c", "import venv, ensurepip"], check=False, stderr=subprocess.DEVNULL).returncode == 0


def build(hook: str, place: Path, settings: Optional[Dict[str, str]] = None, **environment: str) -> str:
    """Calls a hook of the build backend, which writes into a directory, and returns the name of the file."""
    script = f"import sys; sys.path.insert(0, 'backend'); import span_build; print(span_build.{hook}(sys.argv[1], {settings!r}))"
    words = [sys.executable, "-B", "-c", script, str(place)]
    return subprocess.check_output(words, cwd=PACKAGE, env={**os.environ, **environment}, text=True).strip()


class Names(unittest.TestCase):
    def test_each_name_is_what_type_checkers_see(self) -> None:
        tree = ast.parse(Path(span.__file__).read_text(encoding="utf-8"))
        imports = [node for node in ast.walk(tree) if isinstance(node, ast.ImportFrom) and str(node.module).startswith("span_margin.")]
        seen = {name.name: getattr(import_module(str(node.module)), name.name) for node in imports for name in node.names}
        self.assertEqual(sorted(seen), sorted(span.__all__))
        for name, found in seen.items():
            self.assertIs(getattr(span, name), found)
        self.assertLessEqual({*span.__all__, "__version__"}, {*dir(span)})
        self.assertFalse(hasattr(span, "nothing"))

    def test_modules_are_loaded_when_they_are_needed(self) -> None:
        """A page of an explanation runs no program, and only an AsyncSession needs asyncio."""
        script = (
            "import sys; sys.path.insert(0, 'src'); import span_margin.report as report, span_margin as span\n"
            "assert not {'span_margin._calls', 'span_margin.report._changes'} & {*sys.modules}\n"
            "span.margin, span.ParameterSet; assert 'asyncio' not in sys.modules; span.AsyncSession; assert 'asyncio' in sys.modules"
        )
        subprocess.run([sys.executable, "-B", "-S", "-c", script], cwd=PACKAGE, check=True)


class Wheel(Case):
    def contents(self) -> Dict[str, bytes]:
        self.assertEqual(build("build_wheel", self.room), WHEEL)
        with zipfile.ZipFile(WHEEL) as archive:
            return {name: archive.read(name) for name in archive.namelist()}

    def test_files(self) -> None:
        found = self.contents()
        files = (it for it in (PACKAGE / "src" / "span_margin").rglob("*") if it.is_file() and it.parent.name != "__pycache__")
        modules = {str(it.relative_to(PACKAGE / "src")): it.read_bytes() for it in files}
        for name in ("py.typed", "report/__init__.py", "report/page.css", "report/change.css", "report/page.js"):
            self.assertIn(f"span_margin/{name}", modules)
        self.assertEqual({name: data for name, data in found.items() if name in modules}, modules)
        about_files = {f"{INFO}/{name}" for name in ("METADATA", "WHEEL", "RECORD", "entry_points.txt")}
        self.assertEqual(set(found) - set(modules), about_files)
        about = email.message_from_bytes(found[f"{INFO}/METADATA"])
        self.assertEqual((about["Name"], about["Version"], about["Requires-Python"]), ("span-margin", span.__version__, ">=3.9"))
        self.assertNotIn("Requires-Dist", about)
        self.assertEqual((about["Author"], about["License"]), ("The maintainers of span", "No licence has been chosen yet"))
        self.assertIn("No licence has been chosen yet.", (PACKAGE.parent / "README.md").read_text(encoding="utf-8"))
        self.assertTrue(about["Summary"].startswith("Margin requirements of futures and options"))
        self.assertEqual(about.get_payload(), (PACKAGE / "README.md").read_text(encoding="utf-8"))
        self.assertEqual(about["Description-Content-Type"], "text/markdown")
        self.assertIn("Programming Language :: Python :: 3.9", about.get_all("Classifier"))

    def test_packed(self) -> None:
        """The report finds its style and script in a wheel that is not unpacked."""
        build("build_wheel", self.room)
        words = [sys.executable, "-m", "span_margin", "report"]
        explained = (EXAMPLES / "explanation-broker.csv").read_bytes()
        pages = [
            subprocess.run(words, input=explained, check=True, stdout=subprocess.PIPE, env={
                **os.environ, "PYTHONPATH": str(place), "SOURCE_DATE_EPOCH": "1763157600"}).stdout
            for place in (self.room / WHEEL, PACKAGE / "src")
        ]
        self.assertIn(b"<style>", pages[0])
        self.assertEqual(*pages)

    def test_with_program(self) -> None:
        """The wheel of a platform has the files of the other one, and the program with the record of its proof."""
        (self.room / "record").write_text("the record\n", encoding="utf-8")
        plain = self.contents()
        settings = {"program": os.environ["SPAN"], "platform": PLATFORM, "record": str(self.room / "record")}
        self.assertEqual(build("build_wheel", self.room, settings), WITH_PROGRAM)
        with zipfile.ZipFile(WITH_PROGRAM) as archive:
            found = {name: archive.read(name) for name in archive.namelist()}
            modes = {it.filename: it.external_attr >> 16 for it in archive.infolist()}
        own = {"span_margin/bin/span": Path(os.environ["SPAN"]).read_bytes(), "span_margin/bin/PROVED": b"the record\n"}
        self.assertEqual({name: found.pop(name) for name in own}, own)
        self.assertEqual((modes["span_margin/bin/span"], modes["span_margin/bin/PROVED"]), (0o100755, 0o100644))
        tag = email.message_from_bytes(found.pop(f"{INFO}/WHEEL"))
        self.assertEqual((tag["Tag"], tag["Root-Is-Purelib"]), (f"py3-none-{PLATFORM}", "false"))
        self.assertEqual(set(plain) - set(found), {f"{INFO}/WHEEL"})
        self.assertEqual({name for name in found if plain[name] != found[name]}, {f"{INFO}/RECORD", f"{INFO}/entry_points.txt"})
        commands = plain[f"{INFO}/entry_points.txt"]
        self.assertEqual(found[f"{INFO}/entry_points.txt"], commands + b"span = span_margin._own:main\n")

    def test_command_of_the_program(self) -> None:
        """The command `span` gets its arguments, and the program does not ignore the signals that Python ignores."""
        words = ["-c", 'grep SigIgn /proc/$$/status; printf "%s\\n" "$@"', "sh", "a b", "", "--", "-x"]
        script = "import sys; from span_margin import _own; _own.OWN = '/bin/sh'; _own.main()"
        found = subprocess.check_output([sys.executable, "-c", script, *words])
        self.assertEqual(found, subprocess.check_output(["/bin/sh", *words]))

    def test_which_program(self) -> None:
        """The argument, then SPAN, the program in the wheel, PATH and the clone."""
        for name in ("argument", "environment", "wheel", "path/span", "clone"):
            (self.room / name).parent.mkdir(exist_ok=True)
            shutil.copy("/bin/true", self.room / name)
        self.use(SPAN=str(self.room / "environment"), PATH=str(self.room / "path"))
        self.enter(mock.patch.object(_program, "OWN", self.room / "wheel"))
        self.enter(mock.patch.object(_program, "_CLONE", self.room / "clone"))
        self.assertEqual(_program.find(self.room / "argument"), str(self.room / "argument"))
        for name in ("environment", "wheel", "path/span", "clone"):
            self.assertEqual(_program.find(), str(self.room / name))
            os.environ.pop("SPAN", None)
            if name != "environment":
                (self.room / name).unlink()

    def test_same_bytes_each_time(self) -> None:
        for hook in ("build_wheel", "build_sdist"):
            sums = set()
            for turn, zone in enumerate(("UTC", "Asia/Tokyo")):
                place = self.room / f"{hook}-{turn}"
                place.mkdir()
                name = build(hook, place, TZ=zone, SOURCE_DATE_EPOCH="1700000000")
                sums.add(hashlib.sha256((place / name).read_bytes()).hexdigest())
            self.assertEqual(len(sums), 1)
        build("build_wheel", self.room, SOURCE_DATE_EPOCH="1800000000")
        self.assertNotIn(hashlib.sha256(Path(WHEEL).read_bytes()).hexdigest(), sums)

    def test_source_archive_builds_the_wheel(self) -> None:
        wheel = self.contents()
        with tarfile.open(build("build_sdist", self.room)) as archive:
            archive.extractall()
        words = [sys.executable, "-B", "-c", "import sys; sys.path.insert(0, 'backend'); import span_build; span_build.build_wheel('..')"]
        subprocess.run(words, cwd=f"span_margin-{span.__version__}", check=True)
        with zipfile.ZipFile(WHEEL) as archive_again:
            self.assertEqual({name: archive_again.read(name) for name in archive_again.namelist()}, wheel)


@unittest.skipUnless(HAS_VENV, "there is no venv")
class Installed(Case):
    def test_pip(self) -> None:
        """pip installs the directory, and the wheel, without a network; the example runs from there."""
        source = self.room / "source"
        shutil.copytree(PACKAGE, source, ignore=shutil.ignore_patterns("__pycache__", ".mypy_cache"))
        subprocess.run([sys.executable, "-m", "venv", "venv"], check=True)
        python = str(self.room / "venv" / "bin" / "python")
        environment = {**os.environ, "PIP_NO_INDEX": "1", "PIP_DISABLE_PIP_VERSION_CHECK": "1"}
        del environment["PYTHONPATH"]
        for package in (source, build("build_wheel", self.room)):
            words = [python, "-m", "pip", "install", "-q", "--force-reinstall", str(package)]
            subprocess.run(words, check=True, env=environment, stdout=subprocess.DEVNULL)
            script = "import span_margin as span, sys; print(span.__file__, span.check(sys.argv[1]).set)"
            said = subprocess.check_output([python, "-c", script, str(PARAMS)], env=environment, text=True)
            self.assertTrue(said.startswith(str(self.room / "venv")), said)
            self.assertTrue(said.endswith(" D20251114\n"), said)
        for name in ("span-report", "span-desk"):
            said = subprocess.check_output([f"{self.room}/venv/bin/{name}", "--version"], text=True)
            self.assertEqual(said, f"{name} {span.__version__}\n")
        self.assertFalse((self.room / "venv/bin/span").exists())

    @unittest.skipUnless(glibc() >= (2, 34), "the C library is older than the wheel requires")
    def test_wheel_with_program(self) -> None:
        """pip installs one file. Then the package works if there is nothing else, not even a PATH."""
        subprocess.run([sys.executable, "-m", "venv", "venv"], check=True)
        python = str(self.room / "venv" / "bin" / "python")
        wheel = build("build_wheel", self.room, {"program": os.environ["SPAN"], "platform": PLATFORM})
        environment = {"PIP_NO_INDEX": "1", "PIP_DISABLE_PIP_VERSION_CHECK": "1", "PATH": "", "HOME": str(self.room)}
        subprocess.run([python, "-m", "pip", "install", "-q", wheel], check=True, env=environment, stdout=subprocess.DEVNULL)
        os.remove(wheel)
        script = "import span_margin as span, sys; print(span.margin(*sys.argv[1:])['RIVER-01'].total)"
        said = subprocess.check_output([python, "-c", script, str(PARAMS), str(POSITIONS)], env=environment, text=True)
        self.assertEqual(said, "1331287\n")
        said = subprocess.check_output([self.room / "venv/bin/span", "margin", PARAMS, POSITIONS], env=environment)
        self.assertEqual(said, (EXAMPLES / "statement-broker.csv").read_bytes())
