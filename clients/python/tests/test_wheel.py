"""The wheel: built with a library in it and without one, installed into an environment of its own, and imported there.

It is skipped where no Python here has what that takes: setuptools and wheel to build, pip and venv to install.
"""
import functools
import importlib
import os
import re
import shutil
import subprocess
import sys
import unittest
import zipfile
from pathlib import Path
from typing import Dict, List, Optional, Tuple

import liq
from liq.__main__ import COMMANDS

from .market import LIBRARY, TOP, InFolder

WHEEL = TOP / "scripts/wheel"
COMPILER = os.environ.get("CC") or next(filter(shutil.which, ("cc", "gcc", "clang")), None)
IS_THERE = "import importlib.util, sys; sys.exit(not all(map(importlib.util.find_spec, sys.argv[1:])))"


@functools.lru_cache(maxsize=None)
def python_with(*modules: str) -> Optional[str]:
    """A Python that has modules: this one, or that of the system."""
    for python in (sys.executable, "/usr/bin/python3"):
        if Path(python).exists() and subprocess.run([python, "-c", IS_THERE, *modules]).returncode == 0:
            return python
    return None


def environment(**variables: str) -> Dict[str, str]:
    """That of a process which finds no package but its own."""
    others = ("PYTHONPATH", "PYTHONHOME", "LIQ_LIBRARY")
    left = {name: value for name, value in os.environ.items() if name not in others}
    return {**left, "PYTHONDONTWRITEBYTECODE": "1", "PIP_DISABLE_PIP_VERSION_CHECK": "1", **variables}


def built(into: Path, library: str) -> Tuple[Path, str]:
    """The wheel of `scripts/wheel`, and what that says."""
    named = environment(LIQ_LIBRARY=library)
    ran = subprocess.run([WHEEL, into], env=named, capture_output=True, text=True, check=True)
    return Path(ran.stdout.strip()), ran.stderr


@unittest.skipUnless(python_with("setuptools", "wheel"), "no Python here has setuptools and wheel")
class Wheels(InFolder):
    """Wheels, of which one has a library that answers nothing but which interface it has."""

    def stub(self) -> Path:
        """A library that can be loaded and found to fit, and nothing more."""
        if COMPILER is None:
            self.skipTest("there is no C compiler")
        names = [name for name in liq.library.CALLS if name != "abi"]
        text = "unsigned liq_abi(void) { return 1; }\n" + "\n".join(f"void liq_{name}(void) {{}}" for name in names)
        (self.folder / "stub.c").write_text(text)
        path = self.folder / "stub.so"
        subprocess.run([COMPILER, "-shared", "-fPIC", "-o", path, self.folder / "stub.c"], check=True)
        return path

    def installed(self, wheel: Path) -> Path:
        """The Python of an environment in which a wheel is installed, without a network."""
        pip = python_with("pip", "venv")
        if pip is None:
            self.skipTest("no Python here has pip and venv")
        place = self.folder / "environment"
        subprocess.run([pip, "-m", "venv", "--without-pip", place], check=True, env=environment())
        python = place / "bin/python"
        words = [pip, "-m", "pip", "--python", python, "install", "--quiet", "--no-index", "--no-deps", wheel]
        ran = subprocess.run(words, env=environment(), capture_output=True, text=True)
        if "no such option: --python" in ran.stderr:
            self.skipTest("this pip installs into no other environment")
        self.assertEqual(ran.returncode, 0, ran.stderr)
        return python

    def says(self, python: Path, *words: str, **variables: str) -> str:
        ran = subprocess.run(
            [python, *words], cwd=self.folder, env=environment(**variables), capture_output=True, text=True)
        return ran.stdout + ran.stderr

    def test_without_a_library(self) -> None:
        wheel, said = built(self.folder / "made", "none")
        self.assertIn("wheel: without the library", said)
        self.assertRegex(wheel.name, r"^liq-[0-9.]+(\+[0-9a-f]{12}(\.changed)?)?-py3-none-any\.whl$")
        with zipfile.ZipFile(wheel) as opened:
            names = set(opened.namelist())
        package = TOP / "clients/python"
        wanted = {str(path.relative_to(package)) for path in (package / "liq").rglob("*.py")} | {"liq/py.typed"}
        wanted |= {str(path.relative_to(package)) for path in (package / "liq").glob("templates/*")}
        self.assertEqual({name for name in names if name.startswith("liq/")}, wanted)
        again, _ = built(self.folder / "again", "none")
        self.assertEqual(wheel.read_bytes(), again.read_bytes())
        python = self.installed(wheel)
        text = "import liq; print(liq.__version__, liq.__file__); liq.Market()"
        told = self.says(python, "-c", text, LIQ_LIBRARY="x")
        self.assertIn(f" {self.folder}/environment/lib/", told)
        self.assertIn(f"liq-{told.split(' ')[0]}-", wheel.name)
        self.assertTrue(told.split(" ")[0].startswith(liq.__version__))
        self.assertIn("liq.library.NoLibrary: there is no library at ", told)
        self.check_commands(python)

    def check_commands(self, python: Path) -> None:
        """Each command stands in the environment, and says what it is."""
        scripts = sorted(path.name for path in (python.parent).glob("liq-*"))
        self.assertEqual(scripts, sorted("liq-" + name.rpartition(".")[2] for name in COMMANDS))
        told = self.says(python.parent / "liq-guard", "--version")
        self.assertRegex(told, r"^liq\.guard [0-9.]+")
        self.assertIn("python3 -m liq.backup FOLDER DIR", self.says(python, "-m", "liq"))
        self.assertIn(f"no journal in {self.folder}", self.says(python.parent / "liq-guard", str(self.folder)))

    def test_with_a_library(self) -> None:
        stub = self.stub()
        wheel, said = built(self.folder / "made", str(stub))
        self.assertEqual(said, f"wheel: {stub} doesn't say that it was built from proofs\n")
        self.assertRegex(wheel.name, r"-py3-none-(many)?linux_([0-9]+_[0-9]+_)?x86_64\.whl$")
        with zipfile.ZipFile(wheel) as opened:
            self.assertEqual(opened.read("liq/libliq.so"), stub.read_bytes())
        python = self.installed(wheel)
        text = "from liq.library import load_library; print(load_library().path)"
        (beside,) = (self.folder / "environment").glob("lib/python3*/site-packages/liq/libliq.so")
        self.assertEqual(self.says(python, "-c", text), f"{beside}\n")
        self.assertEqual(self.says(python, "-c", text, LIQ_LIBRARY=str(stub)), f"{stub}\n")

    @unittest.skipIf(LIBRARY is None, "there is no libliq.so")
    def test_with_the_library(self) -> None:
        wheel, _ = built(self.folder / "made", str(LIBRARY))
        found = re.findall(rb"GLIBC_2\.([0-9]+)", Path(str(LIBRARY)).read_bytes())
        self.assertIn(f"-manylinux_2_{max(map(int, found))}_x86_64.whl", wheel.name)
        text = "import liq; print(liq.Market().client(1).fund(7, 5), liq.library.find_library().name)"
        self.assertEqual(self.says(self.installed(wheel), "-c", text), "Done() libliq.so\n")

    def test_a_library_that_is_not_there(self) -> None:
        named = environment(LIQ_LIBRARY="/none.so")
        ran = subprocess.run([WHEEL, self.folder], env=named, capture_output=True, text=True)
        self.assertEqual((ran.returncode, ran.stderr), (1, "wheel: there is no library at /none.so\n"))


class Editable(InFolder):
    def test_the_checkout_itself(self) -> None:
        """As clients/python/README.md has it: an environment that sees the system's setuptools, and no network."""
        python = python_with("setuptools", "wheel", "pip", "venv")
        if python is None:
            self.skipTest("no Python here has setuptools, wheel, pip and venv")
        place, checkout = self.folder / "environment", self.folder / "python"
        ignored = shutil.ignore_patterns("__pycache__", "tests")
        shutil.copytree(TOP / "clients/python", checkout, ignore=ignored)  # for an installation leaves notes there
        words = [python, "-m", "venv", "--system-site-packages", "--without-pip", place]
        subprocess.run(words, check=True, env=environment())
        words = [str(place / "bin/python"), "-m", "pip", "install", "--quiet", "--no-index", "--no-build-isolation"]
        ran = subprocess.run([*words, "-e", checkout], env=environment(), capture_output=True, text=True)
        if "No module named pip" in ran.stderr:
            self.skipTest("this environment sees no pip")
        self.assertEqual(ran.returncode, 0, ran.stderr)
        told = subprocess.run(
            [place / "bin/python", "-c", "import liq; print(liq.__version__, liq.__file__)"], cwd="/",
            env=environment(), capture_output=True, text=True)
        self.assertEqual(told.stdout, f"{liq.__version__} {checkout}/liq/__init__.py\n")


class Versions(unittest.TestCase):
    """The version is said once."""

    def test_in_one_place(self) -> None:
        package = TOP / "clients/python"
        self.assertIn('version = { attr = "liq.version.__version__" }', (package / "pyproject.toml").read_text())
        holding = [path.name for path in package.rglob("*.py") if f'"{liq.__version__}"' in path.read_text()]
        self.assertEqual(holding, ["version.py"])

    def test_each_command_has_its_script(self) -> None:
        text = (TOP / "clients/python/pyproject.toml").read_text()
        scripts: List[Tuple[str, str]] = re.findall(r'^liq-(\w+) = "liq\.([\w.]+):command"$', text, re.MULTILINE)
        wanted = {(name.rpartition(".")[2], each.module) for name, each in COMMANDS.items()}
        self.assertEqual(set(scripts), wanted)
        for _, module in scripts:
            made = importlib.import_module(f"liq.{module}")
            self.assertTrue(callable(made.main) and callable(made.command), module)
