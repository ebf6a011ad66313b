"""The package for Python, installed by pip as docs/reference/python.md describes, into an environment of its own and without a network."""

import filecmp
import glob
import importlib.util
import os
import re
import shutil
import sys
import sysconfig
import zipfile

import pytest

from library_calls import THIRD
from programs import TOP, run
from python_package import FOLDER, PAGE

PIP = {"PIP_NO_INDEX": "1", "PIP_DISABLE_PIP_VERSION_CHECK": "1", "PYTHONDONTWRITEBYTECODE": "1"}
SOLVES = f"import minimate; print(minimate.__file__, minimate.library_path(), minimate.Solver().solve({THIRD!r}, 3))"
IN_PLACE = ["install", "--editable", "./python"]
WITHOUT_LIBRARY = "found no libminimate.so: build it by tools/build_c --shared, or name it by MINIMATE_LIBRARY"

pytestmark = pytest.mark.skipif(importlib.util.find_spec("ensurepip") is None, reason="this Python has no ensurepip")


def arguments_of_page():
    """The arguments of `pip` in the page's command."""
    with open(PAGE, encoding="utf-8") as page:
        return re.search(r"^pip (install .*?)(?: +#.*)?$", page.read(), flags=re.M)[1].split()


def bare(**more):
    """The environment of a process that finds neither the library nor the package by a variable."""
    return {**{name: value for name, value in os.environ.items() if name not in ("PYTHONPATH", "MINIMATE_LIBRARY")}, **PIP, **more}


class Venv:
    """A clean environment, with pip and nothing else."""

    def __init__(self, folder):
        self.folder = str(folder)
        assert run([sys.executable, "-m", "venv", self.folder], timeout=300, env=bare()).status == 0

    def run(self, *words, cwd=TOP, **more):
        path = os.path.join(self.folder, "bin")
        found = bare(PATH=f"{path}:{os.environ['PATH']}", **more)
        return run([os.path.join(path, words[0]), *words[1:]], timeout=300, cwd=cwd, env=found)

    def installed(self):
        """Returns the names of the package's files, and its folders."""
        found = glob.glob(os.path.join(self.folder, "lib", "python*", "site-packages", "minimate"))
        return {it for folder in found for it in os.listdir(folder) if it != "__pycache__"}, found


@pytest.fixture
def venv(tmp_path):
    return Venv(tmp_path / "venv")


def test_pip_installs_the_package_with_its_library(shared_library, venv, tmp_path):
    ran = venv.run("pip", *arguments_of_page())
    assert ran.status == 0, ran
    names, folders = venv.installed()
    assert names == {os.path.basename(it) for it in glob.glob(os.path.join(FOLDER, "minimate", "*.*"))} | {"libminimate.so"}
    wanted = [os.path.join(*folders, name) for name in ("__init__.py", "libminimate.so")]
    ran = venv.run("python", "-c", SOLVES, cwd=tmp_path)
    assert (ran.status, ran.output.decode()) == (0, f"{' '.join(wanted)} mate 3 c4c5\n")
    assert filecmp.cmp(shared_library, wanted[1], shallow=False)


def test_the_wheel_is_of_the_platform_and_a_second_one_has_the_same_bytes(shared_library, venv, tmp_path):
    made = []
    for folder in (tmp_path / "wheel", tmp_path / "again"):
        venv.run("pip", "wheel", "--wheel-dir", folder, "./python")
        made += folder.glob("*.whl")
    tag = f"py3-none-{sysconfig.get_platform().replace('-', '_').replace('.', '_')}"
    assert [it.name.split("-", 2)[2] for it in made] == 2 * [f"{tag}.whl"]
    assert filecmp.cmp(*made, shallow=False)
    with zipfile.ZipFile(made[0]) as wheel:
        told = wheel.read(next(it for it in wheel.namelist() if it.endswith("/WHEEL"))).decode()
        assert wheel.read("minimate/libminimate.so") == open(shared_library, "rb").read()
    assert re.findall(r"^(?:Root-Is-Purelib|Tag): (.*)$", told, flags=re.M) == ["false", tag]


def test_installed_in_place_the_package_and_its_library_are_the_clones(shared_library, venv, tmp_path):
    ran = venv.run("pip", *IN_PLACE)
    assert ran.status == 0, ran
    ran = venv.run("python", "-c", SOLVES, cwd=tmp_path)
    wanted = f"{os.path.join(FOLDER, 'minimate', '__init__.py')} {shared_library} mate 3 c4c5\n"
    assert (ran.status, ran.output.decode(), venv.installed()[0]) == (0, wanted, set())
    ran = venv.run("pip", "uninstall", "--yes", "minimate")
    gone = venv.run("python", "-c", SOLVES, cwd=tmp_path)
    assert (ran.status, gone.status, b"No module named 'minimate'" in gone.error) == (0, 1, True)


def test_without_a_library_pip_stops_and_says_what_to_do(venv, tmp_path):
    clone = tmp_path / "clone"
    shutil.copytree(FOLDER, clone / "python", ignore=shutil.ignore_patterns("__pycache__", "*.so"))
    for words in (arguments_of_page(), IN_PLACE):
        ran = venv.run("pip", *words, cwd=clone)
        text = (ran.output + ran.error).decode()
        assert (ran.status, WITHOUT_LIBRARY in text, "Traceback" in text, venv.installed()[0]) == (1, True, False, set()), text
    ran = venv.run("pip", *arguments_of_page(), cwd=clone, MINIMATE_LIBRARY="/nowhere/libminimate.so")
    assert ran.status == 1 and b"/nowhere/libminimate.so" in ran.output + ran.error
