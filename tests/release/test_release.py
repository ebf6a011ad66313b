"""Tries the archive and the Debian package that tools/release has left in out/release, as somebody without a toolchain would.

Both are unpacked into an empty folder. If the machine allows it, this clone and the toolchain are hidden meanwhile, and the path has a few tools
only. RELEASE names another folder."""

import glob
import hashlib
import io
import os
import re
import shutil
import subprocess
import sys
import tarfile
import tempfile
import urllib.request
from typing import NamedTuple

import pytest

import kit
import library_calls as calls
from conftest import need
from documents import sessions
from programs import PROGRAMS, TOP, run, tool

RELEASE = tool("release")
FOLDER = os.environ.get("RELEASE", os.path.join(TOP, "out", "release"))
VERSION = RELEASE.BUILD_C.version()
ARCHIVE, PACKAGE = (os.path.join(FOLDER, it) for it in RELEASE.names_of(VERSION))
# The tools that the launcher and the sessions may use.
TOOLS = "sh bash env cat basename dirname head ls printf readlink tail uname".split()
PROBLEM = "#fen=k5/6/2K3/6/6/1R4_w&goal=mate&limit=3"
HIDES = 'mount=$1 n=$2; shift 2; while [ "$n" -gt 0 ]; do "$mount" -t tmpfs none "$1" || exit 125; shift; n=$((n - 1)); done; exec "$@"'

pytestmark = pytest.mark.skipif(not os.path.isfile(ARCHIVE) or not os.path.isfile(PACKAGE), reason="no release in out/release: tools/release makes it")


class Unpacked(NamedTuple):
    """A release that was unpacked: the folder that has bin/, the folder of its library, and a folder of the tools that it may use."""

    top: str
    library: str
    tools: str

    def path(self):
        return f"{os.path.join(self.top, 'bin')}:{self.tools}"


@pytest.fixture(scope="module", params=["archive", "package"])
def unpacked(request, tmp_path_factory):
    need("cc", "pkg-config", "readelf", "nm", "dpkg-deb", "strip")
    root = str(tmp_path_factory.mktemp(request.param))
    tools = os.path.join(root, "tools")
    os.mkdir(tools)
    for name in filter(shutil.which, TOOLS):
        os.symlink(shutil.which(name), os.path.join(tools, name))
    if request.param == "archive":
        subprocess.run(["tar", "xf", ARCHIVE, "-C", root], check=True)
        top, layout = os.path.join(root, os.path.basename(ARCHIVE).removesuffix(".tar.gz")), RELEASE.ARCHIVE
    else:
        subprocess.run(["dpkg-deb", "-x", PACKAGE, root], check=True)
        top, layout = os.path.join(root, "usr"), RELEASE.PACKAGE
    return Unpacked(top, os.path.join(top, layout.library), tools)


@pytest.fixture(scope="module")
def hidden():
    """Words before a command for which this clone and the toolchain are empty folders; none if the machine doesn't allow that."""
    folders = [TOP]
    try:
        folders.append(os.path.dirname(os.path.dirname(kit.Kit().file("c/liblibc_c.a"))))
    except kit.NotProved:
        pass
    unshare, mount = shutil.which("unshare"), shutil.which("mount")
    words = [unshare, "--user", "--map-root-user", "--mount", shutil.which("sh"), "-c", HIDES, "sh", mount, str(len(folders)), *folders]
    if not unshare or not mount or run([*words, "true"]).status != 0:
        return []
    for folder in folders:
        assert run([*words, "ls", "-A", folder]) == (0, b"", b"")
    return words


def files_below(folder):
    return sorted(path for path in glob.glob(os.path.join(folder, "**"), recursive=True) if os.path.isfile(path) and not os.path.islink(path))


# What is packed


def test_the_sums_are_those_of_both_files():
    wanted = "".join(f"{hashlib.sha256(open(it, 'rb').read()).hexdigest()}  {os.path.basename(it)}\n" for it in (ARCHIVE, PACKAGE))
    with open(os.path.join(FOLDER, "SHA256SUMS"), encoding="ascii") as file:
        assert file.read() == wanted


def members_of(data):
    with tarfile.open(fileobj=io.BytesIO(data)) as packed:
        return packed.getmembers()


@pytest.fixture(scope="module")
def members():
    """The members of the archive and of the package, each with the folder that they are in."""
    with open(ARCHIVE, "rb") as file:
        archive = members_of(file.read())
    return [(archive, os.path.basename(ARCHIVE).removesuffix(".tar.gz")), (members_of(run(["dpkg-deb", "--fsys-tarfile", PACKAGE]).output), "usr")]


def test_members_are_in_order_and_have_the_owner_mode_and_time_that_they_should(members):
    for packed, top in members:
        links = {it.name.removeprefix("./") for it in packed if it.issym()}
        names = [it.name.removeprefix("./") for it in packed if it.name != "."]
        # dpkg-deb puts links last.
        assert names == (sorted(names) if top != "usr" else sorted(names, key=lambda it: (it in links, it.split("/"))))
        assert [it for it in names if it.split("/")[0] != top] == []
        assert {(it.uid, it.gid, it.uname, it.gname) for it in packed} == {(0, 0, "root", "root")}
        kinds = {tarfile.DIRTYPE: {0o755}, tarfile.SYMTYPE: {0o777}, tarfile.REGTYPE: {0o644, 0o755}}
        assert [it.name for it in packed if it.mode not in kinds.get(it.type, ())] == []
        programs = sorted(os.path.basename(it.name) for it in packed if it.isreg() and it.mode == 0o755)
        assert programs == sorted(["minimate", *PROGRAMS])
    assert len({it.mtime for packed, _ in members for it in packed}) == 1


def test_the_package_has_its_sums_and_fields(tmp_path, count):
    run(["dpkg-deb", "-R", PACKAGE, tmp_path / "whole"])
    rows = [line.split("  ") for line in (tmp_path / "whole/DEBIAN/md5sums").read_text().splitlines()]
    assert rows and [path for _, path in rows] == sorted(path for _, path in rows)
    assert [hashlib.md5((tmp_path / "whole" / path).read_bytes()).hexdigest() for _, path in rows] == [it for it, _ in rows]
    fields = {name: run(["dpkg-deb", "-f", PACKAGE, name]).output.decode().strip() for name in ("Package", "Version", "Architecture")}
    assert fields == {"Package": "minimate", "Version": VERSION, "Architecture": "amd64"}
    count(len(rows))


def test_no_file_names_a_folder_in_which_something_was_built(unpacked, count):
    folders = [os.fsencode(it) + b"/" for it in (TOP, tempfile.gettempdir())]
    files = files_below(unpacked.top)
    for path in files:
        with open(path, "rb") as file:
            data = file.read()
        assert [it for it in folders if it in data] == [], path
    count(len(files))


# The programs


def plain_sessions(text):
    """Yields the commands of a text whose examples are indented, with their output."""
    for part in re.findall(r"^    \$ (.*\n(?:    (?!\$ ).*\n)*)", text, flags=re.M):
        command, _, output = part.partition("\n")
        yield command, output.replace("    ", "")


def test_the_sessions_of_both_readmes_run(unpacked, hidden, count):
    """What needs a tool of the clone is left out."""
    with open(os.path.join(unpacked.top, "share/doc/minimate/README"), encoding="utf-8") as file:
        own = list(plain_sessions(file.read()))
    ours = [it for it in sessions(RELEASE.bytes_of("README.md").decode()) if "tools/" not in it[0]]
    assert len(own) > 2 and ours
    for command, output in [*ours, *own]:
        words = ["bash", "-c", f"exec 2>&1\n{command.replace('./minimate ', 'minimate ')}"]
        ran = run([*hidden, *words], env={"PATH": unpacked.path(), "HOME": "/nonexistent"}, cwd="/")
        assert ran.output.decode(errors="replace") == output, command
    count(len(ours) + len(own))


@pytest.mark.parametrize(
    "line, output",
    [
        (f"minimate certify --limit 3 '{calls.THIRD}' | minimate verify '{calls.THIRD}'", b"mate 3 c4c5\n"),
        (f"minimate solution --limit 1 '{calls.FIRST}'", b"mate in 1\n1.Rf6#!\n"),
        (f"printf '{calls.FIRST}\\n' | minimate batch --limit 1", b"mate 1 f1f6\n"),
    ],
)
def test_the_launcher_starts_each_program(unpacked, hidden, line, output):
    assert run([*hidden, "sh", "-c", line], env={"PATH": unpacked.path()}, cwd="/") == (0, output, b"")


def test_the_launcher_runs_through_a_link_from_another_folder(unpacked, hidden, tmp_path):
    os.symlink(os.path.join(unpacked.top, "bin/minimate"), tmp_path / "a link")
    words = [*hidden, tmp_path / "a link", "solve", "--limit", "1", calls.FIRST]
    assert run(words, env={"PATH": unpacked.tools}, cwd="/") == (0, b"mate 1 f1f6\n", b"")


# The library


def pkg_config(unpacked, *words):
    """Returns what pkg-config prints if it knows this release alone. A package that isn't installed has its root before its folders."""
    settings = {name: value for name, value in os.environ.items() if not name.startswith("PKG_CONFIG_")}
    settings["PKG_CONFIG_LIBDIR"] = os.path.join(unpacked.library, "pkgconfig")
    if unpacked.top.endswith("/usr"):
        # The folders of a package are those of the system, which pkg-config leaves out otherwise.
        settings.update(PKG_CONFIG_SYSROOT_DIR=os.path.dirname(unpacked.top), PKG_CONFIG_ALLOW_SYSTEM_CFLAGS="1", PKG_CONFIG_ALLOW_SYSTEM_LIBS="1")
    return run(["pkg-config", *words, "minimate"], env=settings).output.decode().split()


def test_versions_and_names_of_the_library_agree(unpacked):
    name, major = os.path.join(unpacked.library, "libminimate.so"), VERSION.partition(".")[0]
    assert pkg_config(unpacked, "--modversion") == [VERSION]
    assert os.path.basename(os.path.realpath(name)) == f"libminimate.so.{VERSION}"
    told = run(["readelf", "-dW", name]).output.decode()
    assert re.findall(r"\(SONAME\).*\[(.*)\]", told) == [f"libminimate.so.{major}"]
    assert os.path.exists(os.path.join(unpacked.library, f"libminimate.so.{major}"))
    assert re.findall(r"\(NEEDED\).*\[(.*)\]", told) == ["libc.so.6"]
    rows = run(["nm", "-D", "--defined-only", name]).output.decode().splitlines()
    with open(os.path.join(unpacked.top, "include/minimate.h"), encoding="utf-8") as header:
        declared = set(re.findall(r"^(?:size_t|uint32_t|void) (minimate_\w+)\(", header.read(), flags=re.M))
    assert {row.split()[-1] for row in rows if row} == declared


@pytest.mark.parametrize("how", ["static", "shared"])
def test_a_program_in_c_is_compiled_by_pkg_config_and_has_the_known_replies(unpacked, tmp_path, count, how):
    made = str(tmp_path / "caller")
    around = {"static": ["-Wl,-Bstatic", "-Wl,-Bdynamic"], "shared": ["", f"-Wl,-rpath,{unpacked.library}"]}[how]
    linked = filter(None, [around[0], *pkg_config(unpacked, "--libs"), around[1]])
    source = os.path.join(TOP, "tests", "library", "caller.c")
    words = ["cc", "-std=c11", "-D_POSIX_C_SOURCE=200809L", "-Wall", "-Werror", "-pthread", *pkg_config(unpacked, "--cflags"), "-o", made, source, *linked]
    ran = run(words)
    assert (ran.status, ran.error) == (0, b"")
    assert ("libminimate.so" in run(["readelf", "-dW", made]).output.decode()) == (how == "shared")
    known = [it for it in [*calls.KNOWN, *calls.APART] if len(it[0].tree) < 100_000]
    for asked, wanted in known:
        assert calls.c_reply(made, asked, len(wanted) + 100) == wanted, asked
    count(len(known))


def test_the_package_for_python_finds_the_library_of_its_release(unpacked, hidden):
    found = {"PYTHONPATH": os.path.join(unpacked.top, "share/minimate/python"), "PYTHONDONTWRITEBYTECODE": "1"}
    if unpacked.library != os.path.join(unpacked.top, "lib"):
        # The system doesn't know a package that isn't installed.
        found["MINIMATE_LIBRARY"] = unpacked.library
    words = [sys.executable, "-m", "minimate", "solve", "--limit", "3", calls.THIRD]
    assert run([*hidden, *words], env={"PATH": unpacked.tools, **found}, cwd="/") == (0, b"mate 3 c4c5\n", b"")


# The page


def test_a_plain_server_serves_the_page(unpacked, count):
    pytest.importorskip("selenium", reason="no selenium for this Python")
    need("chromium", "chromedriver")
    import browser

    folder = os.path.join(unpacked.top, "share/minimate/web")
    server = browser.Server(folder)
    paths = [os.path.relpath(path, folder) for path in files_below(folder)]
    with open(os.path.join(TOP, "web", "offline.js"), encoding="ascii") as kept:
        listed = re.findall(r'^  "([^"]+\.\w+)",$', kept.read(), flags=re.M)
    assert {"offline.js", *listed, *(f"out/{name}" for name in RELEASE.MODULES)} <= set(paths)
    for path in paths:
        with open(os.path.join(folder, path), "rb") as file, urllib.request.urlopen(server.url + path, timeout=10) as came:
            assert came.read() == file.read(), path
            kind = {".wasm": "application/wasm", ".js": "javascript", ".html": "text/html"}.get(os.path.splitext(path)[1], "")
            assert kind in came.headers.get_content_type(), path
    driver = browser.chromium()
    try:
        tab = browser.Tab(driver, server.url + PROBLEM)
        assert tab.wait("document.documentElement?.dataset.ready")
        tab.click("#solve")
        assert tab.wait("document.querySelector('.tree')")
        assert tab.value("document.getElementById('answer').textContent") == "Mate in 2 moves (3 plies): 1.Kc5" and tab.faults() == []
    finally:
        driver.quit()
    count(len(paths))


# The packing


def test_packed_again_in_other_circumstances_the_bytes_are_the_same(members, tmp_path):
    need("dpkg-deb", "strip")
    subprocess.run(["tar", "xf", ARCHIVE, "-C", tmp_path], check=True)
    top = tmp_path / os.path.basename(ARCHIVE).removesuffix(".tar.gz")
    made = []
    for mask, zone, language in ((0o022, "UTC", "C"), (0o077, "Asia/Tokyo", "de_DE.UTF-8")):
        folder = tmp_path / f"packed {mask}"
        packer = {"SOURCE_DATE_EPOCH": str(members[0][0][0].mtime), "DEBFULLNAME": "A Packer", "DEBEMAIL": "packer@localhost"}
        words = [os.path.join(TOP, "tools", "release"), "--from", top, "--folder", folder]
        ran = run(words, env={**os.environ, **packer, "TZ": zone, "LC_ALL": language}, umask=mask, timeout=600)
        assert ran.status == 0, ran.error
        made.append((folder / "SHA256SUMS").read_text())
    assert made[1] == made[0]


def test_lintian_finds_no_fault():
    need("lintian")
    # The address is that of the commit's author or of the packer. This test doesn't judge it.
    addresses = "bogus-mail-host,bogus-mail-host-in-debian-changelog"
    ran = run(["lintian", "--fail-on", "error,warning", "--suppress-tags", addresses, "--allow-root", PACKAGE], timeout=300)
    assert (ran.status, ran.output.decode()) == (0, "")
