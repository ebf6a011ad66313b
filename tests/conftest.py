"""Fixtures of the tests outside Rattle: the programs, the C library and the browser; and two rules of the whole run.

The rules: a skip fails the run unless `--may-skip` lists its reason, and the summary says how many comparisons each file made, since many tests
go over a large table in one function (fixture `count`).

    /usr/bin/python3 -m pytest tests [-n 4] [--program PATH] [--may-skip REASON ..]
"""

import collections
import contextlib
import fcntl
import importlib
import os
import shutil
import signal
import subprocess
import sys

import pytest

import clones
import programs as of_programs

sys.dont_write_bytecode = True
# Programs that the tests start inherit which signals are ignored, as under `nohup`.
signal.signal(signal.SIGINT, signal.default_int_handler)
signal.signal(signal.SIGHUP, signal.SIG_DFL)
TOP = of_programs.TOP


def pytest_addoption(parser):
    parser.addoption("--program", metavar="PATH", help="the program `minimate` (default: crates/minimate/out/minimate, or what the launcher builds)")
    parser.addoption("--may-skip", metavar="REASON", action="append", default=[], help="how the reason of an allowed skip begins; may be repeated")


@contextlib.contextmanager
def one_at_a_time(name):
    """Lets one process at a time build what the others wait for."""
    os.makedirs(os.path.join(TOP, "out"), exist_ok=True)
    with open(os.path.join(TOP, "out", f"{name}.lock"), "w", encoding="ascii") as lock:
        fcntl.flock(lock, fcntl.LOCK_EX)
        yield


def need(*tools):
    """Skips the test where one of these tools isn't installed."""
    for tool in tools:
        if not shutil.which(tool):
            pytest.skip(f"no {tool} on the path")


# Programs


@pytest.fixture(scope="session")
def program(request):
    """The path of the program `minimate`; the other programs stand beside it (`programs.started`)."""
    given = request.config.getoption("--program")
    with one_at_a_time("programs"):
        return of_programs.find(given, gate=True)


@pytest.fixture(scope="session")
def one_call():
    """The path of the program of the crate `one_call`, which makes one call of the library per line."""
    with one_at_a_time("programs"):
        return of_programs.find_one_call()


@pytest.fixture(params=["plain pages", "large pages"])
def pages(request, monkeypatch):
    """Runs the test as a user starts the program, and as the launcher starts a search."""
    environment = of_programs.plain(os.environ)
    if request.param == "large pages":
        environment = of_programs.launched(environment)
    monkeypatch.delenv(of_programs.TUNABLES, raising=False)
    for name in {of_programs.TUNABLES} & set(environment):
        monkeypatch.setenv(name, environment[name])
    return request.param


@pytest.fixture(scope="session")
def refusing(tmp_path_factory):
    """The library that counts and refuses requests for memory, preloaded into a run (refused_memory.py)."""
    need("cc")
    library = tmp_path_factory.mktemp("library") / "refuse_memory.so"
    source = os.path.join(TOP, "tests", "behaviour", "refuse_memory.c")
    subprocess.run(["cc", "-O1", "-shared", "-fPIC", "-o", library, source], check=True)
    return str(library)


# The C library


@pytest.fixture(scope="session")
def library():
    """The folder that holds libminimate.a and libminimate.so, built by tools/build_c where they aren't there."""
    need("cc")
    folder = os.path.join(TOP, "out")
    with one_at_a_time("library"):
        if not os.path.isfile(os.path.join(folder, "libminimate.so")):
            if not shutil.which("rt"):
                pytest.skip("no rt on the path, and no library in out/")
            subprocess.run([os.path.join(TOP, "tools", "build_c"), "--shared"], check=True)
    return folder


@pytest.fixture(scope="session")
def caller(library, tmp_path_factory):
    """The program of library/caller.c, which makes calls of the C library."""
    import library_calls

    return library_calls.compiled(tmp_path_factory.mktemp("caller"), library)


@pytest.fixture(scope="session")
def shared_library(library):
    """The path of libminimate.so."""
    return os.path.join(library, "libminimate.so")


@pytest.fixture(scope="module")
def package(shared_library):
    """The package `minimate` for Python, over the library."""
    with pytest.MonkeyPatch.context() as patch:
        patch.setenv("MINIMATE_LIBRARY", shared_library)
        patch.syspath_prepend(os.path.join(TOP, "python"))
        yield importlib.import_module("minimate")


# The page


@pytest.fixture(scope="session")
def page_url():
    """The address of the page in web/, whose modules web/build makes."""
    need("chromium", "chromedriver")
    pytest.importorskip("selenium", reason="no selenium for this Python")
    if not os.path.isfile(os.path.join(TOP, "web", "out", "minimate32.wasm")):
        pytest.skip("no modules in web/out: web/build makes them")
    import browser

    return browser.Server(os.path.join(TOP, "web")).url


@pytest.fixture(scope="session")
def driver(page_url):
    """A headless Chromium."""
    import browser

    made = browser.chromium()
    yield made
    made.quit()


@pytest.fixture(params=["mouse", "finger"])
def drive(request, driver, page_url):
    """A tab of the page, used by a mouse on a wide window or by a finger on a phone's. The page must throw nothing."""
    import drive as of_page

    made = of_page.Drive(driver, page_url, request.param)
    yield made
    faults = made.tab.faults()
    made.tab.close()
    assert faults == []


# Clones with a program that stands in for `rt`


@pytest.fixture
def clone(request):
    """A clone with the launcher, in a folder of its own. A parameter is the clone's name."""
    with clones.made(getattr(request, "param", "clone")) as made:
        yield made


@pytest.fixture(scope="module")
def built():
    """A clone in which all programs are built, for all tests of a file: they write nothing there."""
    with clones.made() as made:
        assert made.run("--all", launcher="tools/build_program").status == 0
        yield made


# Counts and skips


@pytest.fixture
def count(request):
    """Adds to the number of comparisons that the summary prints for the test's file: call it with how many the test has made."""
    return lambda number=1: request.node.user_properties.append(("comparisons", number))


def all_reports(reporter):
    return [it for kind in reporter.stats.values() for it in kind if isinstance(it, pytest.TestReport)]


def reason_of(report):
    text = report.longrepr[2] if isinstance(report.longrepr, tuple) else str(report.longrepr)
    return text.removeprefix("Skipped: ")


def pytest_terminal_summary(terminalreporter, config):
    made = collections.Counter()
    for report in all_reports(terminalreporter):
        if report.when == "call":
            made[report.nodeid.split("::")[0]] += sum(value for name, value in report.user_properties if name == "comparisons")
    for file, number in sorted(made.items()):
        if number:
            terminalreporter.write_line(f"{file}: {number} comparisons")
    for reason in sorted(unlisted(terminalreporter, config)):
        terminalreporter.write_line(f"FAILED: a skip that isn't listed: {reason}")


def unlisted(reporter, config):
    """The reasons of skips that no `--may-skip` lists."""
    listed = tuple(config.getoption("--may-skip"))
    return {it for it in map(reason_of, reporter.stats.get("skipped", [])) if not (listed and it.startswith(listed))}


@pytest.hookimpl(trylast=True)
def pytest_sessionfinish(session, exitstatus):
    reporter = session.config.pluginmanager.get_plugin("terminalreporter")
    if reporter and exitstatus == 0 and unlisted(reporter, session.config):
        session.exitstatus = 1
