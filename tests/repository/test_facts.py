"""Compares facts of the pages with their sources: measured times, version numbers, the logic of the toolchain, the start of the record."""

import re
import shutil

import pytest

from documents import PAGES, joined, read
from kit import LOGIC
from programs import PROGRAMS, program_of, run

RECORD_BEGINS = "The start: b81ec80d33e6a4a16466d4d15cfba26e8c84c834, the last commit that had landed before this work began."
README, MEASURED = joined(PAGES["README.md"]), joined(PAGES["docs/project/measurements.md"])
# The files that have the version, with what stands before it.
VERSIONS = {
    "CHANGELOG.md": r"^## ",
    "include/minimate.h": r'^#define MINIMATE_VERSION "',
    "python/minimate/__init__.py": r'^__version__ = "',
    "share/man/man1/minimate.1": r'^\.TH MINIMATE 1 "" "minimate ',
    "crates/command_line/src/making.rt": r'\.version\("',
}
# Texts of README and of the measurements, and the figures of the first that the second doesn't have.
FIGURES = [
    ("| a | 3.3 | 12.7, two late |", "| a | 3.335 | 12.689 |", []),
    ("| a | 3.4 | 12.7 |", "| a | 3.335 | 12.689 |", ["3.4"]),
    ("It takes 9 minutes, or 20 minutes.", "| 9 min 5 s | 19 min 50 s |", []),
    ("It takes 8 minutes for 850 functions.", "| 849 functions | 9 min 5 s |", ["8 minutes", "850 functions"]),
    ("It takes 90 seconds, about an hour in all.", "| 90 s | 55 min 47 s |", []),
    ("It takes 9 seconds, about an hour in all.", "| 90 s | 9 min 47 s |", ["9 seconds", "an hour"]),
]


def unmeasured(text, measured):
    """Returns the figures that the measurements don't have: seconds in a table rounded to a tenth, minutes and an hour rounded to these units."""
    tenths = {f"{float(it):.1f}" for it in re.findall(r"\b\d+\.\d+\b", measured)}
    spans = [int(it) * 60 + int(more) for it, more in re.findall(r"\b(\d+) min (\d+) s\b", measured)]
    known = tenths | {f"{round(it / 60)} minutes" for it in spans} | {"an hour" for it in spans if round(it / 3600) == 1}
    known |= {f"{it} seconds" for it in re.findall(r"\b(\d+) s\b", measured)} | set(re.findall(r"\b\d+ functions\b", measured))
    rows = "\n".join(re.findall(r"^\|.*$", text, flags=re.M))
    figures = re.findall(r"\| (\d+\.\d)\b", rows) + re.findall(r"\b(?:\d+ (?:minutes|seconds|functions)|an hour)\b", text)
    return [it for it in figures if it not in known]


@pytest.mark.parametrize("text, measured, wanted", FIGURES)
def test_a_figure_without_a_measurement_is_found(text, measured, wanted):
    assert unmeasured(text, measured) == wanted


def test_each_time_and_number_of_functions_in_readme_is_measured(count):
    assert unmeasured(README, MEASURED) == []
    made = len(unmeasured(README, ""))
    assert made > 5
    count(made)


def test_the_record_begins_with_the_commit_that_it_starts_from():
    assert PAGES["docs/PERF.md"].partition("\n")[0] == RECORD_BEGINS


@pytest.mark.parametrize("name", PROGRAMS)
def test_each_program_prints_the_version_that_the_files_have(program, name):
    versions = {path: re.search(rf"{before}([0-9.]+)", read(path), flags=re.M)[1] for path, before in VERSIONS.items()}
    printed = run([program_of(program, name), "--version"]).error.decode().split()
    assert set(versions.values()) == {printed[-1]}, versions


def test_readme_has_the_logic_by_which_the_crates_were_proved():
    assert f"logic {LOGIC}" in README


def test_readme_has_the_logic_of_this_toolchain():
    if not shutil.which("rt"):
        pytest.skip("no rt on the path")
    printed = run(["rt", "version"]).output.decode().split()
    assert f"logic {printed[-1]}" in README
