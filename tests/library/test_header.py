"""The header: compiled as C and as C++, and against the version of the program, the names in both libraries, the crate and the page's calls."""

import os
import re

import pytest

from conftest import need
from programs import TOP, run

INCLUDE = ["-I", os.path.join(TOP, "include")]
CALL = '#include "minimate.h"\nsize_t (*call)(const uint8_t *, size_t, uint8_t *, size_t) = minimate_moves;\n'
VERSION = "MINIMATE_VERSION MINIMATE_VERSION_NUMBER MINIMATE_VERSION_MAJOR MINIMATE_VERSION_MINOR MINIMATE_VERSION_PATCH"
# How a parameter of the crate crosses to C, where a slice is a pointer and a length.
CROSSES = {
    **{"&[u8]": ["const uint8_t *", "size_t"], "&mut [u8]": ["uint8_t *", "size_t"], "bool": ["bool"], "u32": ["uint32_t"], "Global": []},
    **{"&mut SolverHandle": ["struct minimate_solver *"], "&mut StopHandle": ["struct minimate_stop *"]},
    **{"&mut Win": ["struct minimate_answer *"], "&mut Place": ["struct minimate_place *"], "&mut usize": ["size_t *"]},
}
# The size of a type in C, which is its alignment too, and the type that web/library.js writes it by.
WRITTEN = {"bool": (1, "Uint8"), "u32": (4, "Uint32"), "usize": (8, "BigUint64"), "*mut u8": (8, "BigUint64")}
# A struct that crosses, the file in crates/ that has it, the method of the page that writes it, and the page's names of its fields.
LAYOUTS = [
    ("SearchTerms", "calls/src/asked.rt", "terms", {}),
    ("Region", "lent_memory/src/memory.rt", "lend", {"top": "ptr", "left": "size"}),
]


def read(*path):
    with open(os.path.join(TOP, *path), encoding="utf-8") as file:
        return file.read()


def declared():
    """Returns the calls of the header, each with the types of its parameters."""
    found = re.findall(r"^(?:size_t|uint32_t|void) (minimate_\w+)\((.*?)\);", read("include", "minimate.h"), flags=re.M | re.S)
    rows = {name: [" ".join(it.split()) for it in parameters.split(",")] for name, parameters in found}
    return {name: [] if row == ["void"] else [re.sub(r"\w+$", "", it).strip() for it in row] for name, row in rows.items()}


def exported():
    """Returns the calls that the crate exports, each with the types of its parameters as C has them."""
    source = "".join(read("crates", "minimate_c", "src", name) for name in ("lib.rt", "living.rt"))
    found = re.findall(r"pub extern \"C\" fn (minimate_\w+)\(([^)]*)\)", source)
    kinds = {name: re.findall(r"\w+: ([^,]+?),?\s*(?=\w+:|$)", parameters.strip()) for name, parameters in found}
    return {name: [it for kind in row for it in CROSSES[kind.strip()]] for name, row in kinds.items()}


@pytest.mark.parametrize("compiler, ending", [("cc", "c"), ("c++", "cc")])
def test_a_compiler_takes_the_header(tmp_path, compiler, ending):
    need(compiler)
    source = tmp_path / f"header.{ending}"
    source.write_text(CALL, encoding="ascii")
    ran = run([compiler, "-Wall", "-Wextra", "-pedantic", "-Werror", "-fsyntax-only", *INCLUDE, source])
    assert (ran.status, ran.error) == (0, b"")


def test_the_header_has_the_calls_of_the_crate_with_their_parameters():
    assert len(declared()) > 10 and declared() == exported()


@pytest.mark.parametrize("name, how", [("libminimate.a", "-g"), ("libminimate.so", "-D")])
def test_a_library_exports_the_calls_of_the_header_and_no_other_name(library, name, how):
    need("nm")
    rows = [line.split() for line in run(["nm", how, "--defined-only", os.path.join(library, name)]).output.decode().splitlines()]
    assert {row[-1] for row in rows if len(row) == 3} == set(declared())


def test_the_version_of_the_header_is_the_programs(program):
    """As text, as one number, and by its parts."""
    need("cc")
    version = run([program, "--version"]).error.decode().split()[-1]
    major, minor, patch = version.split(".")
    ran = run(["cc", "-E", "-P", *INCLUDE, "-"], f'#include "minimate.h"\n{VERSION}\n'.encode())
    wanted = f'"{version}" ({major} * 10000 + {minor} * 100 + {patch}) {major} {minor} {patch}'
    assert ran.output.decode().strip().rpartition("\n")[2] == wanted


@pytest.mark.parametrize("name, path, method, names", LAYOUTS)
def test_the_page_writes_what_the_calls_read(name, path, method, names):
    found = re.search(rf"#\[repr\(C\)\]\s*pub struct {name} {{\n(.*?)\n}}", read("crates", path), flags=re.S)
    fields, end = [], 0
    for field, kind in re.findall(r"^    pub(?:\(crate\))? (\w+): ([^,]+),", found[1], flags=re.M):
        size, written = WRITTEN[kind]
        start = -(-end // size) * size
        fields.append((field, start, written))
        end = start + size
    body = re.search(rf"^  {method}\(.*?^  }}", read("web", "library.js"), flags=re.M | re.S)
    made = re.findall(r"words\.set(\w+)\((\d+), (?:Number\()?(?:this\.#)?(\w+)", body[0])
    assert fields and [(names.get(field, field), int(start), kind) for kind, start, field in made] == fields
