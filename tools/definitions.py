"""Finds the definitions that public contracts rest on.

A public contract rests on the files of definitions that it names, and on those that these use. A contract is public if it belongs to a call that
its crate's lib.rt passes on, to the view of a public type, or to a public trait; of a program it is the contract of what `main` runs.
"""

import os
import re

TOP = os.path.dirname(os.path.dirname(os.path.abspath(__file__)))
CRATES = os.path.join(TOP, "crates")
# Crates without a call of their own that a reader relies on: tests, trials and names of other crates.
WITHOUT = {"acceptance", "example", "one_call", "round_tests", "search", "table_tests", "text_tests"}
# What a program's `main` runs, and the call below it that promises name.
OF_PROGRAM = {"run_program", "run"}
# What an `impl` proves and no caller reads.
INSIDE = {"invariant", "inverse", "size", "size_decreases"}
USE = re.compile(r"use Rattle\.(\w+)\.specs\.(\w+)")
DEFINITION = re.compile(r"(?m)^(?:abbrev pub|pub record|pub data) ([A-Za-z_][\w']*)")
NAMES = re.compile(r"ghost use Rattle\.(\w+)\.specs\.(\w+)[\w.]*?\.\{([^}]*)\};")
ITEM = re.compile(r"(?m)^(pub(?:\(crate\))? )?(?:unsafe )?(?:extern \"C\" )?(fn|impl|trait)\b([^\n]*)")


def read(path):
    with open(path, encoding="utf-8") as file:
        return file.read()


def sources(crate, folder, ending):
    """The texts of a crate's files by name without the ending."""
    path = os.path.join(CRATES, crate, folder)
    if not os.path.isdir(path):
        return {}
    names = sorted(name for name in os.listdir(path) if name.endswith(ending))
    return {name[: -len(ending)]: read(os.path.join(path, name)) for name in names}


def known():
    """What each file of definitions uses, by crate and file."""
    return {
        (crate, name): USE.findall(text)
        for crate in sorted(os.listdir(CRATES))
        for name, text in sources(crate, "specs", ".antt").items()
        if name != "Lib"
    }


def passed_on(crate):
    """The names that the crate's lib.rt passes on or exports to C; of a program, what `main` runs."""
    lib = os.path.join(CRATES, crate, "src", "lib.rt")
    if not os.path.exists(lib):
        return OF_PROGRAM
    found = re.findall(r"pub use [\w:]+?::(?:\{([^}]*)\}|(\w+));", read(lib))
    exports = set(re.findall(r'(?m)^pub extern "C" fn (\w+)', read(lib)))
    return exports | {name.strip() for many, one in found for name in (many or one).split(",")}


def imported(text):
    """Where each name of a definition comes from."""
    return {
        name.strip().split(" as ")[-1]: (crate, file)
        for crate, file, names in NAMES.findall(text)
        for name in names.split(",")
    }


def clauses(kind, head, body):
    """The parts of an item that its callers see."""
    if kind == "fn":
        yield body.split("\n{")[0]
    elif kind == "trait":
        yield body
    elif " for " in head:
        for name, text in re.findall(r"(?s)ghost (\w+) = \{(.*?)\};", body):
            if name not in INSIDE:
                yield text
    else:
        for text in re.findall(r"(?s)\n    pub (?:unsafe )?fn (.*?)\n    \{", body):
            yield text


def name_of(kind, head):
    """The name of a call or a trait, or of the type that an `impl` is for."""
    bare = re.sub(r"<[^<>]*>", "", re.sub(r"<[^<>]*>", "", head))
    found = re.match(r"\s*(?:\w+ for )?(\w+)", bare)
    return found.group(1) if found else ""


def named(crate, files):
    """The files of definitions that the crate's public contracts name, each with the item that names it."""
    public = passed_on(crate)
    for file, text in sources(crate, "src", ".rt").items():
        if "test" in file:
            continue
        text = re.sub(r"//[^\n]*", "", text)
        for item in ITEM.finditer(text):
            close = re.search(r"(?m)^\{?\}$", text[item.end():])
            body = text[item.start(): item.end() + (close.end() if close else 0)]
            name = name_of(item.group(2), item.group(3))
            if name not in public:
                continue
            where = imported(text[: item.start()] + body)
            for clause in clauses(item.group(2), item.group(3), body):
                for word in re.findall(r"[A-Za-z_][\w']*", clause):
                    if where.get(word) in files:
                        yield where[word], f"{crate}::{name}"


def believed(files):
    """The files of `known` that public contracts rest on, each with what leads there."""
    found, left = {}, []
    for crate in sorted(set(os.listdir(CRATES)) - WITHOUT):
        left += named(crate, files)
    while left:
        file, why = left.pop()
        if file not in found:
            found[file] = why
            left += [(use, "/".join(file)) for use in files[file] if use in files]
    return found


def described(text):
    """The definitions of a file, each with the comment right above it."""
    lines = text.splitlines()
    for at, line in enumerate(lines):
        name, above = DEFINITION.match(line), at
        while above and lines[above - 1].startswith("-- "):
            above -= 1
        if name:
            yield name.group(1), " ".join(it[3:].strip() for it in lines[above:at])
