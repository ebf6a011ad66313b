"""Looks up what the pages name: paths, commands, options, mutants, tests, definitions and names of the code."""

import os
import re

import pytest

import programs
from documents import PAGES, blocks, found, is_file, joined, quoted, read, sessions
from programs import tool

FOLDERS = r"crates|tools|bench|docs|share|web|python|include|tests|\.ci"
# A crate with which a list item begins; a path in the repository, or one below crates/ or in a crate, or a file's name alone.
NAMED = re.compile(
    r"(?m)^\d+\. `(?P<crate>\w+)`:|(?<![\w/.~$*-])"
    rf"(?P<path>(?P<whole>(?:{FOLDERS})/[\w./*-]*)|(?:\w+/)*\w+\.(?:rt|antt)\b|\w+/(?:src|specs|proofs)\b)"
)
# Parts of a page, and the paths that they name.
PATHS = [
    ("decision/src/order.rt; the leaf: leaf.rt", ["crates/decision/src/order.rt", "crates/decision/src/leaf.rt"]),
    ("rules/specs/Moves.antt, Forces.antt", ["crates/rules/specs/Moves.antt", "crates/rules/specs/Forces.antt"]),
    ("in `rules/specs`; entry/specs, entry/src/packing.rt", ["crates/rules/specs", "crates/entry/specs", "crates/entry/src/packing.rt"]),
    ("1. `board`: (specs/Fen.antt, src/fen.rt).", ["crates/board/specs/Fen.antt", "crates/board/src/fen.rt"]),
    ("crates.txt, below `verify`; `tools/check_tree.py`, web/.", ["tools/check_tree.py", "web"]),
    ("the crate's specs/Lib.antt, ../docs/PERF.md", ["crates/*/specs/Lib.antt"]),
]
# Parts of a page, and the commands and options in them that don't exist.
CALLS = [
    ("`minimate solv --mate 2 FEN`, `solv`", ["solv"]),
    ("`./minimate solve --tries FEN`, `show --svg`, `tree --svg`", ["tries", "svg"]),
    ("`--mate 2` `--tries` `--no-such` `minimate COMMAND --help`, `minimate COMMAND --no`", ["no-such", "no"]),
    ("`tools/install --prefix FOLDER`, `tools/install --suffix x`", ["suffix"]),
    ("```console\n$ ./minimate moves FEN | ./minimate after --first a1a2\n--x\n```\n", ["first"]),
    ("```sh\npython3 tools/spread solve --hosts x # --y\npython3 tools/spread solve --hots x\n```\n", ["hots"]),
]
# A run leaves these; and a word in capitals stands for a name.
LEFT_OUT = re.compile(r"(^|/)out(/|$)|/[A-Z_]+(/|\.edit$|$)")
CRATES = sorted(it.split("/")[1] for it in found("crates/*"))
PARTS = {"src", "specs", "proofs", "must-fail", "more-must-fail"}
PROMISES, MUTANTS, HOUSE = (f"docs/project/{it}.md" for it in ("promises", "mutants", "architecture"))
# Names of ssh, the C library and the toolchain; and one of the specification, which has a call in another crate.
OTHERS = re.compile(r"ControlMaster|clock_gettime|rattle_\w+|minimate::run_line")
NAMES = r"((?:`[A-Za-z_]\w*`(?:, | and |, and )?)+)"


def paths(text):
    """Yields the paths that a text names. A path in a crate is in the crate named last, and a file's name alone in the folder named last."""
    crate, folder = "*", "*/*"
    for it in NAMED.finditer(text):
        if it["crate"]:
            crate = folder = it["crate"]
        elif it["whole"]:
            yield it["whole"].rstrip("./")
        else:
            path = it["path"]
            path = f"{crate}/{path}" if path.startswith(("src/", "specs/", "proofs/")) else path if "/" in path else f"{folder}/{path}"
            crate, folder = path.split("/")[0], os.path.dirname(path) if "." in path else path
            yield f"crates/{path}"


def calls(text):
    """Yields the words of each command that the text has in backquotes, in sessions and in blocks of the shell."""
    lines = [*quoted(text), *(command for command, _ in sessions(text)), *blocks(text, "sh")]
    for line in "\n".join(lines).replace("\\\n", " ").splitlines():
        for part in re.split(r"[|;&#]|\$\(", line):
            words = part.split()
            yield words[1:] if words[:1] == ["python3"] else words


def each(names):
    """Returns the names in backquotes that aren't crates'."""
    return [it for it in re.findall(r"`(\w+)`", names) if it not in CRATES]


def texts_below(path):
    return "\n".join(read(it, errors="replace") for it in [path, *found(f"{path}/**/*")] if is_file(it))


def unknown_options(words, commands):
    """Returns what a command's words name that the command doesn't have. Without a command, an option is one of some program or script."""
    options = {it[2:] for it in re.findall(r"(?<!\S)--[a-z][a-z-]*", " ".join(words))} - {"help", "version"}
    every = {option for command in commands.values() for option in command.options}
    first = words[0].removeprefix("./")
    name = " ".join(words[1:2]) if first == "minimate" else first
    if re.match(rf"(?:{FOLDERS})/", first):
        text = texts_below(first)
        return [it for it in options if f"--{it}" not in text]
    if first == "minimate" and re.fullmatch("[a-z]+", name) and name not in (*commands, "help"):
        return [name]
    if name in commands or first == "minimate":
        return sorted(options - (commands[name].options if name in commands else every))
    return [it for it in options - every if first.startswith("--") and f'"--{it}' not in SCRIPTS]


def sources():
    """Returns each word of the crates, the scripts, the page, the package and the header, and the names of their files and of the crates."""
    patterns = ["specs/*.antt", "src/**/*", "proofs/**/*.antt", "*must-fail/*"]
    others = ["tools/**/*", "bench/**/*", "web/*", "python/minimate/*.py", "include/*", "crates.txt"]
    files = [it for it in found(*(f"crates/*/{it}" for it in patterns), *others) if is_file(it) and not it.endswith((".md", ".xz", ".pyc"))]
    texts = [re.sub(r"^#.*", "", read(it), flags=re.M) if it.endswith(".edit") else read(it, errors="replace") for it in files]
    return set(re.findall(r"\w+", " ".join([*texts, *CRATES, *(os.path.splitext(os.path.basename(it))[0] for it in files)])))


SCRIPTS = "\n".join(texts_below(it) for it in ("tools", "bench", "tests", "minimate"))
KNOWN = sources()


@pytest.fixture(scope="module")
def commands(program):
    return programs.commands(program)


@pytest.fixture(scope="module")
def items():
    """The public items, each also with its crate: `Slots::probe`, `slots::Slots::probe`."""
    listed, made = tool("list"), set()
    for crate, _ in listed.crates():
        for it in listed.items_of(crate):
            made |= {it.name, f"{crate}::{it.name}"}
    return made


def is_item(name, items):
    """Returns whether there is such a public item, or a file that defines the type and the function."""
    owner, _, inner = name.partition("::")
    inside = [re.compile(rf"\b(?:struct|enum|trait) {owner}\b"), re.compile(rf"\bfn {inner}\b")]
    return name in items or any(all(it.search(text) for it in inside) for text in map(read, found("crates/*/src/*.rt")))


@pytest.mark.parametrize("text, wanted", PATHS)
def test_paths_are_read(text, wanted):
    assert list(paths(text)) == wanted


@pytest.mark.parametrize("page", PAGES)
def test_paths_exist(page, count):
    typed = [*(command for command, _ in sessions(PAGES[page])), *blocks(PAGES[page], "sh")]
    named = [it for it in paths("\n".join([joined(PAGES[page]), *typed])) if not LEFT_OUT.search(it)]
    named += [f"tests/**/{it}" for it in re.findall(r"(?<!/)\btest_\w+\.py\b", PAGES[page])]
    assert [it for it in named if not found(it)] == []
    count(len(named))


@pytest.mark.parametrize("text, wanted", CALLS)
def test_a_command_or_an_option_that_does_not_exist_is_found(commands, text, wanted):
    assert [it for words in calls(text) if words for it in unknown_options(words, commands)] == wanted


@pytest.mark.parametrize("page", PAGES)
def test_commands_and_options_exist(page, commands, count):
    made = [(words, unknown_options(words, commands)) for words in calls(PAGES[page]) if words]
    assert [it for it in made if it[1]] == []
    count(len(made))


@pytest.mark.parametrize("page", PAGES)
def test_names_of_the_code_exist(page, items, count):
    """These are names with a `_` or a capital inside, and names such as `Slots::probe`."""
    names = [it for it in quoted(PAGES[page]) if not OTHERS.fullmatch(it)]
    named = [it for it in names if re.fullmatch(r"[A-Za-z]\w*", it) and re.search(r"_|[a-z]{2}[A-Z]", it)]
    inner = [it for it in names if re.fullmatch(r"\w+::\w+", it)]
    assert [it for it in named if it not in KNOWN] + [it for it in inner if not is_item(it, items)] == []
    count(len(named) + len(inner))


@pytest.mark.parametrize("page", PAGES)
def test_a_crate_has_the_mutants_tests_and_names_that_a_page_places_in_it(page, count):
    """A mutant is named as `slots/gate_wraps`; a test or another name as in "`round` of `rounds`"."""
    named = [it for it in re.findall(r"`(\w+)/(\w+)`", joined(PAGES[page])) if it[0] in CRATES and it[1] not in PARTS]
    missing = [it for it in named if not found(f"crates/{it[0]}/*must-fail/{it[1]}.edit")]
    rows = [it for it in re.findall(rf"{NAMES} (?:of|in) `(\w+)`", joined(PAGES[page])) if it[1] in CRATES]
    placed = [(name, crate) for names, crate in rows for name in each(names)]
    for name, crate in placed:
        is_tests = crate.endswith("_tests") or crate == "acceptance"
        texts = "\n".join(map(read, found(f"crates/{crate}/src/**/*.rt", f"crates/{crate}/specs/*.antt")))
        if not re.search(rf"\b(?:fn|mod) {name}\b" if is_tests else rf"\b{name}\b", texts):
            missing.append((name, crate))
    assert missing == []
    count(len(named) + len(placed))


def test_the_gate_tries_the_mutants_that_promises_rely_on(count):
    section = PAGES[MUTANTS].partition("\n## The mutants that promises rely on\n")[2].partition("\n## ")[0]
    named = re.findall(r"`(\w+)/(\w+)`", section)
    assert named and [it for it in named if not is_file(f"crates/{it[0]}/must-fail/{it[1]}.edit")] == []
    count(len(named))


def test_the_architecture_has_every_crate_and_the_functions_of_an_item_are_in_its_files(count):
    assert [it for it in CRATES if not re.search(rf"\b{it}\b", PAGES[HOUSE])] == []
    rows = re.findall(r"^- ((?:`\w+`(?:, )?)+) \((.*?)\):", joined(PAGES[HOUSE]), re.M)
    placed = [(name, "".join(map(read, paths(files)))) for names, files in rows for name in re.findall(r"`(\w+)`", names)]
    assert placed and [name for name, text in placed if not re.search(rf"\bfn {name}\b", text)] == []
    count(len(CRATES) + len(placed))


def defined(*files):
    """Returns what the files of definitions define."""
    begins = r"^ *(?:(?:abbrev|pub|record|data|unfoldable|opaque) )*([A-Za-z_]\w*)"
    return {name for it in files for name in re.findall(begins, read(it), flags=re.M)}


def test_definitions_are_in_the_files_in_which_the_promises_place_them(count):
    text = joined(PAGES[PROMISES])
    rows = re.findall(rf"{NAMES} \(([A-Z]\w+)(?: of `(\w+)`)?\)", text) + re.findall(r"\((`\w+`), ([A-Z]\w+)()\)", text)
    placed = [(name, file, crate or "*") for names, file, crate in rows for name in each(names)]
    assert placed and [it for it in placed if it[0] not in defined(*found(f"crates/{it[2]}/specs/{it[1]}.antt"))] == []
    count(len(placed))


def test_definitions_are_in_the_files_in_which_the_page_of_definitions_lists_them(count):
    rows = re.findall(r"^- ((?:`\w+`(?:, )?)+) \((\w+/specs/\w+\.antt)\):", joined(PAGES["docs/project/definitions.md"]), flags=re.M)
    placed = [(file, name) for names, file in rows for name in each(names)]
    assert placed and [(file, name) for file, name in placed if name not in defined(f"crates/{file}")] == []
    count(len(placed))
