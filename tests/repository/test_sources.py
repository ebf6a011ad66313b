"""Looks through the sources: comments, names of definitions, the lists of specs/Lib.antt; and tries what tools/list reads and prints."""

import collections
import re

import pytest

import definitions
from documents import PAGES, found, quoted, read
from programs import TOP, run, tool

LIST = tool("list")
DEFINED = re.compile(r"(?m)^(?:abbrev )?pub (?:record |data )?(?!mod )([A-Za-z][\w\-]*)(?= )")
# Definitions, and the names that they define.
DEFINITIONS = [
    ("abbrev pub width_of : Game → ℕ\n", ["width_of"]),
    ("pub record Place : Type 0 where\n", ["Place"]),
    ("pub data Tree : Type 0 where\n", ["Tree"]),
    ("pub IsMove : PlainBoard → Type 0\n  pub inner : ℕ\n", ["IsMove"]),
    ("pub mod Board\nuse Rattle.board\n-- pub other : ℕ\n", []),
]
SOURCE = '''/// One of two.
/// It has a second line.
#[derive(Clone)]
pub enum Side {
    White,
    /// The other.
    Black,
}
/// A pair.
pub struct Pair {
    pub first: u8,
    second: u8,
}
/// Nothing inside is public.
pub struct Closed {
    own: u8,
}
/// The most.
pub const MOST: usize = 5;
pub(crate) fn hidden() {
}
impl Pair {
    /// The sum, { not the product }.
    pub fn sum(
        &self,
        more: u8,
    ) -> u8
        requires room { more ≡ 0
            × more ≡ 0 }
        ensures { result ≡ 0 }
    {
        0
    }
    fn own(&self) -> u8 {
        1
    }
    /// Nothing is promised.
    pub fn plain(&self) -> u8 {
        2
    }
}
/// What asks.
pub trait Asks {
    fn asks(&self) -> u8
        ensures { result ≡ 1 };
}
'''
# The public items of that source, each with its doc comment and its head.
ITEMS = [
    ("Side", ["/// One of two.", "/// It has a second line."], ["pub enum Side {", "    White,", "    /// The other.", "    Black,", "}"]),
    ("Pair", ["/// A pair."], ["pub struct Pair {", "    pub first: u8,", "}"]),
    ("Closed", ["/// Nothing inside is public."], ["pub struct Closed"]),
    ("MOST", ["/// The most."], ["pub const MOST: usize = 5;"]),
    ("Asks", ["/// What asks."], ["pub trait Asks"]),
]
# The methods of its types.
SUM = "pub fn sum(|    &self,|    more: u8,|) -> u8|    requires room { more ≡ 0|        × more ≡ 0 }|    ensures { result ≡ 0 }"
METHODS = {
    "Pair": [
        ("Pair::sum", ["/// The sum, { not the product }."], SUM.split("|")),
        ("Pair::plain", ["/// Nothing is promised."], ["pub fn plain(&self) -> u8"]),
    ],
    "Asks": [("Asks::asks", ["/// What asks."], ["fn asks(&self) -> u8", "    ensures { result ≡ 1 };"])],
}
# The comments of a mutant, with what it changes and what refuses it.
MUTANTS = [
    ("# a probe is always Vacant\n# refused by: `probe`: `held`\nfile: src/a.rt\n", "a probe is always Vacant", "`probe`: `held`"),
    ("# a probe is always Vacant\nfile: src/a.rt\nold: #\n", "a probe is always Vacant", ""),
    ("# two\n# lines\nfile: src/a.rt\n", "two lines", ""),
    ("file: src/a.rt\n# below\n", "", ""),
]
# For each list, a line that it prints about `board`.
PRINTED = {"items": "board::read_fen", "definitions": "board/specs/Fen.antt, used by ", "mutants": "board/must-fail/", "crates": "board "}

KNOWN = definitions.known()
BELIEVED = definitions.believed(KNOWN)
# The heads of both blocks of a specs/Lib.antt.
HEADS = ("-- to be believed", "-- inside")


# The reading of sources


@pytest.mark.parametrize("text, wanted", DEFINITIONS)
def test_names_of_definitions_are_read(text, wanted):
    assert DEFINED.findall(text) == wanted


def test_items_are_read():
    assert [(it.name, it.doc, it.head) for it in LIST.items_in(SOURCE)] == ITEMS


@pytest.mark.parametrize("name", [it[0] for it in ITEMS])
def test_methods_are_read(name):
    item = next(it for it in LIST.items_in(SOURCE) if it.name == name)
    assert [(it.name, it.doc, it.head) for it in LIST.methods_of(item, {"pair": SOURCE})] == METHODS.get(name, [])


@pytest.mark.parametrize("text, change, refused", MUTANTS)
def test_the_comments_of_a_mutant_are_read(tmp_path, text, change, refused):
    (tmp_path / "a.edit").write_text(text, encoding="utf-8")
    made = LIST.mutant_at(str(tmp_path / "a.edit"))
    assert (made.name, made.change, made.refused) == ("a", change, refused)


@pytest.mark.parametrize("words", [[name] for name in PRINTED] + [[name, "board"] for name in PRINTED if name != "crates"], ids=" ".join)
def test_a_list_is_printed(words):
    ran = run([f"{TOP}/tools/list", *words])
    assert (ran.status, ran.error) == (0, b"")
    assert any(it.startswith(PRINTED[words[0]]) for it in ran.output.decode().splitlines())


@pytest.mark.parametrize("name", PRINTED)
def test_a_list_has_help_and_refuses_a_crate_that_does_not_exist(name):
    ran = run([f"{TOP}/tools/list", name, "--help"])
    assert (ran.status, ran.output[:7]) == (0, b"usage: ")
    ran = run([f"{TOP}/tools/list", name, "nowhere"])
    assert (ran.status, ran.output) == (2, b"")


# The sources


def test_each_public_item_has_a_doc_comment(count):
    """What a crate passes on from another crate is described there."""
    items = [(crate, it) for crate, _ in LIST.crates() for it in LIST.items_of(crate) if it.kind != "use"]
    assert items and [f"{crate}::{it.name}" for crate, it in items if not it.doc] == []
    count(len(items))


def test_the_first_line_of_each_mutant_says_what_it_changes_and_no_other_says_the_same(count):
    mutants = list(LIST.mutants())
    assert len(mutants) == len(found("crates/*/must-fail/*.edit", "crates/*/more-must-fail/*.edit")) > 0
    assert [it for it in mutants if not it.change] == []
    said = collections.Counter((it.crate, it.change) for it in mutants)
    assert [it for it, times in said.items() if times > 1] == []
    count(2 * len(mutants))


def test_no_name_of_a_definition_stands_in_two_crates(count):
    crates = collections.defaultdict(set)
    for path in found("crates/*/specs/*.antt"):
        for name in DEFINED.findall(read(path)):
            crates[name].add(path.split("/")[1])
    assert crates and {name: those for name, those in crates.items() if len(those) > 1} == {}
    count(len(crates))


def blocks(crate):
    """Returns the lines of both blocks of the crate's specs/Lib.antt by their heads."""
    lines, made = [line for line in read(f"crates/{crate}/specs/Lib.antt").splitlines() if line], {}
    for line in lines:
        if line.startswith("--"):
            assert line in HEADS and line not in made
            block = made.setdefault(line, set())
        else:
            block.add(line.removeprefix("pub mod "))
    assert list(made) == [it for it in HEADS if it in made]
    return made


@pytest.mark.parametrize("crate", sorted({crate for crate, _ in KNOWN}))
def test_the_list_of_files_separates_what_public_contracts_rest_on(crate, count):
    due = {head: {file for it, file in KNOWN if it == crate and ((it, file) in BELIEVED) == (head == HEADS[0])} for head in HEADS}
    assert blocks(crate) == {head: files for head, files in due.items() if files}
    count(1 + len(HEADS))


def test_each_definition_that_a_public_contract_rests_on_has_a_comment_or_is_listed_without(count):
    texts = [read(f"crates/{crate}/specs/{file}.antt") for crate, file in BELIEVED]
    without = [name for text in texts for name, words in definitions.described(text) if not words]
    section = PAGES["docs/project/definitions.md"].partition("\n## Definitions without a comment\n")[2].partition("\n## ")[0]
    assert sorted(without) == sorted(quoted(section)) and len(without) <= 50
    count(len(BELIEVED))
