"""Follows the links of the pages, and looks up the commits that they name."""

import os
import re

import pytest

from conftest import need
from documents import PAGES, joined, prose
from kit import LOGIC
from programs import TOP, run

LINK = re.compile(r"\]\(([^)#\s]*)(?:#([^)\s]*))?\)")
COMMIT = re.compile(r"\b(?=[a-f]*\d)(?=\d*[a-f])[0-9a-f]{7,40}\b")
# Texts of a page, and the anchors of their headings.
ANCHORS = [
    ("# The table\n\n## 1. Probe, `store`\n", ["the-table", "1-probe-store"]),
    ("## moves\n## moves\n```\n# a comment\n```\n", ["moves", "moves-1"]),
    ("# [JSON](json.md), and more\n", ["json-and-more"]),
]
# Links from docs/guide/faq.md, and whether they lead somewhere.
LINKS = [
    ("[a](../reference/cli.md)", True),
    ("[a](../reference/cli.md#exit-status), [b\nc](testing.md)", True),
    ("![a](../page.png) [b](https://nowhere.invalid/x#y)", True),
    ("[a](../reference/cli.md#exit-state)", False),
    ("[a](#no-such-heading)", False),
    ("[a](reference/cli.md)", False),
]


def anchors(text):
    """Returns the anchors of the headings, as they are made on GitHub."""
    made = []
    for heading in re.findall(r"^#+ (.*)$", prose(text), flags=re.M):
        words = re.sub(r"\[([^]]*)\]\([^)]*\)", r"\1", heading).lower()
        slug = re.sub(r"[^\w\- ]", "", words).replace(" ", "-")
        made.append(f"{slug}-{again}" if (again := sum(re.sub(r"-\d+$", "", it) == slug for it in made)) else slug)
    return made


def faults(path, text):
    """Yields the links of a page that lead nowhere, and None for each other link."""
    for target, anchor in LINK.findall(joined(text)):
        there = os.path.normpath(os.path.join(os.path.dirname(path), target)) if target else path
        is_there = "://" in target or os.path.exists(os.path.join(TOP, there))
        if is_there and anchor and "://" not in target:
            is_there = anchor in anchors(text if there == path else PAGES[there])
        yield None if is_there else f"{target}#{anchor}"


@pytest.mark.parametrize("text, wanted", ANCHORS)
def test_anchors_are_read(text, wanted):
    assert anchors(text) == wanted


@pytest.mark.parametrize("text, leads", LINKS)
def test_a_link_that_leads_nowhere_is_found(text, leads):
    assert (not any(faults("docs/guide/faq.md", text))) == leads


@pytest.mark.parametrize("path", PAGES)
def test_links_lead_to_files_and_anchors_that_exist(path, count):
    made = list(faults(path, PAGES[path]))
    assert [it for it in made if it] == []
    count(len(made))


def test_commits_that_pages_name_are_on_main(count):
    need("git")
    if run(["git", "rev-parse", "--is-shallow-repository"], cwd=TOP).output != b"false\n":
        pytest.skip("no whole history of git")
    named = {(path, it) for path, text in PAGES.items() for it in COMMIT.findall(text) if it != LOGIC}
    known = {it: run(["git", "merge-base", "--is-ancestor", it, "HEAD"], cwd=TOP).status == 0 for _, it in named}
    assert named and sorted(it for it in named if not known[it[1]]) == []
    count(len(named))
