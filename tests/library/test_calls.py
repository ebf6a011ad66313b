"""The calls of the C library that answer in text, from C and by `ctypes`, against replies worked out by hand and against the program, byte for byte.

Each reply is requested with room to spare, with exactly its room, with a byte less and with no room. In too little room a call must say so and
write nothing."""

import ctypes
import functools
import os

import pytest

from conftest import need
from library_calls import APART, KNOWN, NO_MEMORY, VALGRIND, bench_calls, c_reply, c_words, program_reply, with_replies
from programs import Ran, run
from refused_memory import Sweep

PARTS = 8
EDGE, MARK = 64, 0xA5
TOO_SMALL = ctypes.c_size_t(-1).value
# The program in C itself requests memory too, and then has no room for the reply.
NO_ROOM = (5, b"")
# A line of each call.
WORDS = ("solve", "keys", "tree", "check", "verify", "moves", "after", "fault")
ONE_EACH = [next(it for it in KNOWN + APART if it[0].word == word) for word in WORDS]


def sized(data):
    """A text as the arguments of a call: its address and its length."""
    return [data, ctypes.c_size_t(len(data))]


def python_reply(library, asked, room):
    """Returns the reply of a call by `ctypes`: bytes, None if the room was too small, or what was wrong."""
    block = (ctypes.c_uint8 * (room + 2 * EDGE)).from_buffer(bytearray([MARK]) * (room + 2 * EDGE))
    goal, search = [ctypes.c_bool(asked.stale)], [ctypes.c_uint32(asked.limit), ctypes.c_uint32(asked.slots)]
    texts = {"moves": [], "fault": [], "after": sized(asked.tree), "check": goal + sized(asked.tree), "verify": goal + sized(asked.tree)}
    call = getattr(library, f"minimate_{asked.word}")
    call.restype = ctypes.c_size_t
    result = call(*sized(os.fsencode(asked.fen)), *texts.get(asked.word, goal + search), ctypes.byref(block, EDGE), ctypes.c_size_t(room))
    written, whole = 0 if result == TOO_SMALL else result, bytes(block)
    if written > room or set(whole[:EDGE] + whole[EDGE + written :]) != {MARK}:
        return f"wrote outside its reply, of {result} bytes"
    return None if result == TOO_SMALL else whole[EDGE : EDGE + written]


@pytest.fixture(scope="module")
def ways(caller, library):
    loaded = ctypes.CDLL(os.path.join(library, "libminimate.so"))
    return {"C": functools.partial(c_reply, caller), "Python": functools.partial(python_reply, loaded)}


def compared(ways, asked, wanted):
    """Returns how many replies there were, and those that differ."""
    length = len(wanted)
    rooms = [(length + 100, wanted), (length, wanted), (length - 1, None), (0, None)] if wanted else [(0, wanted)]
    made = [(name, room, reply(asked, room), due) for name, reply in ways.items() for room, due in rooms]
    return len(made), [(str(asked), *it) for it in made if it[2] != it[3]]


@pytest.mark.parametrize("asked, wanted", KNOWN + APART, ids=str)
def test_a_call_has_the_reply_that_was_worked_out_by_hand(ways, count, asked, wanted):
    number, differing = compared(ways, asked, wanted)
    assert differing == []
    count(number)


@pytest.mark.parametrize("asked, wanted", KNOWN, ids=str)
def test_the_program_prints_the_same(program, asked, wanted):
    assert program_reply(program, asked) == wanted


@pytest.mark.parametrize("part", range(PARTS))
def test_calls_about_the_bench_reply_as_the_program_prints(program, ways, count, part):
    replies = [(asked, wanted, *compared(ways, asked, wanted)) for asked, wanted in with_replies(program, list(bench_calls())[part::PARTS])]
    assert replies and [it for *_, differing in replies for it in differing] == []
    count(sum(number for _, _, number, _ in replies))


@pytest.mark.parametrize("asked, wanted", ONE_EACH, ids=str)
def test_a_call_replies_or_reports_lack_of_memory(caller, refusing, tmp_path, count, asked, wanted):
    """Each request for memory is refused in turn, and no block is left."""
    first, counts, wrong = Sweep(refusing, tmp_path, c_words(caller, asked, len(wanted) + 100), asked.tree).outcomes([NO_MEMORY, NO_ROOM])
    assert first.result == (0, wanted) and counts[NO_MEMORY] > 0 and wrong == []
    count(counts.total())


@pytest.mark.parametrize("asked, wanted", ONE_EACH, ids=str)
def test_a_call_makes_no_fault_under_valgrind(caller, count, asked, wanted):
    need("valgrind")
    for room, due in ((len(wanted), Ran(0, wanted, b"")), (len(wanted) - 1, Ran(3, b"", b""))):
        assert run([*VALGRIND, *c_words(caller, asked, room)], asked.tree, timeout=300) == due
    count(2)
