"""Runs `batch` over inputs of several lines, and compares its answers with those of single solves.

The comparison has 100 positions within 5 plies; BATCH_POSITIONS and BATCH_LIMIT name other numbers, such as 1000 and 7."""

import json
import os
import random
import re
import resource
import subprocess

import check_tree
from command_lines import FIRST, SLOW, SLOW_WORDS, THIRD
from programs import bench_lines, run, started

SEED = 19


def batch(program, text, *words, **how):
    return run(started(program, "batch", *words), text, **how)


def test_a_refused_line_has_its_reason_and_its_sentence(program):
    ran = batch(program, b"k5 w\n" + b"x" * 257 + b"\n" + FIRST.encode() + b"\n", "--limit", "1")
    assert (ran.status, ran.output) == (0, b"refused: Shape\nrefused: TooLong\nmate 1 f1f6\n")
    assert [line[:14] for line in ran.error.split(b"\n")] == [b"error: line 1:", b"error: line 2:", b""]


def test_echo_prints_the_position_before_each_answer(program):
    text = b"# one\n" + THIRD.encode() + b"\r\n\nk5 w\n" + b"x" * 257 + b"\n" + FIRST.encode()
    wanted = b"# one\n" + THIRD.encode() + b"\tmate 3 c4c5\n\nk5 w\trefused: Shape\nrefused: TooLong\n" + FIRST.encode() + b"\tmate 1 f1f6\n"
    assert batch(program, text, "--echo", "--limit", "3")[:2] == (0, wanted)


def test_lines_shows_each_second_how_far_the_batch_is(program):
    text = (SLOW.encode() + b"\n") * 3
    plain, known, unknown = (batch(program, text, *SLOW_WORDS, *more) for more in ([], ["--lines", "3"], ["--lines=0"]))
    assert (known.status, known.output, plain.error) == (0, plain.output, b"")
    assert re.match(rb"\r[123] of 3 lines, \d+ (s|minutes) to go at this rate\x1b\[K", known.error)
    assert re.match(rb"\r[123] lines, \d+ s\x1b\[K", unknown.error)
    assert known.error.endswith(b"\r\x1b[K")


def test_a_reply_is_written_before_the_next_line_is_read(program):
    pipes = {"stdin": subprocess.PIPE, "stdout": subprocess.PIPE}
    with subprocess.Popen(started(program, "batch", "--limit", "1"), bufsize=0, **pipes) as process:
        process.stdin.write(FIRST.encode() + b"\n")
        first = process.stdout.readline()
        process.stdin.write(THIRD.encode())
        process.stdin.close()
        assert (first, process.stdout.read(), process.wait()) == (b"mate 1 f1f6\n", b"none within 1\n", 0)


def test_a_long_input_takes_no_more_memory_than_a_short_one(program):
    def little():
        resource.setrlimit(resource.RLIMIT_AS, (64 << 20, 64 << 20))

    text = (b"# " + b"x" * 200 + b"\n") * 100_000 + FIRST.encode()
    ran = batch(program, text, "--limit", "1", "--workers", "1", preexec_fn=little)
    assert (ran.status, len(ran.output), ran.output[-12:]) == (0, 203 * 100_000 + 12, b"mate 1 f1f6\n")


def children():
    """The positions after a first move and a reply of the bench's lines, each once."""
    found = {}
    for line in bench_lines():
        position = check_tree.read_position(line.fen.encode())
        for move in check_tree.lawful(position):
            then = check_tree.after(position, move)
            for reply in check_tree.lawful(then):
                found[check_tree.fen_text(check_tree.after(then, reply))] = True
    return list(found)


def test_a_batch_answers_as_single_solves_do(program, pages, count):
    number, limit = int(os.environ.get("BATCH_POSITIONS", "100")), os.environ.get("BATCH_LIMIT", "5")
    chosen = random.Random(SEED).sample(children(), number)
    words = ["--limit", limit, "--slots", "1048573"]
    ran = batch(program, "".join(f"{fen}\n" for fen in chosen).encode(), *words, timeout=1000)
    assert ran.status == 0
    answers = ran.output.decode().splitlines(keepends=True)
    assert answers == [run(started(program, "solve", *words, fen)).output.decode() for fen in chosen]
    count(len(answers))


def changed(line, number):
    """The line; of some numbers a line that is refused, has no position or names a number of moves."""
    spoilt = {1: line + b" w", 2: b'"' + line, 3: line[:-1] + b"\xff", 4: line + b" \\\t", 5: b"# " + line}
    spoilt |= {6: b"", 7: b"x" * 300, 8: line + b" ; dm 2", 9: line + b" ; dm 0"}
    return spoilt.get(number % 20, line)


def line_of_object(found):
    """The line of a batch that has the same content as this object of JSON."""
    if "refused" in found:
        return f"refused: {found['refused']}"
    first = f" {found['first']}" if found["plies"] else ""
    answer = f"{found['answer']} {found['plies']}{first}" if found["plies"] else f"none within {found['limit']}"
    return answer + {True: " ok", False: " differs"}.get(found.get("ok"), "")


def test_the_objects_of_a_batch_say_what_its_lines_say(program, pages, count):
    pool = children()
    chosen = [changed(pool[number % len(pool)].encode(), number) for number in range(10_000)]
    words, given = ["--limit", "3", "--slots", "65521"], b"".join(line + b"\n" for line in chosen)
    plain, ran = batch(program, given, *words, timeout=1000), batch(program, given, *words, "--json", timeout=1000)
    assert ran.status == 0
    asked = [it for it in enumerate(zip(chosen, plain.output.split(b"\n")), 1) if it[1][0] and not it[1][0].startswith(b"#")]
    objects = [json.loads(line) for line in ran.output.decode().splitlines()]
    for (number, (line, answer)), found in zip(asked, objects, strict=True):
        position = None if len(line) > 256 else line.decode(errors="replace").split(" ; dm ")[0]
        assert (found["line"], found["position"], line_of_object(found)) == (number, position, answer.decode())
        assert "refused" not in found or found["sentence"]
    count(len(objects))
