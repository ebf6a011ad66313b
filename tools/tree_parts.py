"""The program's lists of moves, compared with those of check_tree.py; and a tree checked by `minimate check`, in parts if it is too long."""

import re
import subprocess

import check_tree


class Differs(Exception):
    """The rules here and the program list other moves."""


def output_of(program, *words, text=b""):
    """Returns the output of a run, or None if it failed."""
    ran = subprocess.run([program, *words], input=text, capture_output=True, check=False)
    return None if ran.returncode else ran.stdout.decode(errors="replace")


def listed_moves(program, position):
    """Returns the lawful moves, which the program has to list too. Raises Differs otherwise."""
    moves, fen = check_tree.lawful(position), check_tree.fen_text(position)
    texts = [check_tree.move_text(move) for move in moves]
    listed = output_of(program, "moves", fen)
    if listed is None or listed.split() != texts:
        raise Differs(f"tools/check_tree.py lists other moves than {program} at {fen}: {' '.join(texts)}")
    return moves


def checked(program, goal, position, text):
    """Returns the plies within which the tree wins at the position, or None."""
    if len(text) > check_tree.MOST_BYTES:
        return checked_parts(program, goal, position, text)
    answer = output_of(program, "check", f"--goal={goal}", check_tree.fen_text(position), text=text.encode())
    found = re.fullmatch(r"yes (\d+)\n", answer or "")
    return int(found[1]) if found else None


def checked_parts(program, goal, position, text):
    """Checks each part alone. The move has to be lawful, and the replies all lawful ones in order."""
    name, parts = parts_of(text)
    move = next((it for it in listed_moves(program, position) if check_tree.move_text(it) == name), None)
    if move is None or not parts:
        return None
    then = check_tree.after(position, move)
    replies = listed_moves(program, then)
    if [check_tree.move_text(reply) for reply in replies] != [reply for reply, _ in parts]:
        return None
    plies = [checked(program, goal, check_tree.after(then, reply), part) for reply, (_, part) in zip(replies, parts)]
    return None if None in plies else 2 + max(plies)


def parts_of(text):
    """Returns the tree's move, and its replies with the texts of the trees that answer them; no replies if the text has no braces around them."""
    found = re.match(r"(\w+)\{", text)
    if not found or not text.endswith("}"):
        return text[:5], []
    parts, depth, began = [], 0, found.end()
    for mark in re.finditer(r"[{},]", text):
        if began <= mark.start() < len(text) - 1:
            depth += {"{": 1, "}": -1, ",": 0}[mark[0]]
            if mark[0] == "," and depth == 0:
                parts.append(text[began : mark.start()])
                began = mark.end()
    parts.append(text[began:-1])
    return found[1], [part.partition(":")[::2] for part in parts]
