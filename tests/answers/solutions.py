"""Works out the solution of a problem, with set play and tries, from the documents: by the rules of tools/check_tree.py and a plain search."""

import check_tree
from check_tree import after, lawful
from plain_search import Search


def passed(position):
    """Returns the position with the other side to move, or None if that isn't sound."""
    return None if check_tree.in_check(position) else position._replace(side=check_tree.other(position.side))


class Solver(Search):
    """A search that finds what a composer publishes. A move is a triple, as in check_tree, and plies are the fewest."""

    def continuations(self, position, plies):
        """Returns all moves that force the goal within the plies, which are the fewest."""
        return list(self.winning(position, plies))

    def met(self, position, limit):
        """Yields each reply after which the goal is forced within the limit, with the position after it and the fewest plies there."""
        for reply in lawful(position):
            plies = self.fewest(after(position, reply), limit)
            if plies:
                yield reply, after(position, reply), plies

    def line(self, position, plies):
        """Returns the best line: the least continuation, the least reply after which two plies less are needed, and so on."""
        move = self.continuations(position, plies)[0]
        then = after(position, move)
        for reply, below, left in self.met(then, plies):
            if left == plies - 2:
                return [move, reply, *self.line(below, plies - 2)]
        return [move]

    def variations(self, position, limit):
        """Returns each answered reply with all continuations and the best line."""
        return [
            {"reply": reply, "plies": plies, "moves": self.continuations(then, plies), "line": self.line(then, plies)}
            for reply, then, plies in self.met(position, limit)
        ]

    def threats(self, position, limit):
        if self.is_reached(position):
            return "end"
        then = passed(position)
        if then is None:
            return "check"
        plies = self.fewest(then, limit)
        return {"plies": plies, "moves": self.continuations(then, plies)} if plies else "zugzwang"

    def sequel(self, position, plies):
        """Returns all continuations, and the play after the first of them."""
        moves = self.continuations(position, plies)
        return {"moves": moves, "play": self.play(after(position, moves[0]), plies - 2)}

    def sequels(self, position, limit):
        return [{"reply": reply, "sequel": self.sequel(then, plies)} for reply, then, plies in self.met(position, limit)]

    def play(self, position, left):
        """Returns what the attacker's move threatens that leads here, the sequel of a threat that doesn't end the game, and a sequel after each
        reply that is answered within the plies that are left: after a key each reply, after a try all but the refutation."""
        threats = self.threats(position, left)
        longer = self.sequel(passed(position), threats["plies"]) if isinstance(threats, dict) and threats["plies"] > 1 else None
        return {"threats": threats, "longer": longer, "replies": self.sequels(position, left)}

    def refuting(self, position, plies):
        return [it for it in lawful(position) if not self.is_won(after(position, it), plies)]

    def tries(self, position, plies):
        """Returns the moves that aren't keys and that one reply alone refutes. A problem of one move has none."""
        keys, found = self.continuations(position, plies), []
        for move in lawful(position) if plies > 1 else []:
            refuting = self.refuting(after(position, move), plies - 2)
            if move not in keys and len(refuting) == 1:
                found.append({"first": move, "refutation": refuting[0]})
        return found

    def solution(self, position, limit):
        """Returns the short form as data, or None if nothing is forced."""
        plies = self.fewest(position, limit)
        if plies is None:
            return None
        keys = [(move, after(position, move)) for move in self.continuations(position, plies)]
        keys = [{"first": move, "threats": self.threats(it, plies - 2), "variations": self.variations(it, plies - 2)} for move, it in keys]
        then = passed(position)
        return {"plies": plies, "keys": keys, "set_play": self.variations(then, plies - 2) if then else [], "tries": self.tries(position, plies)}

    def whole(self, position, limit):
        """Returns the whole solution as data, or None if nothing is forced."""
        plies = self.fewest(position, limit)
        if plies is None:
            return None
        then = passed(position)
        keys = [{"first": move, "play": self.play(after(position, move), plies - 2)} for move in self.continuations(position, plies)]
        tries = [{**it, "play": self.play(after(position, it["first"]), plies - 2)} for it in self.tries(position, plies)]
        return {"plies": plies, "keys": keys, "set_play": self.sequels(then, plies - 2) if then else [], "tries": tries}

    def first(self, position, move, limit):
        """Returns the play after a given first move, with all replies that refute it, or None if nothing is forced."""
        plies = self.fewest(position, limit)
        if plies is None:
            return None
        then = after(position, move)
        if not lawful(then) and not self.is_reached(then):
            return {"first": move, "stalemate": True}
        return {"first": move, "stalemate": False, "play": self.play(then, plies - 2), "refuting": self.refuting(then, plies - 2)}


def as_data(value):
    """Returns the data with moves as text."""
    if isinstance(value, tuple):
        return check_tree.move_text(value)
    if isinstance(value, list):
        return [as_data(it) for it in value]
    return {name: as_data(it) for name, it in value.items()} if isinstance(value, dict) else value


def move_name(position, move, goal):
    """Returns the move in algebraic notation."""
    start, end, promotion = move
    letter = position.units[start].upper()
    takes = "x" if end in position.units else ""
    then = after(position, move)
    if letter == "P":
        name = ("abcdef"[start[0]] + "x" if takes else "") + check_tree.square_text(end) + ("=" + promotion.upper() if promotion else "")
    else:
        name = letter + told_apart(position, move) + takes + check_tree.square_text(end)
    if check_tree.in_check(then):
        return name + ("+" if lawful(then) else "#")
    return name + ("=" if goal == "stale" and not lawful(then) else "")


def told_apart(position, move):
    """Returns the file, else the rank, else the square that distinguishes the unit from others of its kind with a move to the same square."""
    start, end, _ = move
    others = [it[0] for it in lawful(position) if it[1] == end and it[0] != start and position.units[it[0]] == position.units[start]]
    if not others:
        return ""
    file, rank = check_tree.square_text(start)
    if all(it[0] != start[0] for it in others):
        return file
    return rank if all(it[1] != start[1] for it in others) else file + rank


class Writer:
    """The lines of a solution in the short form. Moves of the attacker are numbered."""

    def __init__(self, goal, limit):
        self.goal, self.limit, self.set_play = goal, limit, []

    def name(self, position, move, number):
        return f"{number}.{move_name(position, move, self.goal)}"

    def names(self, position, moves, number):
        return " ".join(self.name(position, move, number) for move in moves)

    def duals(self, position, moves, number):
        return ", dual " + self.names(position, moves[1:], number) if moves[1:] else ""

    def line(self, position, moves):
        """Returns the best line after a reply, from the attacker's second move on."""
        words = []
        for place, move in enumerate(moves):
            words.append(move_name(position, move, self.goal) if place % 2 else self.name(position, move, 2 + place // 2))
            position = after(position, move)
        return " ".join(words)

    def threats(self, position, threats, number):
        if threats in ("end", "check"):
            return ""
        if threats == "zugzwang":
            return " zugzwang"
        moves = threats["moves"]
        return (" threats " if len(moves) > 1 else " threat ") + self.names(passed(position), moves, number)

    def variations(self, position, variations):
        lines = []
        for it in variations:
            then = after(position, it["reply"])
            reply = move_name(position, it["reply"], self.goal)
            lines.append(f"  1...{reply} {self.line(then, it['line'])}{self.duals(then, it['moves'], 2)}")
        return lines

    def key(self, position, key):
        then = after(position, key["first"])
        return [f"{self.name(position, key['first'], 1)}!{self.threats(then, key['threats'], 2)}", *self.variations(then, key["variations"])]

    def tried(self, position, tried):
        refutation = move_name(after(position, tried["first"]), tried["refutation"], self.goal)
        return [f"{self.name(position, tried['first'], 1)}? {refutation}!"]

    def note(self, plies, cooks):
        """Returns that more moves were asked for, or how many keys there are beside the author's."""
        if (plies + 1) // 2 < (self.limit + 1) // 2:
            return ", short"
        return f", cooked by {cooks} key{'s' * (cooks > 1)}" if cooks else ""

    def text(self, position, solution):
        kind, plies, self.set_play = "mate" if self.goal == "mate" else "goal", solution["plies"], solution["set_play"]
        lines = [f"{kind} in {(plies + 1) // 2}" + self.note(plies, len(solution["keys"]) - 1)]
        lines += ["set play", *self.variations(passed(position), self.set_play)] if self.set_play else ["no set play"]
        lines += ["tries" if solution["tries"] else "no tries", *(line for it in solution["tries"] for line in self.tried(position, it))]
        lines += [line for key in solution["keys"] for line in self.key(position, key)]
        return "".join(line + "\n" for line in lines)


class WholeWriter(Writer):
    """The lines of a whole solution: each reply on a line of its own, two more blanks before it for each earlier move of the attacker."""

    def variations(self, position, replies, number=1, held=()):
        """Returns the lines of replies; those in `held`, the set play, are compared with them."""
        lines = []
        for it in replies:
            begun, then = f"{number}...{move_name(position, it['reply'], self.goal)}", after(position, it["reply"])
            lines += self.sequel(begun, then, it["sequel"], number, self.changed(then, it, held))
        return lines

    def changed(self, position, variation, held):
        """Returns the first move that answers the reply in the set play, if no move here brings such a unit to that square."""
        for then, before in held:
            first = before["sequel"]["moves"][0]
            alike = [it for it in variation["sequel"]["moves"] if it[1:] == first[1:] and position.units[it[0]] == then.units[first[0]]]
            if before["reply"] == variation["reply"] and not alike:
                return f", set {self.name(then, first, 2)}"
        return ""

    def sequel(self, before, position, sequel, number, end=""):
        """Returns the lines of a sequel, the first of which begins with `before` after blanks."""
        first = sequel["moves"][0]
        begun = f"{'  ' * number}{before} {self.name(position, first, number + 1)}"
        end = self.duals(position, sequel["moves"], number + 1) + end
        return self.play(begun, end, after(position, first), sequel["play"], number + 1)

    def play(self, begun, end, position, play, number, held=()):
        """Returns the lines after the attacker's move of this number, the first of which is begun."""
        lines = [begun + self.threats(position, play["threats"], number + 1) + end]
        if play["longer"]:
            lines += self.sequel(f"{number}...~", passed(position), play["longer"], number)
        return lines + self.variations(position, play["replies"], number, held)

    def key(self, position, key):
        held = [(after(passed(position), it["reply"]), it) for it in self.set_play]
        return self.play(f"{self.name(position, key['first'], 1)}!", "", after(position, key["first"]), key["play"], 1, held)

    def tried(self, position, tried):
        return self.refuted(position, {**tried, "refuting": [tried["refutation"]]})

    def refuted(self, position, first):
        then = after(position, first["first"])
        lines = self.play(f"{self.name(position, first['first'], 1)}?", "", then, first["play"], 1)
        return [*lines, *(f"  but 1...{move_name(then, it, self.goal)}!" for it in first["refuting"])]

    def first(self, position, first):
        """Returns the text of the play after a given first move."""
        if first["stalemate"]:
            lines = [f"{self.name(position, first['first'], 1)}? stalemate"]
        else:
            lines = self.refuted(position, first) if first["refuting"] else self.key(position, first)
        return "".join(line + "\n" for line in lines)
