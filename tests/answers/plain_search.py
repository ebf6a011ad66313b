"""A plain search for mate, or for mate or stalemate, by the rules of tools/check_tree.py alone; it remembers what it has decided."""

from check_tree import after, in_check, lawful, move_text


def ordered(position):
    """Returns the lawful moves, checks first: so most wins are found sooner."""
    return sorted(lawful(position), key=lambda move: not in_check(after(position, move)))


class Search:
    """A search for one goal."""

    def __init__(self, goal):
        self.goal, self.known = goal, {}

    def is_reached(self, position):
        return not lawful(position) and (self.goal == "stale" or in_check(position))

    def is_lost(self, position, plies):
        """Decides whether the defender, to move, reaches the goal within these plies whatever it replies."""
        if plies == 0 and self.goal == "mate" and not in_check(position):
            return False
        moves = lawful(position)
        if not moves:
            return self.is_reached(position)
        return plies > 0 and all(self.is_won(after(position, move), plies - 1) for move in moves)

    def is_won(self, position, plies):
        """Decides whether the attacker, to move, forces the goal within these plies."""
        if plies < 1:
            return False
        name = position.side, frozenset(position.units.items()), plies
        if name not in self.known:
            self.known[name] = any(self.is_lost(after(position, move), plies - 1) for move in ordered(position))
        return self.known[name]

    def fewest(self, position, limit):
        """Returns the fewest plies that force the goal, or None."""
        return next((plies for plies in range(1, limit + 1, 2) if self.is_won(position, plies)), None)

    def winning(self, position, plies):
        """Yields the moves that force the goal within these plies, in order."""
        return (move for move in lawful(position) if self.is_lost(after(position, move), plies - 1))

    def answer(self, position, limit):
        """Returns the fewest plies and the text of the least move that keeps them, or None."""
        plies = self.fewest(position, limit)
        return plies and (plies, move_text(next(self.winning(position, plies))))

    def keys(self, position, limit):
        """Yields each move that forces the goal as text, with its fewest plies."""
        for move in lawful(position):
            plies = next((it for it in range(1, limit + 1, 2) if self.is_lost(after(position, move), it - 1)), None)
            if plies:
                yield move_text(move), plies

    def tree(self, position, limit):
        """Returns the best tree: the fewest plies and then the least move at each turn of the attacker. None without a win."""
        plies = self.fewest(position, limit)
        if plies is None:
            return None
        move = next(self.winning(position, plies))
        then, first = after(position, move), move_text(move)
        replies = lawful(then)
        if not replies:
            return first + ("#" if in_check(then) else "=")
        return first + "{" + ",".join(f"{move_text(it)}:{self.tree(after(then, it), plies - 2)}" for it in replies) + "}"
