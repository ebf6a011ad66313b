"""One position, by rounds of tasks as `minimate solve` plays them: a task for each first move and reply."""

import os

import check_tree
import tree_parts
from spread import joblog, parallel, tasks


class Reply:
    """A position after a move and a reply, in which the attacker is to move again."""

    def __init__(self, text, position):
        self.text, self.position, self.fen = text, position, check_tree.fen_text(position)
        self.moves = None
        # The fewest plies in which the goal is forced, if that is known; and the most plies within which it is known not to be.
        self.forced, self.escapes = None, 0

    def learn(self, known):
        if known.is_forced:
            self.forced = known.plies
        else:
            self.escapes = max(self.escapes, known.plies)

    def decided(self, plies):
        """Returns whether the goal is forced within so many plies, or None if that isn't known."""
        if self.forced is not None:
            return self.forced <= plies
        return False if self.escapes >= plies else None


class First:
    """A first move, with the replies to it."""

    def __init__(self, text, replies):
        self.text, self.replies = text, replies

    def wins(self, plies):
        """Returns whether each reply is met within so many plies, or None if that isn't known."""
        told = [reply.decided(plies) for reply in self.replies]
        if not self.replies or False in told:
            return False
        return None if None in told else True

    def open_replies(self, plies):
        """Returns the replies to solve, the one that escaped last first."""
        if self.wins(plies) is not None:
            return []
        return sorted((it for it in self.replies if it.decided(plies) is None), key=lambda reply: -reply.escapes)


class Solve(tasks.Work):
    """The answer to one position."""

    def __init__(self, options):
        super().__init__(options)
        self.fen = options.fen

    def answer(self):
        """Returns the text to print. The first round is one call of the program here, which also refuses."""
        limit = self.limit("solve", "--", self.fen)
        at_once = self.ask_here("solve", 1, "--", self.fen)
        self.open_log()
        if self.options.tasks:
            return self.tasks(limit)
        if not at_once.startswith("none"):
            return self.whole(self.ask_here("tree", 1, "--", self.fen), 1) if self.options.tree else at_once
        firsts = self.firsts() if limit >= 3 else []
        for plies in range(3, limit + 1, 2):
            won = self.round(firsts, plies)
            if won:
                return self.tree(won, plies) if self.options.tree else f"{joblog.WORDS[self.goal]} {plies} {won.text}\n"
        return f"none within {limit}\n"

    def is_listing(self):
        return self.options.tasks

    def tasks(self, limit):
        """Returns the last round's tasks, each as a line of the joblog begins."""
        within = limit - 2 if limit % 2 else limit - 3
        keys = dict.fromkeys(self.key(self.command(), within, reply.fen) for reply in all_replies(self.firsts())) if within > 0 else []
        return "".join("\t".join(key) + "\n" for key in keys)

    def firsts(self):
        root, found = check_tree.read_position(os.fsencode(self.fen)), []
        for move in tree_parts.listed_moves(self.program, root):
            then = check_tree.after(root, move)
            moves = tree_parts.listed_moves(self.program, then)
            replies = [Reply(check_tree.move_text(reply), check_tree.after(then, reply)) for reply in moves]
            found.append(First(check_tree.move_text(move), replies))
        return found

    # Rounds

    def round(self, firsts, plies):
        """Returns the least move that wins within so many plies, or None."""
        within = plies - 2
        for reply in all_replies(firsts):
            self.recall(reply, within)
        if not is_decided(firsts, within):
            self.run_round(firsts, asked_of(firsts, within), within)
        return next((first for first in firsts if first.wins(within)), None)

    def recall(self, reply, within):
        """Takes the answers that the joblog has of a reply."""
        for limit, text in self.log.of(self.believed(), self.goal, reply.fen):
            if reply.decided(within) is None:
                known = joblog.read_answer(text, self.goal, limit, self.moves(reply))
                if known:
                    reply.learn(known)

    def moves(self, reply):
        """Returns the moves at the position after the reply."""
        if reply.moves is None:
            reply.moves = [check_tree.move_text(move) for move in tree_parts.listed_moves(self.program, reply.position)]
        return reply.moves

    def run_round(self, firsts, asked, within):
        for replies in asked:
            self.moves(replies[0])
        lines = [self.line(self.command(), within, replies[0].fen) for replies in asked]
        with parallel.Run(lines, self.machines) as running:
            for number, ended in running:
                self.learn(asked[number], within, lines[number], ended)
                if is_decided(firsts, within):
                    return
                unwanted = not_wanted(firsts, asked, within)
                for other in unwanted:
                    running.drop(other)
        raise parallel.Fault("tasks are left undone")

    def learn(self, replies, within, line, ended):
        """Takes a task's answer for all replies that lead to its position."""
        if not ended.is_done():
            raise self.unanswered(line, ended)
        fen = replies[0].fen
        answer = self.answer_of(fen, line, ended)
        known = joblog.read_answer(answer, self.goal, within, self.moves(replies[0]))
        if not known:
            raise self.unanswered(line, ended)
        self.note(self.key(self.command(), within, fen), answer, ended)
        for reply in replies:
            reply.learn(known)

    def note(self, key, answer, ended):
        self.runs[ended.where()] += 1
        self.log.add(key, answer, ended)

    # The tree

    def tree(self, first, plies):
        """Returns the tree of a move. The tree of each reply is a task."""
        kept = {reply.fen: self.log.answers.get(self.key("tree", reply.forced, reply.fen)) for reply in first.replies}
        texts = {fen: text for fen, text in kept.items() if text}
        asked = list({reply.fen: reply for reply in first.replies if reply.fen not in texts}.values())
        if asked:
            self.run_trees(asked, texts)
        below = ",".join(f"{reply.text}:{texts[reply.fen].rstrip()}" for reply in first.replies)
        return self.whole(f"{first.text}{{{below}}}\n", plies)

    def run_trees(self, asked, texts):
        lines = [self.line("tree", reply.forced, reply.fen) for reply in asked]
        with parallel.Run(lines, self.machines) as running:
            for number, ended in running:
                if not ended.is_done():
                    raise self.unanswered(lines[number], ended)
                reply = asked[number]
                self.note(self.key("tree", reply.forced, reply.fen), ended.output, ended)
                texts[reply.fen] = ended.output

    def whole(self, text, plies):
        """Returns the tree, once the program here has checked it."""
        root = check_tree.read_position(os.fsencode(self.fen))
        told = tree_parts.checked(self.program, self.goal, root, text.removesuffix("\n"))
        if told != plies:
            raise parallel.Fault(f"the tree that came back doesn't win within {plies} plies, so some machine answered wrongly")
        return text


def all_replies(firsts):
    return (reply for first in firsts for reply in first.replies)


def is_decided(firsts, within):
    """Whether the least move that wins is known, or it is known that none wins."""
    for first in firsts:
        told = first.wins(within)
        if told is not False:
            return bool(told)
    return True


def asked_of(firsts, within):
    """Returns the positions to solve, each once with all its replies: one reply of each first move, then the next of each, and so on."""
    lists, found = [first.open_replies(within) for first in firsts], {}
    for rank in range(max(map(len, lists), default=0)):
        for replies in lists:
            if rank < len(replies):
                found.setdefault(replies[rank].fen, []).append(replies[rank])
    return list(found.values())


def not_wanted(firsts, asked, within):
    """Returns the numbers of the tasks of no more use: a reply to their move escapes, or a lesser move wins."""
    wanted = set()
    for first in firsts:
        told = first.wins(within)
        if told:
            break
        if told is None:
            wanted.update(reply.fen for reply in first.replies)
    return [number for number, replies in enumerate(asked) if replies[0].fen not in wanted]
