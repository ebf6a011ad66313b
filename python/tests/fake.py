"""Calls that answer what a test says, in the place of the library's."""

import contextlib
from unittest import mock

from minimate import _calls


class Fake:
    """`replies` has of each call its reply, or what makes it of the values."""

    path = "a fake"

    def __init__(self, **replies):
        self.replies, self.asked = {"fault": b"", **replies}, []

    def living(self, slots):
        """It has no such solvers."""

    def ask(self, word, *values, room=0):
        self.asked.append((word, *values))
        reply = self.replies[word]
        return reply(*values) if callable(reply) else reply


@contextlib.contextmanager
def calls(**replies):
    """Has the package ask these."""
    fake = Fake(**replies)
    with mock.patch.object(_calls, "_loaded", fake):
        yield fake
