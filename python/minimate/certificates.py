"""Certificates: what `minimate certify` writes of an answer, and what it proves."""

from typing import Union

from . import _calls
from .answers import Answer, read_answer
from .positions import Position
from .refusals import Refused, answered, first_line_sentence
from .solver import counts_stale


def verify(position: Union[Position, str], certificate: Union[bytes, str], goal: str = "mate") -> Answer:
    """The answer that the certificate proves of the position. One that proves none is `Refused`, with the `line` of its fault.

    The library's checker trusts no search: it reads the certificate's claims, and looks three plies ahead.
    """
    asked = position if isinstance(position, Position) else Position(position)
    text = certificate.encode("utf-8", "surrogateescape") if isinstance(certificate, str) else bytes(certificate)
    try:
        return read_answer(answered(_calls.calls().ask("verify", asked.text.encode(), counts_stale(goal), text)))
    except Refused as why:
        if why.name == "Answer":
            raise Refused(why.name, first_line_sentence(text, counts_stale(goal))) from None
        raise
