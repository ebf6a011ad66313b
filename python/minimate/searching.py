"""Searches in threads of their own, so that Ctrl-C is taken by the caller at once, and ends them where they can be stopped."""

import signal
import threading
from typing import Any, Callable, List, Optional, TypeVar, cast

from .refusals import NoMemory

Result = TypeVar("Result")
# What a search may need of its thread's stack, and as much again and more: it is memory only where it is used.
STACK = 4 << 20
# How often a search is looked at, in seconds.
WATCHED = 0.02
_starting = threading.Lock()


class Interrupted(KeyboardInterrupt):
    """Ctrl-C came during a search.

    `none_within` is the plies within which nothing is forced, as far as that was known: 0 without progress. The search has ended then.
    """

    def __init__(self, none_within: int = 0) -> None:
        super().__init__(f"interrupted: none within {none_within}" if none_within else "interrupted")
        self.none_within = none_within


def start(work: Callable[[], None]) -> None:
    """Starts a daemon thread with a stack that serves, whatever other threads get."""
    thread = threading.Thread(target=work, name="minimate search", daemon=True)
    with _starting:
        before = threading.stack_size(STACK)
        try:
            thread.start()
        finally:
            threading.stack_size(before)


def end(ended: threading.Event, stop: Callable[[bool], None]) -> None:
    """Stops a search, whatever interrupts."""
    while not ended.is_set():
        try:
            stop(True)
            ended.wait(WATCHED)
        except KeyboardInterrupt:
            pass


def apart(
    work: Callable[[], Result],
    none_within: Callable[[], int] = lambda: 0,
    watch: Optional[Callable[[], None]] = None,
    stop: Optional[Callable[[bool], None]] = None,
) -> Result:
    """What the work gives, done by another thread. Waiting for it is what an interrupt ends; the work too, where it can be stopped. What
    watches is called now and then, and may raise."""
    outcome: List[Any] = []
    ended = threading.Event()

    def run() -> None:
        # An interrupt is for those who can take it.
        signal.pthread_sigmask(signal.SIG_BLOCK, [signal.SIGINT])
        try:
            outcome.extend([work(), None])
        except BaseException as why:  # pylint: disable=broad-except (the caller gets it, whatever it is)
            outcome.extend([None, why])
        ended.set()

    is_begun = False
    try:
        start(run)
        is_begun = True
        while not ended.wait(WATCHED if watch else None):
            if watch:
                watch()
    except BaseException as why:
        if stop and is_begun:
            end(ended, stop)
        if isinstance(why, KeyboardInterrupt):
            raise Interrupted(none_within()) from None
        if isinstance(why, RuntimeError) and not is_begun:
            # No thread could be started.
            raise NoMemory from why
        raise
    result, fault = outcome
    if fault is not None:
        raise fault
    return cast(Result, result)
