"""The package `minimate` for Python over the library, in this process and in others."""

import os
import sys

from programs import TOP, run

FOLDER = os.path.join(TOP, "python")
PAGE = os.path.join(TOP, "docs", "reference", "python.md")
OUT_OF_MEMORY = "out of memory: a search takes less with fewer --slots or --workers"


def settings(library):
    """Returns the environment of a process that uses the package over this library."""
    return {**os.environ, "PYTHONPATH": FOLDER, "MINIMATE_LIBRARY": library, "PYTHONDONTWRITEBYTECODE": "1"}


def run_python(library, *words, text=b"", timeout=60, **how):
    """Runs Python with these arguments, over this library; a warning is an error."""
    return run([sys.executable, "-W", "error", *words], text, timeout, **{"env": settings(library), **how})
