"""How a script ends whose output another program reads."""

from __future__ import annotations

import os
import signal
import sys
from typing import Callable


def end_with(main: Callable[[], int]) -> None:
    """Ends with the status of a function. If the reader of the output is gone, as `head` is, it ends without a word.

    The signal itself stays ignored, since a program that is run here may leave its input unread."""
    try:
        status = main()
        sys.stdout.flush()
    except BrokenPipeError:
        # what is still held is not written at the end either
        os.dup2(os.open(os.devnull, os.O_WRONLY), sys.stdout.fileno())
        status = 128 + signal.SIGPIPE
    sys.exit(status)
