"""How a script ends whose output another program reads."""

from __future__ import annotations

import signal
import sys
from typing import Callable


def end_with(main: Callable[[], int]) -> None:
    """Ends with the status of a function. If the reader of the output is gone, as `head` is, it ends without a word."""
    signal.signal(signal.SIGPIPE, signal.SIG_DFL)
    sys.exit(main())
