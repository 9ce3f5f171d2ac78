"""A line on a terminal that says how far something has come; nothing where standard error is no terminal."""
import contextlib
import os
import signal
import time

AFTER, EVERY = 2.0, 0.5  # seconds: what ends sooner shows nothing
ERASE = b"\r\x1b[2K"


class Progress:
    """One line, redrawn by a timer, that `told` makes. It is erased before other lines and at the end."""

    def __init__(self, told):
        self.told, self.is_shown, self.begun = told, False, 0.0
        self.is_terminal = os.isatty(2)

    def draw(self, *_):
        if time.monotonic() - self.begun < AFTER:
            return
        # no stream of Python's, whose lock the interrupted code may hold
        with contextlib.suppress(OSError):
            line = self.told(time.monotonic() - self.begun).encode()
            os.write(2, ERASE + line[: (os.get_terminal_size(2).columns or 80) - 1])
            self.is_shown = True

    def erase(self):
        if self.is_shown:
            self.is_shown = False
            with contextlib.suppress(OSError):
                os.write(2, ERASE)

    @contextlib.contextmanager
    def during(self):
        """Shows the line while something goes on; it is gone afterwards, however that ends."""
        if not self.is_terminal:
            yield
            return
        self.begun = time.monotonic()
        before = signal.signal(signal.SIGALRM, self.draw)
        signal.setitimer(signal.ITIMER_REAL, EVERY, EVERY)
        try:
            yield
        finally:
            signal.setitimer(signal.ITIMER_REAL, 0)
            signal.signal(signal.SIGALRM, before)
            self.erase()


def end_by_interrupt():
    """Ends the process as SIGINT does, so that whoever called it sees that."""
    signal.signal(signal.SIGINT, signal.SIG_DFL)
    os.kill(os.getpid(), signal.SIGINT)
