"""Signals as the judge's scripts want them, whatever whoever calls has left them."""
import signal
import sys


def settled():
    """Children are waited for and clocks are heard, also where the caller ignores or blocks their signals: without that Python takes any end of a child
    for 0. What ends a script lets it remove its rooms and end what it has started; a signal that is ignored, as under `nohup`, stays so."""
    for one in (signal.SIGCHLD, signal.SIGXCPU):
        signal.signal(one, signal.SIG_DFL)
    signal.pthread_sigmask(signal.SIG_SETMASK, ())
    for one in (signal.SIGTERM, signal.SIGINT, signal.SIGHUP):
        if signal.getsignal(one) != signal.SIG_IGN:
            signal.signal(one, lambda number, _: sys.exit(128 + number))
