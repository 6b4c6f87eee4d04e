#!/usr/bin/env python3
"""bounded.py SECONDS COMMAND [WORD ..]: runs a command for so many seconds at most, and ends all that it has begun before it ends itself: also what
went to the background, and also where it is told to end by a signal. Ends with the command's status, or 124 where that took longer.

What lost its parent becomes a child of this program, as Linux has it, so nothing gets away but what becomes another account's. What is left is
told SIGTERM, then SIGQUIT, by which PostgreSQL gives back what it has, then SIGKILL."""

import ctypes
import os
import signal
import subprocess
import sys
import time

# (Linux's PR_SET_CHILD_SUBREAPER)
SUBREAPER = 36
LATE, PAUSE = 124, 3.0


def children(pid):
    """Those of a process, whichever thread began them."""
    found = []
    try:
        for task in os.listdir(f"/proc/{pid}/task"):
            with open(f"/proc/{pid}/task/{task}/children", encoding="ascii") as it:
                found += map(int, it.read().split())
    except OSError:
        # (it has ended meanwhile)
        pass
    return found


def descendants(pid):
    for child in children(pid):
        yield child
        yield from descendants(child)


def is_alone(seconds):
    """Whether nothing is left that was begun here, within that time."""
    until = time.monotonic() + seconds
    while time.monotonic() < until:
        try:
            while os.waitpid(-1, os.WNOHANG)[0]:
                pass
        except ChildProcessError:
            return True
        time.sleep(0.02)
    return False


def end_all():
    for which in (signal.SIGTERM, signal.SIGQUIT, *[signal.SIGKILL] * 20):
        if is_alone(0.02):
            return
        for pid in list(descendants(os.getpid())):
            try:
                os.kill(pid, which)
            except OSError:
                pass
        if is_alone(PAUSE if which != signal.SIGKILL else 0.5):
            return


def status_of(pid):
    """That of a child, once it has ended. Others are waited for meanwhile, so that who looks for them sees that they have ended."""
    while True:
        ended, status = os.wait()
        if ended == pid:
            code = os.waitstatus_to_exitcode(status)
            return code if code >= 0 else 128 - code


def ends(which, _):
    if which == signal.SIGALRM:
        print(f"it took more than {sys.argv[1]} seconds", file=sys.stderr)
    sys.exit(LATE if which == signal.SIGALRM else 128 + which)


def main():
    if len(sys.argv) < 3:
        sys.exit(__doc__)
    ctypes.CDLL(None).prctl(SUBREAPER, 1)
    told = (signal.SIGTERM, signal.SIGINT, signal.SIGHUP, signal.SIGALRM)
    for it in told:
        signal.signal(it, ends)
    try:
        signal.setitimer(signal.ITIMER_REAL, float(sys.argv[1]))
        return status_of(subprocess.Popen(sys.argv[2:]).pid)
    finally:
        for it in told:
            signal.signal(it, signal.SIG_IGN)
        end_all()


if __name__ == "__main__":
    sys.exit(main())
