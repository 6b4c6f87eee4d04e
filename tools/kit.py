"""The toolchain's own script `rt`, as a module, and the commands that tools run."""

import importlib.machinery
import importlib.util
import os
import shutil
import subprocess
import sys


class Failed(Exception):
    """Why nothing is built."""


def load():
    """The script of the kit by which rt works, as a module whose crates are those of rt."""
    found = shutil.which("rt")
    if found is None:
        raise Failed("rt isn't on the path, which the toolchain brings")
    loader = importlib.machinery.SourceFileLoader("rtmain", os.path.realpath(found))
    rt = importlib.util.module_from_spec(importlib.util.spec_from_loader("rtmain", loader))
    sys.modules["rtmain"] = rt
    loader.exec_module(rt)
    rt.rtlib.Crate = rt.Crate
    return rt


def run(*words, cwd=None):
    """Runs a command, of which only a failure is told."""
    try:
        done = subprocess.run(words, cwd=cwd, stdin=subprocess.DEVNULL, stdout=subprocess.PIPE, stderr=subprocess.STDOUT)
    except OSError as why:
        raise Failed(f"{words[0]}: {why.strerror}") from why
    if done.returncode:
        raise Failed(f"{words[0]}: {done.stdout.decode(errors='replace')[-3000:]}")
