"""Starts the service, or makes the log that it stands on."""

import argparse
import os
import sys
from typing import List, Optional

from cedar_session import CedarError
from cedar_session.copies import Log

from . import folder
from .app import Limits
from .points import fill
from .tokens import Doors, Tokens
from .workers import Settings, serve

_DATABASE = "CEDAR_DATABASE"
# (one that isn't busy says so once a second, and later where the machine is)
_SILENCE = 10


def _arguments() -> argparse.ArgumentParser:
    asked = argparse.ArgumentParser(prog="python3 -m cedar_server", description="A decision point over HTTP; docs/SERVICE.md has its calls.")
    asked.add_argument("folder", nargs="?", help="policies in its files *.cedar, entities in its files *.json")
    asked.add_argument("--database", metavar="URL", default=os.environ.get(_DATABASE), help=f"serves a log of this PostgreSQL database ({_DATABASE})")
    asked.add_argument("--log", metavar="NAME", default="policies", help="the log's name (policies)")
    asked.add_argument("--create", action="store_true", help="makes the log, with what the folder has, and ends")
    asked.add_argument("--address", metavar="HOST:PORT", default="127.0.0.1:8180", help="where it listens (127.0.0.1:8180)")
    asked.add_argument("--processes", metavar="N", type=int, default=1, help="so many processes (1)")
    asked.add_argument("--tokens", metavar="FILE", help="those who ask need one of these tokens")
    asked.add_argument("--admins", metavar="FILE", help="those who edit need one of these tokens")
    asked.add_argument("--decisions", metavar="FILE", help="logs each decision there")
    asked.add_argument("--page", action="store_true", help="serves a page at /, on which policies, entities and a question are tried")
    asked.add_argument("--limit", metavar="BYTES", type=int, default=Limits.body, help=f"bodies are no longer ({Limits.body})")
    asked.add_argument("--seconds", metavar="S", type=float, default=Limits.seconds, help=f"heads and bodies come in that time ({Limits.seconds:g})")
    asked.add_argument("--age", metavar="S", type=float, help="questions that state no age are asked for this one")
    silence = f"a process may be busy so long, {_SILENCE} or more ({Settings.silence})"
    asked.add_argument("--silence", metavar="S", type=int, default=Settings.silence, help=silence)
    return asked


def _wrong(given: argparse.Namespace) -> Optional[str]:
    """What can't be asked for together."""
    if given.create and given.database is None:
        return "--create goes with --database"
    if given.folder is None and given.database is None:
        return "a folder is wanted, or --database"
    if given.folder is not None and given.database is not None and not given.create:
        return "a folder goes with --database where --create stands: the log has the policies then"
    if given.processes < 1 or given.limit < 1 or given.seconds <= 0 or given.silence < _SILENCE or (given.age is not None and given.age < 0):
        return "a number is too small"
    return None


def _create(given: argparse.Namespace) -> None:
    edits = [] if given.folder is None else folder.read(given.folder)
    log = Log(given.database, given.log)
    log.create()
    print(f"the log {given.log!r} stands at {fill(log, edits)}")


def _settings(given: argparse.Namespace) -> Settings:
    asking, editing = (None if it is None else Tokens.read(it) for it in (given.tokens, given.admins))
    limits = Limits(given.limit, given.seconds, given.age)
    return Settings(
        Doors(asking, editing),
        folder=given.folder,
        database=given.database,
        log=given.log,
        address=given.address,
        processes=given.processes,
        limits=limits,
        decisions=given.decisions,
        page=given.page,
        silence=given.silence,
    )


def main(words: Optional[List[str]] = None) -> int:
    asked = _arguments()
    given = asked.parse_args(words)
    wrong = _wrong(given)
    if wrong is not None:
        asked.error(wrong)
    try:
        if given.create:
            _create(given)
        else:
            serve(_settings(given))
    except (CedarError, OSError, ValueError) as why:
        print(f"{type(why).__name__}: {why}", file=sys.stderr)
        return 1
    return 0


if __name__ == "__main__":
    sys.exit(main())
