"""The log of a session's edits: rows of a table in a PostgreSQL database, each chained to the one before by a hash."""

import hashlib
import json
import secrets
import selectors
from dataclasses import dataclass
from time import monotonic
from typing import Any, Callable, List, Optional, Sequence, TypeVar, cast

import psycopg

from .commands import DEPTH, LANGUAGE
from .errors import CedarError

T = TypeVar("T")

# Whoever writes the tables says what is allowed. A copy needs SELECT, one that edits INSERT too.
SCHEMA = """
CREATE TABLE IF NOT EXISTS cedar_edits (
    log text NOT NULL,
    position bigint NOT NULL CHECK (position >= 0),
    key text NOT NULL,
    verb text NOT NULL CHECK (verb IN ('begin', 'load', 'link', 'unlink', 'remove-static', 'remove-template', 'add', 'put', 'remove')),
    body bytea NOT NULL CHECK (octet_length(body) <= 1048576),
    hash bytea NOT NULL CHECK (octet_length(hash) = 32),
    CHECK ((position = 0) = (verb = 'begin')),
    PRIMARY KEY (log, position),
    UNIQUE (log, key)
);
CREATE TABLE IF NOT EXISTS cedar_snapshots (
    log text NOT NULL,
    position bigint NOT NULL,
    hash bytea NOT NULL,
    frames bytea NOT NULL,
    seal bytea NOT NULL,
    PRIMARY KEY (log, position),
    FOREIGN KEY (log, position) REFERENCES cedar_edits
);
"""
_ROW = "SELECT position, key, verb, body, hash FROM cedar_edits WHERE log = %(log)s"
_LAST = "(SELECT max(position) FROM cedar_edits WHERE log = %(log)s)"
# So many rows at most are read at once, of 1 MiB each, and so often an edit is tried again behind those of others.
_PORTION, _TRIES = 16, 1_000


class LogError(CedarError):
    """The database refuses, or can't be reached. `key` is that of an edit which may stand in the log all the same: given again with
    it, it is done once."""

    key: Optional[str] = None


class NoLog(LogError):
    """The database has no log of this name."""


class Broken(CedarError):
    """The log isn't the one that was followed: it lacks edits, has others in their place, or a row that can't be read."""


class Moved(CedarError):
    """The log has gone on from the position that was expected, to `position`. Nothing has changed."""

    def __init__(self, position: int):
        super().__init__(f"the log stands at {position}")
        self.position = position


class KeyTaken(CedarError):
    """The key is that of another edit. Nothing has changed."""


def _digest(*parts: bytes) -> bytes:
    return hashlib.sha256(b"".join(b"%d:%s" % (len(it), it) for it in parts)).digest()


@dataclass(frozen=True)
class Edit:
    """A row of the log: the n-th edit has the position n, and the row at 0 says what the log is."""

    position: int
    key: str
    verb: str
    body: bytes
    hash: bytes

    def is_behind(self, log: str, before: bytes) -> bool:
        """Whether it is chained to that hash."""
        return self.hash == chained(log, before, self.position, self.key, self.verb, self.body)


def chained(log: str, before: bytes, position: int, key: str, verb: str, body: bytes) -> bytes:
    """The hash of an edit, behind that of the edit before."""
    return _digest(log.encode(), before, b"%d" % position, key.encode(), verb.encode(), body)


@dataclass(frozen=True)
class Place:
    """A position with its hash: what a copy has done."""

    position: int
    hash: bytes


@dataclass(frozen=True)
class Snapshot:
    """What is held at a place, as frames."""

    place: Place
    frames: bytes

    def seal(self, log: str) -> bytes:
        return _digest(log.encode(), b"%d" % self.place.position, self.place.hash, self.frames)


def rules_of(depth: int, language: str) -> bytes:
    """What the first row of a log has: the limit of depth and the version of the language, which all its copies have."""
    return json.dumps({"depth": depth, "language": language}, sort_keys=True).encode()


class _Connection(psycopg.Connection[Any]):
    """A connection that gives up where the server takes longer than so many seconds."""

    seconds: float = 30
    is_told = False

    def wait(self, gen: Any, *_: Any, **__: Any) -> Any:
        until = monotonic() + self.seconds
        try:
            wanted = next(gen)
            while True:
                ready = _ready(self.fileno(), wanted, until - monotonic())
                if not ready:
                    raise psycopg.OperationalError(f"the server doesn't answer in {self.seconds} seconds")
                wanted = gen.send(ready)
        except StopIteration as end:
            return end.value

    def doze(self, seconds: float) -> None:
        """Waits so long for a notice of an edit."""
        if not self.is_told and _ready(self.fileno(), selectors.EVENT_READ, seconds):
            self.pgconn.consume_input()
            while self.pgconn.notifies():
                pass
        self.is_told = False


def _ready(descriptor: int, wanted: int, seconds: float) -> int:
    with selectors.DefaultSelector() as it:
        it.register(descriptor, wanted)
        found = it.select(max(seconds, 0))
    return found[0][1] if found else 0


class Log:
    """The log `name` of the database that a connection string of PostgreSQL names, for one copy. Where the connection breaks off it
    is opened again; an edit that was under way then isn't done twice, by its key."""

    def __init__(self, database: str, name: str, seconds: float = 30):
        self.database, self.name, self.seconds = database, name, seconds
        self._connection: Optional[_Connection] = None

    def create(self, depth: int = DEPTH, language: str = LANGUAGE) -> None:
        """Creates the tables, where they aren't there, and the log, which mustn't be there."""
        key, rules = secrets.token_hex(16), rules_of(depth, language)

        def created(connection: _Connection) -> None:
            connection.execute(SCHEMA)
            self._insert(connection, Edit(0, key, "begin", rules, chained(self.name, b"", 0, key, "begin", rules)))

        self._run(created)

    def first(self) -> Edit:
        """The row that says what the log is."""
        found = self._rows(_ROW + " AND position = 0")
        if not found:
            raise NoLog(f"there is no log {self.name!r}")
        if not found[0].is_behind(self.name, b""):
            raise Broken("the log's first row is another's")
        return found[0]

    def end(self) -> int:
        """The position of the last edit."""
        found = self._rows(_ROW + f" AND position = {_LAST}")
        if not found:
            raise NoLog(f"there is no log {self.name!r}")
        return found[0].position

    def append(self, edit: str, body: bytes, key: str, expected: Optional[int] = None, since: Optional[Place] = None) -> int:
        """Puts an edit behind all others, and answers its position; that where it stands already, where its key is known. `expected`
        is the position behind which it has to come, `since` a place that the log has to have."""
        return self._run(lambda it: self._appended(it, edit, body, key, expected, since))

    def after(self, place: Place, until: int) -> List[Edit]:
        """The next edits behind a place, up to a position, some at a time. Raises Broken where they aren't chained to it."""
        found = self._rows(_ROW + " AND position BETWEEN %(at)s AND %(until)s ORDER BY position LIMIT %(portion)s", place.position, until)
        self._want(found[:1], place)
        for before, edit in zip(found, found[1:]):
            if edit.position != before.position + 1 or not edit.is_behind(self.name, before.hash):
                raise Broken(f"behind {before.position} comes {edit.position}, which isn't chained to it")
        if place.position < until and not found[1:]:
            raise Broken(f"there is nothing behind {place.position}")
        return found[1:]

    def wait(self, position: int, seconds: float) -> None:
        """Waits so long until the log has an edit behind a position."""
        until = monotonic() + seconds
        while self.end() <= position and monotonic() < until:
            # (a server that gives no notice is asked once a second)
            self._run(lambda it: it.doze(min(until - monotonic(), 1)))

    def keep(self, snapshot: Snapshot) -> None:
        """Keeps a snapshot, from which new copies begin."""
        words = (
            "INSERT INTO cedar_snapshots SELECT log, position, hash, %(frames)s, %(seal)s FROM cedar_edits"
            " WHERE log = %(log)s AND position = %(at)s AND hash = %(hash)s ON CONFLICT DO NOTHING"
        )
        kept, place = "SELECT 1 FROM cedar_snapshots WHERE log = %(log)s AND position = %(at)s AND seal = %(seal)s", snapshot.place
        given = {"log": self.name, "at": place.position, "hash": place.hash, "frames": snapshot.frames, "seal": snapshot.seal(self.name)}
        self._run(lambda it: it.execute(words, given))
        if self._run(lambda it: it.execute(kept, given).fetchone()) is None:
            raise Broken(f"the log has another place, or another snapshot, at {place.position}")

    def snapshot(self) -> Optional[Snapshot]:
        """The last snapshot that was kept."""
        words = "SELECT position, hash, frames, seal FROM cedar_snapshots WHERE log = %s ORDER BY position DESC LIMIT 1"
        row = self._run(lambda it: it.execute(words, [self.name], binary=True).fetchone())
        if row is None:
            return None
        position, held, frames, seal = row
        snapshot = Snapshot(Place(position, held), frames)
        if snapshot.seal(self.name) != seal:
            raise Broken(f"the snapshot at {position} isn't what was kept")
        return snapshot

    def drop(self, before: int) -> None:
        """Drops the edits before a position for which the last snapshot stands, and the snapshots before that one. An edit that is
        gone is done again where its key comes again."""
        last = "(SELECT max(position) FROM cedar_snapshots WHERE log = %(log)s)"
        given = {"log": self.name, "before": before}
        self._run(lambda it: it.execute(f"DELETE FROM cedar_snapshots WHERE log = %(log)s AND position < {last}", given))
        self._run(lambda it: it.execute(f"DELETE FROM cedar_edits WHERE log = %(log)s AND position > 0 AND position < %(before)s AND position < {last}", given))

    def close(self) -> None:
        """Closes the connection; the next call opens another."""
        connection, self._connection = self._connection, None
        if connection is not None:
            connection.close()

    def _appended(self, connection: _Connection, verb: str, body: bytes, key: str, expected: Optional[int], since: Optional[Place]) -> int:
        own = -1 if since is None else since.position
        for _ in range(_TRIES):
            words = _ROW + f" AND (key = %(key)s OR position = %(own)s OR position = {_LAST}) ORDER BY position"
            found = self._read(connection, words, {"log": self.name, "key": key, "own": own})
            if not found:
                raise NoLog(f"there is no log {self.name!r}")
            if since is not None:
                self._want([it for it in found if it.position == own], since)
            for row in found:
                if row.key == key:
                    return self._same(row, verb, body)
            last = found[-1]
            if expected is not None and expected != last.position:
                raise Moved(last.position)
            edit = chained(self.name, last.hash, last.position + 1, key, verb, body)
            try:
                self._insert(connection, Edit(last.position + 1, key, verb, body, edit))
                return last.position + 1
            except psycopg.errors.UniqueViolation:
                # Another edit came there first.
                pass
        raise LogError("others edit without an end")

    @staticmethod
    def _same(row: Edit, verb: str, body: bytes) -> int:
        if (row.verb, row.body) != (verb, body):
            raise KeyTaken(f"the key is that of the edit at {row.position}")
        return row.position

    @staticmethod
    def _want(found: Sequence[Edit], place: Place) -> None:
        if [Place(it.position, it.hash) for it in found] != [place]:
            raise Broken(f"the log has another edit at {place.position}" if found else f"the log has no edit at {place.position}")

    def _insert(self, connection: _Connection, edit: Edit) -> None:
        words = "WITH added AS (INSERT INTO cedar_edits VALUES (%s, %s, %s, %s, %s, %s) RETURNING 1) SELECT pg_notify('cedar_edits', '') FROM added"
        connection.execute(words, (self.name, edit.position, edit.key, edit.verb, edit.body, edit.hash))

    def _rows(self, words: str, at: int = 0, until: int = 0) -> List[Edit]:
        return self._run(lambda it: self._read(it, words, {"log": self.name, "at": at, "until": until, "portion": _PORTION}))

    @staticmethod
    def _read(connection: _Connection, words: str, given: "dict[str, object]") -> List[Edit]:
        return [Edit(*row) for row in connection.execute(words, given, binary=True)]

    def _run(self, do: Callable[[_Connection], T]) -> T:
        """Does it, once more where a connection of before has broken off."""
        for is_again in (self._connection is None, True):
            try:
                return do(self._opened())
            except psycopg.Error as why:
                self.close()
                if is_again or not isinstance(why, (psycopg.OperationalError, psycopg.InterfaceError)):
                    raise LogError(str(why)) from why
            except CedarError:
                raise
            except BaseException:
                self.close()
                raise
        raise AssertionError

    def _opened(self) -> _Connection:
        if self._connection is None:
            words = {"autocommit": True, "prepare_threshold": None, "connect_timeout": max(int(self.seconds), 1)}
            connection = cast(Any, _Connection).connect(self.database, **words)
            self._connection, connection.seconds = connection, self.seconds
            connection.add_notify_handler(lambda _: setattr(connection, "is_told", True))
            try:
                connection.execute("LISTEN cedar_edits")
            except (psycopg.errors.FeatureNotSupported, psycopg.errors.ReadOnlySqlTransaction):
                # A server that only reads gives no notice, and is asked once a second.
                pass
            row = connection.execute("SELECT current_setting('fsync'), current_setting('synchronous_commit')").fetchone()
            if row is None or row[0] != "on":
                raise psycopg.DataError("the server doesn't write edits to disk: fsync is off")
            if row[1] not in ("on", "remote_apply"):
                connection.execute("SET synchronous_commit TO on")
            return cast(_Connection, connection)
        return self._connection
