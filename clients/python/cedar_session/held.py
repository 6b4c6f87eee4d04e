"""What a session holds by the edits that it accepted, and the frames that lead a new session to the same."""

import hashlib
import io
import re
from dataclasses import dataclass
from typing import BinaryIO, Dict, Iterator, List, Match, Optional, Set, Tuple

from .commands import BODY_LIMIT, ids_of
from .values import quoted

_HEAD = re.compile(rb"([a-z-]{1,16}) (0|[1-9][0-9]{0,6})\n")
_TOKEN = re.compile(r'"(?:[^"\\]|\\.)*"|//[^\r\n]*|\s+|\w+|::|.', re.DOTALL)
_END = re.compile(r'"(?:[^"\\]|\\.)*"|//[^\r\n]*|;', re.DOTALL)
_BLANK = re.compile(r"(?:\s+|//[^\r\n]*)*")
_ESCAPE = re.compile(r"\\(?:x(..)|u\{(\w+)\}|(.))")
_NAMED = {"n": "\n", "r": "\r", "t": "\t", "0": "\0"}
# What stands in a text for a policy that is gone.
_GAP = "forbid(principal,action,resource)when{false};"

Uid = Tuple[str, str]
Command = Tuple[str, str]


# ---- frames


def frame_of(verb: str, body: str) -> bytes:
    encoded = body.encode()
    return b"%s %d\n%s\n" % (verb.encode(), len(encoded), encoded)


def read_frame(stream: BinaryIO) -> Optional[Tuple[str, bytes]]:
    """The verb and the body of the next frame, or None at the end. It raises ValueError where none stands there."""
    head = stream.readline(33)
    if not head:
        return None
    parts = _HEAD.fullmatch(head)
    if parts is None or int(parts[2]) > BODY_LIMIT:
        raise ValueError(f"no frame: {head!r}")
    body = stream.read(int(parts[2]) + 1)
    if len(body) <= int(parts[2]) or not body.endswith(b"\n"):
        raise ValueError("the frame has no end")
    return parts[1].decode(), body[:-1]


def commands_of(frames: bytes) -> Iterator[Command]:
    """The commands of frames that stand one behind the other, each whole. It raises ValueError where one isn't."""
    stream = io.BytesIO(frames)
    while True:
        frame = read_frame(stream)
        if frame is None:
            return
        yield frame[0], frame[1].decode()


# ---- texts that a session accepted


def policies_of(text: str) -> List[str]:
    """Each policy of a text, without what stands before it."""
    found, at = [], 0
    for it in _END.finditer(text):
        if it[0] == ";":
            blank = _BLANK.match(text, at)
            found.append(text[blank.end() if blank else at : it.end()])
            at = it.end()
    return found


def _tokens(text: str) -> List[str]:
    return [it for it in _TOKEN.findall(text) if not it.isspace() and not it.startswith("//")]


def _bare(tokens: List[str]) -> List[str]:
    """The tokens without parentheses round all."""
    while tokens[0] == "(":
        tokens = tokens[1:-1]
    return tokens


def _parts(tokens: List[str]) -> List[List[str]]:
    """What stands between the commas of a list or a record."""
    part: List[str] = []
    depth, found = 0, []
    for it in _bare(tokens)[1:-1]:
        depth += (it in ("(", "[", "{")) - (it in (")", "]", "}"))
        if it == "," and depth == 0:
            found.append(part)
            part = []
        else:
            part.append(it)
    return found + [part] * bool(part)


def _string(literal: str) -> str:
    """What a string literal stands for."""

    def character(it: "Match[str]") -> str:
        digits = it[1] or it[2]
        return chr(int(digits, 16)) if digits else _NAMED.get(it[3], it[3])

    return _ESCAPE.sub(character, literal[1:-1])


def _fields(tokens: List[str]) -> Dict[str, List[str]]:
    """The keys of a record, with their values."""
    parts = _parts(tokens)
    return {_string(it[0]) if it[0].startswith('"') else it[0]: it[2:] for it in parts}


def _uid(tokens: List[str]) -> Uid:
    *path, _, literal = _bare(tokens)
    return "".join(path), _string(literal)


def id_of(body: str) -> str:
    """The string that a body is."""
    return _string(_bare(_tokens(body))[0])


@dataclass(frozen=True)
class Entity:
    """An entity as it was listed: its name, its parents, and what else stands there."""

    name: str
    parents: Dict[Uid, str]
    data: Tuple[str, ...]

    def text(self) -> str:
        parents = [f"parents:[{','.join(self.parents.values())}]"] * bool(self.parents)
        return "{" + ",".join([f"uid:{self.name}", *parents, *self.data]) + "}"

    def without(self, uids: Set[Uid]) -> "Entity":
        return Entity(self.name, {uid: it for uid, it in self.parents.items() if uid not in uids}, self.data)


def entities_of(body: str) -> Iterator[Tuple[Uid, Entity]]:
    """Each entity of a list."""
    for it in _parts(_tokens(body)):
        fields = _fields(it)
        parents = {_uid(parent): "".join(parent) for parent in _parts(fields.get("parents", ["[", "]"]))}
        data = tuple(f"{key}:{''.join(fields[key])}" for key in ("attrs", "tags") if key in fields)
        yield _uid(fields["uid"]), Entity("".join(fields["uid"]), parents, data)


# ---- what is held


def _portions(texts: List[str], most: int, room: int) -> Iterator[List[str]]:
    """The texts in order, so many and so many bytes at most together."""
    portion: List[str] = []
    used = 0
    for text in texts:
        size = len(text.encode())
        if portion and (len(portion) == most or used + size > room):
            yield portion
            portion, used = [], 0
        portion.append(text)
        used += size
    if portion:
        yield portion


class Held:
    """What the accepted edits led to: policies and templates by their ids, links by theirs, entities by uid."""

    def __init__(self) -> None:
        self.policies: Dict[str, str] = {}
        self.links: Dict[str, str] = {}
        self.entities: Dict[Uid, Entity] = {}

    def record(self, verb: str, body: str, line: str) -> None:
        """Takes up an edit that was answered by this line: one that was refused changes nothing."""
        if not line.startswith("ok"):
            return
        if verb == "load":
            ids, texts = ids_of(line), policies_of(body)
            if len(ids) != len(texts):
                raise ValueError(f"{len(texts)} policies stand under {len(ids)} ids")
            self.policies.update(zip(ids, texts))
        elif verb == "link":
            tokens = _tokens(body)
            self.links[_string(_bare(_fields(tokens)["id"])[0])] = "".join(tokens)
        elif verb == "unlink":
            del self.links[id_of(body)]
        elif verb in ("remove-static", "remove-template"):
            del self.policies[id_of(body)]
        elif verb == "put":
            self.entities.update(entities_of(body))
        elif verb == "add":
            for uid, entity in entities_of(body):
                self.entities.setdefault(uid, entity)
        else:
            self._remove({_uid(it) for it in _parts(_tokens(body))})

    def _remove(self, uids: Set[Uid]) -> None:
        kept = ((uid, it) for uid, it in self.entities.items() if uid not in uids)
        self.entities = {uid: it if uids.isdisjoint(it.parents) else it.without(uids) for uid, it in kept}

    def frames(self) -> bytes:
        """Frames that lead a new session to the same: one put, one load and the links, or several where 1 MiB is too little. They
        are one text for what is held, whatever edits led there."""
        return b"".join(frame_of(*it) for it in (*self._puts(), *self._loads(), *self._links()))

    def _puts(self) -> Iterator[Command]:
        texts = [it.text() + "," for _, it in sorted(self.entities.items())]
        for portion in _portions(texts, len(texts), BODY_LIMIT - 1):
            yield "put", "[" + "".join(portion)[:-1] + "]"

    def _links(self) -> Iterator[Command]:
        return (("link", body) for _, body in sorted(self.links.items()))

    def _loads(self) -> Iterator[Command]:
        """Where nothing is bound the i-th policy of a text gets the number i. So the policies stand in the order of their numbers,
        and what fills the gaps is removed again.

        Where they are too long for one text, policies that are like none of them are loaded first, as many as the first text has.
        Each later text has no more: all its own numbers are taken, so it gets the next ones. The first text takes its numbers at
        last, when they are free again."""
        numbered = {int(name[len("policy") :]): text for name, text in self.policies.items()}
        count = max(numbered, default=-1) + 1
        texts = [numbered.get(number, _GAP) for number in range(count)]
        mark = hashlib.sha256("".join(texts).encode()).hexdigest()[:32]
        place = f'forbid(principal,action,resource)when{{"{mark}"==""}};'
        is_short = sum(len(it.encode()) for it in texts) <= BODY_LIMIT
        none: List[str] = []
        first = next(_portions(texts, count if is_short else BODY_LIMIT // len(place), BODY_LIMIT), none)
        later = list(_portions(texts[len(first) :], len(first), BODY_LIMIT))
        if later:
            yield "load", place * len(first)
            yield from (("load", "".join(it)) for it in later)
            yield from (_removal(number) for number in range(len(first)))
        if first:
            yield "load", "".join(first)
        yield from (_removal(number) for number in range(count) if number not in numbered)


def _removal(number: int) -> Command:
    return "remove-static", quoted(f"policy{number}")
