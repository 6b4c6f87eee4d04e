"""Sessions in the process, by the shared object of the authorizer: the one whose path is given, or that the environment's
CEDAR_LIBRARY names, or that was installed with this package, or libcedar.so where the system finds it."""

import ctypes
import os
import threading
import warnings
from queue import SimpleQueue
from typing import Callable, Optional, Tuple, TypeVar, cast

from .commands import DEPTH, WITHOUT_TYPES, Commands
from .errors import BadValue, Busy, CedarError, NoCommand, NoLibrary, NoMemory, NotOpen, OtherThread, TooLong

DEPTH_MAX = 1024
# The calls are those of the shared objects whose version begins so.
_VERSION = "0.2."
_DONE, _NO_ROOM = 0, 5
_ERRORS = {4: NoMemory, 6: NotOpen, 8: NoCommand, 9: TooLong, 10: Busy, 11: OtherThread, 12: BadValue}
_OWN = os.path.join(os.path.dirname(os.path.abspath(__file__)), "libcedar.so")
# (what stack threads get is told for the whole process)
_STACKS = threading.Lock()

T = TypeVar("T")

# What a thread has done, or why not; and what it is to do, with its arguments, and where it leaves what comes of it.
_Done = Tuple[object, Optional[BaseException]]
_Wanted = Tuple[Callable[..., object], Tuple[object, ...], "SimpleQueue[_Done]"]


def _library(path: Optional[str]) -> ctypes.CDLL:
    named = path or os.environ.get("CEDAR_LIBRARY") or (_OWN if os.path.exists(_OWN) else "libcedar.so.0")
    handle, count = ctypes.c_void_p, ctypes.c_size_t
    try:
        cedar = ctypes.CDLL(named)
        cedar.cedar_version.restype = cedar.cedar_status_text.restype = ctypes.c_char_p
        cedar.cedar_new.argtypes = [ctypes.POINTER(handle), ctypes.c_uint32]
        cedar.cedar_command.argtypes = [handle, ctypes.c_char_p, count, ctypes.c_char_p, count]
        cedar.cedar_answer.argtypes = [handle, ctypes.c_void_p, count, ctypes.POINTER(count)]
        cedar.cedar_free.argtypes = cedar.cedar_close.argtypes = [handle]
        if hasattr(cedar, "cedar_new_standard"):
            cedar.cedar_new_standard.argtypes = cedar.cedar_new.argtypes
        if hasattr(cedar, "cedar_command_json"):
            cedar.cedar_command_json.argtypes = cedar.cedar_command.argtypes
        if hasattr(cedar, "cedar_why"):
            cedar.cedar_why.argtypes = [*cedar.cedar_command.argtypes, *cedar.cedar_answer.argtypes[1:]]
        version = cedar.cedar_version().decode(errors="replace")
    except (AttributeError, OSError) as why:
        raise NoLibrary(str(why)) from why
    if not version.startswith(_VERSION):
        raise NoLibrary(f"{named} is of version {version}, and not {_VERSION}*")
    return cedar


def stack_for(depth: int) -> int:
    """How many bytes of a stack a limit of depth takes, with room besides."""
    if not isinstance(depth, int) or isinstance(depth, bool) or not 0 <= depth <= DEPTH_MAX:
        raise BadValue(f"no limit of depth from 0 to {DEPTH_MAX}: {depth!r}")
    return depth * 8192 + (256 << 10)


def _stack_here() -> Optional[int]:
    """How many bytes the stack of this thread has, where the system says so."""
    system = ctypes.CDLL(None)
    if not hasattr(system, "pthread_getattr_np"):
        return None
    attributes, at, size = ctypes.create_string_buffer(256), ctypes.c_void_p(), ctypes.c_size_t()
    system.pthread_self.restype = ctypes.c_void_p
    if system.pthread_getattr_np(ctypes.c_void_p(system.pthread_self()), attributes):
        return None
    system.pthread_attr_getstack(attributes, ctypes.byref(at), ctypes.byref(size))
    system.pthread_attr_destroy(attributes)
    return size.value


class Session(Commands):
    """A session of this process, which stays on the thread that opens it. `depth` is its limit of depth, for which that thread has
    to have the stack. Its texts may call the functions of Cedar's types `decimal`, `ipaddr`, `datetime` and `duration`, unless
    `types` is False, or where it isn't given and the shared object has none. No command can be broken off."""

    def __init__(self, depth: int = DEPTH, library: Optional[str] = None, types: Optional[bool] = None):
        super().__init__()
        wanted, here = stack_for(depth), _stack_here()
        if here is not None and here < wanted:
            raise BadValue(f"a limit of depth of {depth} takes a stack of {wanted} bytes, and this thread has {here}: SessionThread makes one")
        self._cedar, self._handle, self._thread, self.depth = _library(library), ctypes.c_void_p(), threading.get_ident(), depth
        self._written = ctypes.c_size_t()
        self._written_at = ctypes.byref(self._written)
        self._make_room(256)
        self._takes_json = hasattr(self._cedar, "cedar_command_json")
        has_types = hasattr(self._cedar, "cedar_new_standard")
        if types and not has_types:
            raise NoLibrary("the shared object has no session with Cedar's extension types")
        if types is False or not has_types:
            opens, self.language = self._cedar.cedar_new, WITHOUT_TYPES
        else:
            opens = self._cedar.cedar_new_standard
        self._want(opens(ctypes.byref(self._handle), depth))

    def last_line(self) -> str:
        """The line that answers the last command, again where there was no memory for it. It changes nothing."""
        self._check()
        return self._alone(self._line)[:-1].decode()

    def close(self) -> None:
        self._check()
        super().close()

    def _check(self) -> None:
        if threading.get_ident() != self._thread:
            raise OtherThread("the session stays on the thread that opened it")

    def _exchange(self, verb: str, body: bytes) -> bytes:
        named = verb.encode()
        self._want(self._cedar.cedar_command(self._handle, named, len(named), body, len(body)))
        return self._line()

    def _exchange_json(self, verb: str, json: bytes) -> bytes:
        named = verb.encode()
        self._want(self._cedar.cedar_command_json(self._handle, named, len(named), json, len(json)))
        return self._line()

    def _line(self) -> bytes:
        while True:
            status = self._cedar.cedar_answer(self._handle, self._output_at, self._room, self._written_at)
            if status != _NO_ROOM:
                self._want(status)
                return ctypes.string_at(self._output_at, self._written.value)
            self._make_room(self._written.value)

    def _faults(self, verb: str, body: bytes) -> bytes:
        if not hasattr(self._cedar, "cedar_why"):
            raise CedarError("the shared object tells no faults")
        named = verb.encode()
        while True:
            status = self._cedar.cedar_why(self._handle, named, len(named), body, len(body), self._output_at, self._room, self._written_at)
            if status != _NO_ROOM:
                self._want(status)
                return ctypes.string_at(self._output_at, self._written.value)
            self._make_room(self._written.value)

    def _want(self, status: int) -> None:
        if status != _DONE:
            raise _ERRORS.get(status, CedarError)(self._cedar.cedar_status_text(status).decode(errors="replace"))

    def _make_room(self, room: int) -> None:
        self._output, self._room = ctypes.create_string_buffer(room), room
        self._output_at = ctypes.addressof(self._output)

    def _end(self) -> None:
        # (a closed handle stays, so that what comes later is told NotOpen)
        self._cedar.cedar_close(self._handle)

    def __del__(self) -> None:
        handle = getattr(self, "_handle", None)
        if handle is None or handle.value is None:
            return
        if self._cedar.cedar_free(handle) == _DONE:
            handle.value = None
        else:
            # On another thread nothing may be given back.
            warnings.warn(f"{self!r} was dropped on another thread than its own, and leaks", ResourceWarning, source=self)


class _Thread:
    """A thread of its own, which does one thing after another. Whoever waits for one may be broken off by an exception of a signal handler: the
    queues of C stay whole then, as locks of `threading.Condition` don't, and what was waited for reaches nobody else."""

    def __init__(self, stack: int) -> None:
        self._wanted: "SimpleQueue[Optional[_Wanted]]" = SimpleQueue()
        self.has_ended = False
        thread = threading.Thread(target=_do_each, args=(self._wanted,), name="cedar", daemon=True)
        with _STACKS:
            before = threading.stack_size(stack)
            try:
                thread.start()
            finally:
                threading.stack_size(before)

    def do(self, what: Callable[..., T], *given: object) -> T:
        """Does it there, and returns or raises what comes of it."""
        if self.has_ended:
            raise NotOpen("the session is closed")
        done: "SimpleQueue[_Done]" = SimpleQueue()
        self._wanted.put((what, given, done))
        made, why = done.get()
        if why is not None:
            raise why
        return cast(T, made)

    def end(self, last: Optional[Callable[[], object]] = None) -> None:
        """Ends it behind what it has to do, and behind a last thing. Doesn't wait."""
        self.has_ended = True
        if last is not None:
            self._wanted.put((last, (), SimpleQueue()))
        self._wanted.put(None)


def _do_each(wanted: "SimpleQueue[Optional[_Wanted]]") -> None:
    for what, given, done in iter(wanted.get, None):
        try:
            done.put((what(*given), None))
        except BaseException as why:
            done.put((None, why))
        # (nothing of it is kept while the thread waits)
        del what, given, done


class SessionThread(Commands):
    """A session, as `Session` opens one, on a thread of its own, which has the stack for its limit of depth. Any thread may use it, one
    at a time."""

    def __init__(self, depth: int = DEPTH, library: Optional[str] = None, types: Optional[bool] = None):
        super().__init__()
        self.depth, self._process = depth, os.getpid()
        # (the system takes whole pages)
        stack = -(-stack_for(depth) // 65536) * 65536
        try:
            self._thread = _Thread(stack)
        except (RuntimeError, ValueError) as why:
            raise BadValue(f"no thread has a stack of {stack} bytes") from why
        try:
            self._session = self._thread.do(Session, depth, library, types)
            self.language, self._takes_json = self._session.language, self._session._takes_json
        except BaseException:
            self._thread.end()
            raise

    def last_line(self) -> str:
        """As Session.last_line."""
        self._check()
        return self._alone(lambda: self._thread.do(self._session.last_line))

    def _check(self) -> None:
        if os.getpid() != self._process:
            raise OtherThread("the session stays in the process that opened it")

    def _exchange(self, verb: str, body: bytes) -> bytes:
        return self._thread.do(self._session._exchange, verb, body)

    def _exchange_json(self, verb: str, json: bytes) -> bytes:
        return self._thread.do(self._session._exchange_json, verb, json)

    def _faults(self, verb: str, body: bytes) -> bytes:
        return self._thread.do(self._session._faults, verb, body)

    def _end(self) -> None:
        # (a forked process has no such thread, and nothing to give back)
        if os.getpid() != self._process or self._thread.has_ended:
            return
        self._thread.do(self._session._end)
        self._thread.end()

    def __del__(self) -> None:
        thread = getattr(self, "_thread", None)
        if thread is None or thread.has_ended or os.getpid() != self._process:
            return
        session = getattr(self, "_session", None)
        thread.end(None if session is None else session._end)
