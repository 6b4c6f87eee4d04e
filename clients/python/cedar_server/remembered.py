"""What was answered last, by the bodies that asked it: the same question at the same position has the same answer."""

from typing import Callable, Dict, Tuple

# So many answers are kept, of bodies that are no longer, in bytes.
_MOST, _LONGEST = 4_096, 1_024

# The decision, the text in which it was given, and what the log of decisions says of it. (Of texts alone nothing has to be traced for garbage.)
Given = Tuple[str, str, str]


class Remembered:
    """The answers of one position. Those of another are forgotten, and so are all where there are too many."""

    def __init__(self) -> None:
        self._given: Dict[Tuple[str, bytes], Given] = {}
        self._position = 0

    def of(self, call: str, body: bytes, position: int, ask: Callable[[bytes], Given]) -> Given:
        """What a call was answered at a position; asks where that isn't known."""
        if position != self._position or len(self._given) >= _MOST:
            self._given.clear()
            self._position = position
        found = self._given.get((call, body))
        if found is None:
            found = ask(body)
            if len(body) <= _LONGEST:
                self._given[call, body] = found
        return found
