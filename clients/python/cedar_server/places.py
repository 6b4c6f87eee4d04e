"""Where a text of policies is refused: which of its policies no session takes. A session says one word of a whole text; `cedar_cli check` says
more."""

from typing import Iterator, Optional, Tuple

import cedar_session as cedar
from cedar_session import Refused
from cedar_session.held import policies_of

from .faults import Fault


def place_of(policies: str) -> Optional[Tuple[int, int]]:
    """Where the first policy begins that is refused, as a line and a column from 1, or None where each is taken by itself."""
    with cedar.Session() as session:
        for at, policy in _pieces(policies):
            try:
                session.load(policy)
            except Refused:
                before = policies[:at]
                return before.count("\n") + 1, at - before.rfind("\n")
    return None


def with_place(fault: Fault, policies: str, at: str = "") -> Fault:
    """A fault of a text of policies, with the place of the first policy that is refused, where one is."""
    place = place_of(policies) if fault.kind == "Refused" and fault.status == 422 else None
    more = {} if place is None else {"line": place[0], "column": place[1]}
    words = fault.text if place is None else f"{fault.text}: the policy at line {place[0]} column {place[1]}"
    return Fault(fault.status, fault.kind, words, at, **{**fault.more, **more})


def _pieces(policies: str) -> Iterator[Tuple[int, str]]:
    """Each policy with where it begins, and what stands behind the last."""
    end = 0
    for policy in policies_of(policies):
        at = policies.index(policy, end)
        end = at + len(policy)
        yield at, policy
    rest = policies[end:]
    yield end + len(rest) - len(rest.lstrip()), rest.strip()
