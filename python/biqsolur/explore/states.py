"""The states of a run: asked of the program for many events at once, and kept, so that a step costs nothing."""

from __future__ import annotations

import threading
from collections import OrderedDict
from typing import Any, Callable

from biqsolur.explore.view import View
from biqsolur.rewinds import Rewind, State

MOST_TARGETS = 64           # arguments of one rewind
BEFORE = 12                 # of the states that are asked for at once, how many lie before the one that is wanted
ASKED_BYTES = 4_000_000     # about so much is asked for at once
KEPT_BYTES = 128_000_000    # of states that are kept

Table = dict[str, Any]
Ask = Callable[[Table, list[tuple[str, int]]], Rewind]


def path_of(study: Table, name: str) -> list[str]:
    """A branch and its ancestors, the root left out, the oldest first."""
    parents = {branch["name"]: branch["parent"] for branch in study.get("branch", [])}
    path = []
    while name != "root":
        path.append(name)
        name = parents[name]
    return path[::-1]


def cut_study(study: Table, name: str, last: int) -> Table:
    """The study of a branch's path alone, which ends soon after an event: its states up to that event are those of the
    whole study, and come sooner.

    What another branch does, no branch on the path sees. The limit of events is above `last` where it was, since at the
    limit itself a state has another end. A stop (`at`) is never above the limit.
    """
    path = path_of(study, name)
    branches = [branch for branch in study.get("branch", []) if branch["name"] in path]
    stops = [branch["at"] for branch in branches if "at" in branch]
    limit = min(study["events"], max([last + 1, *stops]))
    return {**study, "events": limit, "branch": branches}


class States:
    """The states of one version of a study. Threads may ask at once: one of them asks the program, the others wait."""

    def __init__(self, study: Table, ask: Ask) -> None:
        self.study = study
        self.ask = ask
        self.kept: OrderedDict[tuple[str, int], State] = OrderedDict()
        self.sizes: dict[tuple[str, int], int] = {}
        self.bytes = 0
        self.lock = threading.Lock()
        self.asked = 0

    def state(self, view: View, event: int) -> State:
        """The state of a branch after an event."""
        view.check(event)
        key = (view.branch.name, event)
        with self.lock:
            if key not in self.kept:
                self._fetch(view, event)
            self.kept.move_to_end(key)
            return self.kept[key]

    def _fetch(self, view: View, event: int) -> None:
        """Asks for a state and its neighbours, and keeps them."""
        name = view.branch.name
        targets = [(name, number) for number in self._window(view, event) if (name, number) not in self.kept]
        rewind = self.ask(cut_study(self.study, name, max(number for _, number in targets)), targets)
        self.asked += 1
        for key, state in zip(targets, rewind.states):
            size = state_bytes(state)
            self.kept[key] = state
            self.sizes[key] = size
            self.bytes += size
        self.kept.move_to_end((name, event))
        while self.bytes > KEPT_BYTES and len(self.kept) > 1:
            dropped, _ = self.kept.popitem(last=False)
            self.bytes -= self.sizes.pop(dropped)

    def _window(self, view: View, event: int) -> range:
        """The events that are asked for at once: fewer where states are large."""
        size = max(self.sizes.values(), default=ASKED_BYTES // 16)
        count = max(1, min(MOST_TARGETS, ASKED_BYTES // size))
        first = max(0, event - BEFORE * count // MOST_TARGETS)
        return range(first, min(first + count, view.count + 1))


def state_bytes(state: State) -> int:
    """How many bytes of a rewind a state takes."""
    return state.frames.offset(state.part.end) - state.frames.offset(state.part.branch)
