"""A version of a study with what the program made of it: its branches, states, series and causes."""

from __future__ import annotations

import threading
from typing import Any, Callable

from biqsolur.bundle import Bundle
from biqsolur.causing import Causes
from biqsolur.closing import read_counts
from biqsolur.explore.engine import Engine
from biqsolur.explore.people import People
from biqsolur.explore.states import States, cut_study
from biqsolur.explore.timeline import Timeline
from biqsolur.explore.view import View
from biqsolur.rewinds import Rewind, State
from biqsolur.study import Study

Table = dict[str, Any]


def next_message(state: State) -> int:
    """The number of the next message at a state."""
    return int(read_counts(state.frames, state.part)["next_message"])


class Run:
    """A version of a study with what the program made of it."""

    def __init__(self, study: Study, bundle: Bundle, seconds: float, engine: Engine) -> None:
        """`seconds`: how long the run took."""
        self.study = study
        self.table = study.to_dict()
        self.bundle = bundle
        self.seconds = seconds
        self.engine = engine
        self.people = People(self.table)
        self.views = {name: View(branch, self.people) for name, branch in bundle.branches.items()}
        self.timelines = {name: Timeline(view) for name, view in self.views.items()}
        self.states = States(self.table, self._ask)
        self.lock = threading.Lock()
        self.locks: dict[Any, threading.Lock] = {}
        self.made: dict[Any, Any] = {}

    def _ask(self, cut: Table, targets: list[tuple[str, int]]) -> Rewind:
        return self.engine.rewind(Study.from_dict(cut, self.study.folder), targets)

    def _once(self, key: Any, make: Callable[[], Any]) -> Any:
        """What is made at the first question and kept; other questions that need one made wait."""
        with self.lock:
            own = self.locks.setdefault(key, threading.Lock())
        with own:
            if key not in self.made:
                self.made[key] = make()
            return self.made[key]

    def causes(self, view: View) -> Causes:
        """Why the events of a branch came."""
        name = view.branch.name
        return self._once(("causes", name), lambda: Causes(view.branch, lambda events: self.counters(name, events)))

    def counters(self, name: str, events: list[int]) -> list[int]:
        """The next message's number after each of these events, at most 64, of a branch."""
        rewind = self._ask(cut_study(self.table, name, max(events)), [(name, event) for event in events])
        return [next_message(state) for state in rewind.states]

    def sent_by(self, view: View, event: int) -> int:
        """How many messages an event sent, those that its branch's edits injected right after it left out."""
        name = view.branch.name
        after = next_message(self.state(name, event))
        if event == 0:
            return after - self._injected(view, 0)
        return after - next_message(self.state(name, event - 1)) - self._injected(view, event)

    def _injected(self, view: View, event: int) -> int:
        edits = view.branch.edits
        return int(((edits["event"] == event) & (edits["kind"] == "inject")).sum())

    def compared(self, name: str, make: Callable[[], Any]) -> Any:
        """A branch laid over its parent, made once."""
        return self._once(("compared", name), make)

    def state_bytes(self, name: str, event: int) -> bytes:
        """What the program writes of a state of the whole study."""
        return self.engine.rewind_bytes(self.study, [(name, event)])

    def view(self, name: str) -> View:
        """A branch by its name; UnknownBranchError where there is none."""
        return self.views[self.bundle.branches[name].name]

    def state(self, name: str, event: int) -> State:
        """The state of a branch after an event."""
        return self.states.state(self.view(name), event)
