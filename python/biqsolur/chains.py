"""Orders as edits: the moment from which an order's time is counted, and branches that inject orders."""

from __future__ import annotations

from collections.abc import Iterable, Mapping, Sequence
from dataclasses import dataclass
from os import PathLike
from typing import Any

from biqsolur.bundle import Branch
from biqsolur.errors import StudyError
from biqsolur.fields import Table
from biqsolur.last_branch import run_last
from biqsolur.study import Study
from biqsolur.times import clock_text

EDITS_OF_A_BRANCH = 16
MOST_BRANCHES = 255
MOST_EVENTS = 4_000_000     # of all branches together, with the root
RUNNING = ("workers", "program")        # settings that go to `run_last` and `biqsolur.run`


@dataclass(frozen=True)
class Moment:
    """The state in which a branch stands once all has come that is due by a time.

    branch: its run up to there. events: how many it had. time: that of its last event, or of the opening, in
    nanoseconds past midnight; an edit's `after` counts from it. end: "Closed" where the run went on but for the time,
    else why it ended before.
    """

    branch: Branch
    events: int
    time: int
    end: str


def moment_of(study: Study, branch: str, time: int, **running: Any) -> Moment:
    """Runs a branch up to a time (ns past midnight). Raises StudyError where the branch has not begun by then."""
    prefix = study.until(time, branch)
    by_events = [entry for entry in prefix.to_dict().get("branch", []) if entry.get("at")]
    last = begun(prefix, by_events, time, running) if by_events else run_last(prefix, **running).branches[branch]
    counts = last.counts
    return Moment(last, int(counts["events"]), int(counts["time"]), str(counts["end"]))


def begun(prefix: Study, by_events: list[Table], time: int, running: dict[str, Any]) -> Branch:
    """The last branch of a prefix, where its parents' runs had the events after which it and those on its way leave."""
    from biqsolur.running import run
    branches = run(prefix, cache=False, **running).branches
    for entry in by_events:
        if int(branches[entry["parent"]].counts["events"]) < entry["at"]:
            raise StudyError(f"at {clock_text(time)} the branch {entry['name']!r} has not begun: it leaves after "
                             f"{entry['at']} events")
    return branches[prefix.branches[-1]]


def inject_edits(trader: int, sends: Iterable[tuple[int, str]], state_time: int) -> list[Table]:
    """Edits that send messages (hexadecimal digits) which are due at these times, in a state of this time (ns)."""
    return [{"kind": "inject", "agent": trader, "after": due - state_time, "message": message}
            for due, message in sends]


def room_fault(study: Study, branches: int) -> str | None:
    """Why a study can't have so many more branches, or None: 255 at most, and a bound of events over all of them."""
    table = study.to_dict()
    count = len(table.get("branch", [])) + branches
    if count > MOST_BRANCHES:
        return f"that makes {count} branches, and a study has at most {MOST_BRANCHES}"
    if (count + 1) * table["events"] > MOST_EVENTS:
        return (f"with {count} branches and the root, `events` may be at most {MOST_EVENTS // (count + 1)}, since all "
                f"together have at most {MOST_EVENTS:,}; the study says {table['events']}: with_(\"events\", ...) "
                "lowers it, as far as the market's run allows")
    return None


def settings_fault(running: Mapping[str, Any], own: Sequence[str]) -> str | None:
    """What is wrong with the settings that go to the runs of the program, or None; `own` names the other ones."""
    for name in running:
        if name not in RUNNING:
            return f"there is no setting {name!r}; there are {', '.join([*own, *RUNNING])}"
    return None


def trader_fault(study: Study, trader: object) -> str | None:
    """Why a number is that of no trader, or None."""
    count = len(study.traders)
    if isinstance(trader, int) and not isinstance(trader, bool) and 1 <= trader <= count:
        return None
    return f"there is no trader {trader!r}; the study has the traders 1 to {count}"


def siblings_fault(study: Study, parent: str) -> str | None:
    """Why no branch may leave a parent at a time, or None: branches of one parent leave all at times or all after
    events."""
    branches = study.to_dict().get("branch", [])
    others = [branch["name"] for branch in branches if branch["parent"] == parent and "at" in branch]
    if not others:
        return None
    return (f"{', '.join(map(repr, others))} leave {parent!r} after a number of events, and branches of one parent "
            f"leave it all so or all at times: begin with study.only({parent!r})")
