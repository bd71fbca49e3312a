"""A schedule: orders of one trader at given times, as a chain of branches that send them.

    study.schedule(3, [("9:30:10", Enter("A1", "B", 100, "ABM", "50.10")), ("9:31", Cancel("A1"))])

A branch makes at most 16 edits, so every sixteen orders a branch begins; the chain's last branch is the run with all of
them. An edit counts its order's time from the last event before it. So the study is run once, up to the first order, to
learn when its last event was; each later branch leaves at the time of the order before, which is an event at that very
time. So each order comes to the exchange at its own nanosecond, and up to the first one the market is its parent's.
"""

from __future__ import annotations

from collections.abc import Iterable, Mapping
from operator import itemgetter
from os import PathLike
from typing import Any

from biqsolur.chains import (
    EDITS_OF_A_BRANCH, MOST_BRANCHES, inject_edits, moment_of, room_fault, settings_fault, siblings_fault, trader_fault)
from biqsolur.edits import message_digits
from biqsolur.errors import ScheduleError, StudyError
from biqsolur.fields import Table
from biqsolur.study import Study
from biqsolur.times import clock_text, nanoseconds

MOST_ORDERS = EDITS_OF_A_BRANCH * MOST_BRANCHES
ENTER_START, TOKEN_END = "4f", 2 * 15   # in digits: an Enter's first byte; its token follows


def schedule(study: Study | str | PathLike[str] | Mapping[str, Any], trader: int,
             orders: Iterable[tuple[object, object]], *, parent: str = "root", name: str = "schedule",
             **running: Any) -> Study:
    """The study with a chain of branches that sends these orders in the name of a trader (a number from 1).

    orders: up to 4,080 pairs of a time of day (whole nanoseconds, "9:30:00.5", Timedelta) and an order
    (`biqsolur.ouch.Enter` or `Cancel`, bytes, or hexadecimal digits), the times within the hours. They may stand in any
    order: they are sorted by time, and those of one time stay in the order given. They come to the exchange at their
    times, without latency. The branches are called NAME-1, NAME-2 and so on; they begin at `parent`, and the last has
    all orders. The study gets version 2.

    The chain is of this study's run: where something else is changed, change it first and make the schedule then. An
    order that is later than the market's end by its limit of events never comes. `running` goes to `biqsolur.run`
    (workers, program). Raises ScheduleError, which says which order is wrong, and StudyRefused.
    """
    study = study if isinstance(study, Study) else Study(study)
    fault = settings_fault(running, ("parent", "name"))
    if fault is not None:
        raise ScheduleError(fault)
    study.check(running.get("program"))
    sends = sorted(sends_of(study, orders), key=itemgetter(0))
    fault = trader_fault(study, trader) or siblings_fault(study, parent)
    if fault is not None:
        raise ScheduleError(fault)
    fault = room_fault(study, -(-len(sends) // EDITS_OF_A_BRANCH))
    if fault is not None:
        raise ScheduleError(fault)
    study = study.in_version_2()
    branches = chain(trader, sends, parent, name, state_time(study, parent, sends[0][0], running))
    for branch in branches:
        if branch["name"] in study.branches:
            raise ScheduleError(f"there is a branch {branch['name']!r} already; give the chain another `name`")
    return study._with_branches(branches)


def sends_of(study: Study, orders: Iterable[tuple[object, object]]) -> list[tuple[int, str]]:
    """(time in nanoseconds, message in digits) of each order, all checked."""
    table, tokens = study.to_dict(), dict[str, int]()
    sends: list[tuple[int, str]] = []
    if not isinstance(orders, Iterable):
        raise ScheduleError(f"{orders!r} are no orders; give a list of pairs of a time and an order")
    for number, pair in enumerate(orders):
        place = f"order {number} (counted from 0)"
        try:
            time, order = pair
            moment, message = nanoseconds(time), message_digits(order)
        except StudyError as error:
            raise ScheduleError(f"{place}: {error}") from None
        except (TypeError, ValueError):
            raise ScheduleError(f"{place}: {pair!r} is no pair of a time and an order") from None
        if not table["open"] <= moment <= table["close"]:
            side = "before the open" if moment < table["open"] else "after the close"
            raise ScheduleError(
                f"{place}: {clock_text(moment)} is {side}; the hours are {clock_text(table['open'])} to "
                f"{clock_text(table['close'])}")
        if message.startswith(ENTER_START) and tokens.setdefault(message[2:TOKEN_END], number) != number:
            raise ScheduleError(f"{place}: its token is that of order {tokens[message[2:TOKEN_END]]}, and the exchange "
                                "ignores an order whose token its trader has used")
        sends.append((moment, message))
    if not sends:
        raise ScheduleError("there are no orders; a schedule has at least one")
    if len(sends) > MOST_ORDERS:
        raise ScheduleError(f"there are {len(sends)} orders; a schedule has at most {MOST_ORDERS}, which is "
                            f"{EDITS_OF_A_BRANCH} in each of {MOST_BRANCHES} branches")
    return sends


def state_time(study: Study, parent: str, first: int, running: dict[str, Any]) -> int:
    """The time of the last event that is due by the first order's time, in nanoseconds."""
    try:
        moment = moment_of(study, parent, first, **running)
    except StudyError as error:
        raise ScheduleError(f"the first order: {error}") from None
    if moment.end in ("EventLimit", "QueueFull"):
        raise ScheduleError(
            f"the run of {parent!r} ends at {clock_text(moment.time)} ({moment.end}), before the first order, "
            f"at {clock_text(first)}")
    return moment.time


def chain(trader: int, sends: list[tuple[int, str]], parent: str, name: str, state: int) -> list[Table]:
    """The branches that send these messages, sixteen each; `state` is the time from which the first counts (ns)."""
    branches: list[Table] = []
    when = sends[0][0]
    for start in range(0, len(sends), EDITS_OF_A_BRANCH):
        part = sends[start:start + EDITS_OF_A_BRANCH]
        branch = f"{name}-{len(branches) + 1}"
        branches.append({"name": branch, "parent": parent, "when": when, "edit": inject_edits(trader, part, state)})
        parent, when, state = branch, part[-1][0], part[-1][0]
    return branches
