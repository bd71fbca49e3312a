"""What a session answers: states, closings and values of branches, in the order of the acts that asked for them."""

from __future__ import annotations

from dataclasses import dataclass, field
from functools import cached_property
from pathlib import Path
from typing import TYPE_CHECKING, Any

import numpy
import pandas

from biqsolur import columns, layouts
from biqsolur.acts import acts_of, words_of_act
from biqsolur.check import Part, session_parts
from biqsolur.closing import Closing
from biqsolur.columns import Tokens
from biqsolur.errors import BundleError, InputError
from biqsolur.frames import Frames, read_frames
from biqsolur.rewinds import State, state_of
from biqsolur.wording import agent_names, decimal

if TYPE_CHECKING:
    from biqsolur.study import Study

PROBES = ("volume", "spread_sum", "range", "fees")      # in the order of a table's columns
UNITS = {"volume": ("shares", 0), "spread_sum": ("dollars", 4), "range": ("dollars", 4), "fees": ("dollars", 6)}


@dataclass(frozen=True)
class Reply:
    """What an act was answered.

    act: its number, from 0; -1 where the script isn't known. kind: the act's ("fork", "undo", "edit", "rewind",
    "close", "values"); without the script "state" for one of the two that tell a state. branch: the name of the branch
    that the answer speaks of ("" without the script of a `values`). words: the act, and its values, in words. state: of
    a `rewind` or a `close`, else None; of a `close` its event is the branch's stop. values: of a `values` the numbers
    by name, as in a table (volume in shares, spread_sum and range in 0.0001 dollars, fees in millionths of a dollar),
    else None.
    """

    act: int
    kind: str
    branch: str
    words: str
    state: State | None = None
    values: dict[str, int] | None = None

    @property
    def closing(self) -> Closing:
        """What stands in the state, or at the end of the branch."""
        if self.state is None:
            raise InputError(f"{self.words}: this act was answered with no closing; those of the kinds rewind and close "
                             "are")
        return self.state.closing


@dataclass
class Session:
    """What a session wrote. acts: how many acts it had. replies: one for each act, in order; without the script one for
    each act that was answered. `session[3]` is the reply to act 3, counted from 0. data: the answer's bytes."""

    path: str
    acts: int
    replies: list[Reply]
    data: bytes = field(repr=False)

    def __getitem__(self, act: int) -> Reply:
        for reply in self.replies:
            if reply.act == act:
                return reply
        unknown = any(reply.act < 0 for reply in self.replies)
        raise InputError(f"no act {act!r}; there are {self.acts}, counted from 0" + (
            ", and which replies are whose is known with the script alone" if unknown else ""))

    @cached_property
    def values(self) -> pandas.DataFrame:
        """A row a reply with values: act, branch, volume, spread_sum, range, fees."""
        rows = [reply for reply in self.replies if reply.values is not None]
        return pandas.DataFrame({
            "act": [reply.act for reply in rows],
            "branch": [reply.branch for reply in rows],
            **{name: columns.exact([reply.values[name] for reply in rows if reply.values is not None])
               for name in PROBES}})


def read_session(source: str | Path | bytes, script: bytes | None = None, study: Study | None = None) -> Session:
    """Reads what `session` wrote, from its file or from these bytes. Raises BundleError where they are none.

    script: the script's bytes, which tell what each answer is of. study: gives symbols and names of agents.
    """
    frames = read_frames(source)
    count, answers = session_parts(frames, len(PROBES))
    tokens = Tokens(frames)
    replies = [answer_of(frames, part, tokens, study) for part in answers]
    acts = acts_of(script) if script is not None else None
    if acts is not None and len(acts) == count:
        replies = replies_of_acts(frames, acts, replies, agent_names(study) if study is not None else [])
    data = source if isinstance(source, bytes) else frames.raw.tobytes()
    return Session(frames.path, count, replies, data)


def answer_of(frames: Frames, part: Part | numpy.ndarray, tokens: Tokens, study: Study | None) -> Reply:
    """An answer of which the act isn't known."""
    if isinstance(part, Part):
        state = state_of(frames, part, tokens, study)
        return Reply(-1, "state", state.branch, f"state of {state.branch}", state)
    heads = frames.records(part, layouts.VALUE)
    numbers = columns.long_numbers(heads["value_upper"], heads["value_lower"]).tolist()
    values = dict(zip(PROBES, numbers))
    return Reply(-1, "values", "", words_of_values(values), None, values)


def words_of_values(values: dict[str, int]) -> str:
    """volume 24536 shares, spread_sum 24.82 dollars, range 0.09 dollars, fees 24.536 dollars"""
    return ", ".join(f"{name} {decimal(value, UNITS[name][1])} {UNITS[name][0]}" for name, value in values.items())


def replies_of_acts(frames: Frames, acts: list[dict[str, Any]], answers: list[Reply], agents: list[str]) -> list[Reply]:
    """A reply for each act: its answer, where it has one, and the act in words."""
    waiting = iter(answers)
    replies = []
    for number, act in enumerate(acts):
        words, kind = words_of_act(act, agents), str(act["kind"])
        if kind not in ("rewind", "close", "values"):
            replies.append(Reply(number, kind, str(act.get("name", "")), words))
            continue
        answer = next(waiting, None)
        if answer is None or (answer.values is not None) != (kind == "values"):
            raise BundleError(frames.path, 0, f"these are no answers to this script: act {number} is {words}")
        more = f": {answer.words}" if kind == "values" else ""
        replies.append(Reply(number, kind, str(act["name"]), words + more, answer.state, answer.values))
    if next(waiting, None) is not None:
        raise BundleError(frames.path, 0, "these are no answers to this script: there are more answers than it asks "
                                          "for")
    return replies
