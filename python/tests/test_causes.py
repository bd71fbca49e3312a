"""Causes and effects of events, against the program's own counters and books at the states before and after."""

from __future__ import annotations

import doctest
import random
import subprocess
from collections.abc import Callable
from pathlib import Path

import numpy
import pytest
import studies

import biqsolur
from biqsolur.bundle import Branch
from biqsolur.causing import ASK, BID, INJECTED, MET, OPENED, SENT, Causes
from biqsolur.closing import read_counts
from biqsolur.senders import EDIT, OPENING, UNKNOWN, Senders

SEEDS = range(20)
CAUSES = 100            # of each study: 2,000 in all


class Course:
    """A random study with its bundle, and the program's states of it."""

    def __init__(self, seed: int, folder: Path, program: str) -> None:
        study, series = studies.make_study(seed)
        self.folder, self.program = folder, program
        (folder / "study.toml").write_text(studies.toml(study))
        if series is not None:
            (folder / study["series"]).write_text(series)
        (folder / "bundle").write_bytes(self.output("run", "--", "study.toml"))
        self.bundle = biqsolur.read(folder / "bundle")
        self.random = random.Random(f"causes {seed}")
        self.asked = 0

    def output(self, *words: str) -> bytes:
        """What the program writes."""
        return subprocess.run([self.program, *words], cwd=self.folder, check=True, capture_output=True).stdout

    def states(self, branch: str, events: list[int]) -> dict[int, biqsolur.State]:
        """The states after these events, 64 a call."""
        out: dict[int, biqsolur.State] = {}
        for begin in range(0, len(events), 64):
            some = events[begin:begin + 64]
            path = self.folder / f"states{self.asked}"
            self.asked += 1
            path.write_bytes(self.output("rewind", "--", "study.toml", *(f"{branch}:{event}" for event in some)))
            out.update(zip(some, biqsolur.read_rewind(path).states))
        return out

    def counters(self, branch: str) -> Callable[[list[int]], list[int]]:
        """The next message's number after events, as `Senders` asks for it."""
        return lambda events: [next_message(state) for state in self.states(branch, events).values()]

    def sample(self, numbers: range | numpy.ndarray, count: int) -> list[int]:
        """Some of these numbers, rising."""
        return sorted(self.random.sample(list(map(int, numbers)), min(count, len(numbers))))


def next_message(state: biqsolur.State) -> int:
    """The number of the next message at a state."""
    return int(read_counts(state.frames, state.part)["next_message"])


@pytest.fixture(scope="module", params=SEEDS)
def course(request: pytest.FixtureRequest, program: str, tmp_path_factory: pytest.TempPathFactory) -> Course:
    return Course(request.param, tmp_path_factory.mktemp(f"course{request.param}"), program)


def injected_at(branch: Branch, event: int) -> int:
    """How many messages edits injected right after an event."""
    return int(((branch.edits.event == event) & (branch.edits.kind == "inject")).sum())


def test_each_message_was_sent_between_the_states_around_its_cause(course: Course) -> None:
    """The numbers that an event sent are those from the counter before it to the one after it."""
    for name, branch in course.bundle.branches.items():
        senders = Senders(branch, course.counters(name))
        assert not (senders.event == UNKNOWN).any()
        if not len(senders.numbers):
            continue
        rows = course.sample(numpy.arange(len(senders.numbers)), -(-CAUSES // len(course.bundle.branches)))
        events = {event for row in rows for event in (senders.event[row] - 1, senders.event[row], senders.fork[row])
                  if event >= 0}
        after = {event: next_message(state) for event, state in course.states(name, sorted(events)).items()}
        for row in rows:
            number, event, fork = (int(column[row]) for column in (senders.numbers, senders.event, senders.fork))
            if event == OPENING:
                assert number < course.bundle.agents - 1
            elif event == EDIT:
                assert after[fork] - injected_at(branch, fork) <= number < after[fork]
            else:
                assert after[event - 1] <= number < after[event] - injected_at(branch, event)


def test_what_is_known_without_the_program_is_what_the_program_says(course: Course) -> None:
    """The bundle alone answers for every branch without injected messages, and says the same."""
    for name, branch in course.bundle.branches.items():
        if (branch.edits.kind == "inject").any():
            with pytest.raises(biqsolur.StudyNeededError, match="give the study too"):
                Senders(branch)
            continue
        alone, asked = Senders(branch), Senders(branch, course.counters(name))
        known = alone.event != UNKNOWN
        assert (alone.event[known] == asked.event[known]).all()
        assert known.mean() > 0.99


def test_senders_rise_with_the_numbers_and_are_the_receivers_of_their_causes(course: Course) -> None:
    """Two laws of every run: numbers rise in the order of events, and who sends is who handled the event."""
    for name, branch in course.bundle.branches.items():
        senders = Senders(branch, course.counters(name))
        rows = numpy.flatnonzero(senders.event > 0)
        assert (numpy.diff(senders.event[rows]) >= 0).all()
        events = branch.events
        causes = senders.event[rows] - 1
        assert (events.receiver.to_numpy()[causes] == senders.sender[rows]).all()
        assert not events.put_back.to_numpy()[causes].any()
        assert (senders.event[rows] < senders.first[rows]).all()


def test_a_quote_names_the_orders_that_stood_first_at_its_prices(course: Course) -> None:
    """Against the book of the state in which the quote was answered."""
    for name, branch in course.bundle.branches.items():
        causes = Causes(branch, course.counters(name))
        quotes = course.sample(branch.quotes.event.to_numpy(), 12)
        links = {event: {link.link: link.event for link in causes.links(event)} for event in quotes}
        states = course.states(name, sorted({link[SENT] for link in links.values()}))
        added = branch.feed[branch.feed.kind == "A"].set_index("reference").event
        for event, link in links.items():
            quote = branch.quotes[branch.quotes.event == event].iloc[0]
            orders = states[link[SENT]].closing.orders
            shown = orders[~orders.hidden & (orders.stock == quote.stock)]
            for word, side, price in ((BID, "B", quote.bid), (ASK, "S", quote.ask)):
                first = shown[(shown.side == side) & (shown.price == price)].reference
                assert link.get(word) == (int(added[first.iloc[0]]) if price else None)


def test_a_trade_names_the_displayed_orders_that_it_met(course: Course) -> None:
    for name, branch in course.bundle.branches.items():
        causes = Causes(branch, course.counters(name))
        added = branch.feed[branch.feed.kind == "A"].set_index("reference").event
        for event in course.sample(branch.trades.event.unique(), 20):
            rested = branch.trades[(branch.trades.event == event) & (branch.trades.reference > 0)].reference
            met = [link.event for link in causes.links(event) if link.link == MET]
            assert met == list(dict.fromkeys(int(added[reference]) for reference in rested))


def test_effects_are_the_other_way_round_of_causes(course: Course) -> None:
    """Each message is among the effects of its cause, and an event has no other effects; a plain loop finds them."""
    for name, branch in course.bundle.branches.items():
        causes = Causes(branch, course.counters(name))
        sent: dict[int, list[int]] = {}
        for number, event in zip(causes.senders.numbers.tolist(), causes.senders.event.tolist()):
            sent.setdefault(event, []).append(number)
        for event in range(len(branch.events) + 1):
            assert [effect["message"] for effect in causes.effects(event)] == sent.get(event, [])


@pytest.fixture(scope="module")
def tick_size(program: str, tmp_path_factory: pytest.TempPathFactory) -> biqsolur.Bundle:
    """The bundle of an example with 10,000 events a branch."""
    root = Path(__file__).resolve().parents[2]
    path = tmp_path_factory.mktemp("tick_size") / "tick_size.bundle"
    path.write_bytes(subprocess.run([program, "run", "examples/tick_size.toml"], cwd=root, check=True,
                                    capture_output=True).stdout)
    return biqsolur.read(path)


def test_the_chain_of_a_trade_goes_over_the_quote_to_the_order_behind_it(tick_size: biqsolur.Bundle) -> None:
    """As data frames: back from a trade, each row a cause of an event that stands above it."""
    branch = tick_size.branches["wide"]
    event = int(branch.trades.event[branch.trades.event > 5032].iloc[0])
    chain = biqsolur.causes(branch, event)
    assert list(chain.columns) == ["depth", "of", "link", "event", "time", "kind", "message", "sender", "receiver"]
    assert list(chain[chain.depth == 1].link) == [SENT, MET]
    quote = chain.iloc[0]
    assert (quote.kind, quote.of, quote.receiver) == ("quote", event, branch.events.sender[event - 1])
    of_quote = chain[chain.of == quote.event]
    assert list(of_quote.link) == [SENT, BID, ASK]
    assert list(of_quote.kind) == ["question", "order", "order"]
    assert set(chain.of) <= {event, *chain.event}
    assert (chain.event < chain.of).all()
    assert (branch.events.time.to_numpy()[chain.event - 1] == chain.time).all()
    deeper = biqsolur.causes(branch, event, depth=6)
    assert len(deeper) > len(chain) and deeper.depth.max() == 6
    assert len(biqsolur.causes(branch, event, depth=1)) == 2


def test_effects_as_a_data_frame(tick_size: biqsolur.Bundle) -> None:
    """The first wakeups come of the opening; a trade's order sends replies to both sides."""
    branch = tick_size.branches["root"]
    first = biqsolur.effects(branch, 0)
    assert list(first.message) == list(range(tick_size.agents - 1)) and set(first.kind) == {"wakeup"}
    assert list(first.sender) == list(first.receiver) == list(range(1, tick_size.agents))
    event = int(branch.trades.event.iloc[-50])
    told = biqsolur.effects(branch, event)
    assert set(told.kind) == {"reply"} and set(told.sender) == {0} and len(told) >= 3
    for row in told.itertuples():
        assert branch.events.message[row.event - 1] == row.message
        assert branch.events.time[row.event - 1] == row.time
        assert list(biqsolur.causes(branch, row.event, depth=1).event) == [event]


def test_an_opening_wakeup_and_a_wrong_event(tick_size: biqsolur.Bundle) -> None:
    branch = tick_size.branches["root"]
    row = biqsolur.causes(branch, 1).iloc[0]
    assert (row.link, row.event, row.time, row.message) == (OPENED, 0, 34_200_000_000_000, -1)
    for event in (0, -1, len(branch.events) + 1):
        with pytest.raises(biqsolur.InputError, match="has the events 1 to"):
            biqsolur.causes(branch, event)
    with pytest.raises(biqsolur.InputError, match="has the events 1 to"):
        biqsolur.effects(branch, len(branch.events) + 1)


def test_the_document_shows_what_comes(monkeypatch: pytest.MonkeyPatch) -> None:
    """The data frame of docs/EXPLORER.md, line by line."""
    root = Path(__file__).resolve().parents[2]
    monkeypatch.chdir(root)
    example = doctest.DocTestParser().get_doctest(
        (root / "docs" / "EXPLORER.md").read_text(), {"biqsolur": biqsolur}, "EXPLORER.md", "EXPLORER.md", 0)
    assert len(example.examples) == 2
    assert doctest.DocTestRunner().run(example) == (0, 2)


def test_injected_messages_need_the_study_and_find_it_with_the_bundle(course: Course) -> None:
    """As a user asks: a bundle of `run` knows its study, and one that was read gets it by name."""
    for name, branch in course.bundle.branches.items():
        if not (branch.edits.kind == "inject").any():
            continue
        with pytest.raises(biqsolur.StudyNeededError):
            biqsolur.causes(branch, 1)
        study = biqsolur.Study.read(course.folder / "study.toml", course.folder)
        last = len(branch.events)
        asked = biqsolur.causes(branch, last, study=study)
        known = biqsolur.causes(biqsolur.run(study).branches[name], last)
        assert asked.equals(known) and len(known)
        return


def test_an_injected_message_names_the_event_after_which_it_was_injected(course: Course) -> None:
    for name, branch in course.bundle.branches.items():
        causes = Causes(branch, course.counters(name))
        for row in numpy.flatnonzero(causes.senders.event == EDIT):
            link = causes.links(int(causes.senders.first[row]))[0]
            assert link.link == INJECTED
            assert injected_at(branch, link.event) > 0


def test_causes_are_kept_with_the_branch_until_it_forgets(tick_size: biqsolur.Bundle) -> None:
    from biqsolur.causing import causes_of
    branch = tick_size.branches["same"]
    assert causes_of(branch) is causes_of(branch)
    kept = causes_of(branch)
    branch.forget()
    assert causes_of(branch) is not kept
