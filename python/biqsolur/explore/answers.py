"""The questions that the page asks, each a function of the explorer and the words of the address, and what it may
do."""

from __future__ import annotations

from dataclasses import dataclass
from pathlib import Path, PurePath
from typing import Any, Callable

from biqsolur.explore.changes import BadRequest, wanted
from biqsolur.explore.compare import compared
from biqsolur.explore.model import Explorer
from biqsolur.explore.moment import moment, trader_table
from biqsolur.explore.run import Run
from biqsolur.explore.taking import session_script
from biqsolur.explore.view import View
from biqsolur.explore.words import edit_words, sentence

Table = dict[str, Any]
Words = dict[str, str]


CHAIN_DEPTH = 4             # of the causes that the page shows
MOST_EFFECTS = 60           # messages of one event that it shows


@dataclass
class Download:
    """A file for the page's user: its bytes, or where they lie."""

    name: str
    content: bytes | Path
    kind: str = "application/octet-stream"


def number(words: Words, name: str, default: int | None = None) -> int:
    """A whole number of the address."""
    text = words.get(name, "")
    if text == "" and default is not None:
        return default
    if not text.lstrip("-").isascii() or not text.lstrip("-").isdigit() or len(text) > 18:
        raise BadRequest(f"{name} is to be a whole number, not {text[:40]!r}")
    return int(text)


def run_of(explorer: Explorer, words: Words) -> Run:
    """The run of the version that the page knows."""
    return explorer.run_of(number(words, "tag"))


def status(explorer: Explorer, words: Words) -> Table:
    """Whether a run goes on, and which version is looked at."""
    return explorer.status()


def study(explorer: Explorer, words: Words) -> Table:
    """The study that is looked at: its branches, stocks and agents, its text, and what can be undone."""
    with explorer.lock:
        run = explorer.looked_at()
        labels = [label for label, _ in explorer.history]
        out: Table = {
            "tag": explorer.tag, "name": explorer.name, "seconds": run.seconds, "open": run.table["open"],
            "close": run.table["close"], "version": run.table["version"], "symbols": run.bundle.symbols,
            "groups": len(run.table["latency"]["base"]), "limit": run.table["events"],
            "undo": labels[explorer.place] if explorer.place else None,
            "redo": labels[explorer.place + 1] if explorer.place + 1 < len(labels) else None,
        }
    out["branches"] = [branch_table(run, name) for name in run.bundle.branches]
    out["agents"] = [{"agent": agent, "name": run.people.name(agent), "kind": kind,
                      "stock": int(run.people.stock_of_agent[agent]),
                      "group": (run.people.entries[agent] or {}).get("group")}
                     for agent, kind in enumerate(run.people.kinds)]
    out["text"] = run.study.to_text()
    return out


def branch_table(run: Run, name: str) -> Table:
    """A branch: where it leaves its parent, its edits, how far it goes, and where it first differs."""
    view = run.views[name]
    branch = view.branch
    entry = next((entry for entry in run.table.get("branch", []) if entry["name"] == name), {})
    difference = branch.first_difference
    return {
        "name": name, "parent": branch.parent, "fork": branch.fork, "count": view.count,
        "at": entry.get("at"), "when": entry.get("when"),
        "edits": [edit_words(view, edit) for edit in entry.get("edit", [])],
        "fork_time": view.time_of(min(branch.fork, view.count)), "end_time": view.time_of(view.count),
        "end": branch.counts["end"], "difference": difference,
        "difference_time": view.time_of(min(difference, view.count)) if difference else None,
    }


def timeline(explorer: Explorer, words: Words) -> Table:
    """The pictures' numbers of one branch and stock, from `begin` to `end` (ns), `points` wide."""
    run = run_of(explorer, words)
    stock = stock_number(run, words)
    begin, end = number(words, "begin"), number(words, "end")
    if end <= begin:
        raise BadRequest("end is to be later than begin")
    view = run.view(words.get("branch", "root"))
    return run.timelines[view.branch.name].picture(stock, begin, end, number(words, "points", 1000))


def stock_number(run: Run, words: Words) -> int:
    """The number of a stock of the study."""
    stock = number(words, "stock", 0)
    if not 0 <= stock < len(run.bundle.symbols):
        raise BadRequest(f"there are the stocks 0 to {len(run.bundle.symbols) - 1}, not {stock}")
    return stock


def agent_number(run: Run, words: Words) -> int:
    """The number of an agent of the study."""
    agent = number(words, "agent", 0)
    if not 0 <= agent < len(run.people.kinds):
        raise BadRequest(f"there are the agents 0 to {len(run.people.kinds) - 1}, not {agent}")
    return agent


def state(explorer: Explorer, words: Words) -> Table:
    """A state of a branch after an event; of an agent, where one is named, all that is its own; `now` is the version
    that is looked at, by which a page learns that another tab changed the study."""
    run = run_of(explorer, words)
    view = run.view(words.get("branch", "root"))
    found = run.state(view.branch.name, number(words, "event"))
    out = moment(run.table, view, found) | {"now": explorer.tag}
    if "agent" in words:
        out["trader"] = trader_table(view, found, out["rules"], agent_number(run, words))
    return out


def find(explorer: Explorer, words: Words) -> Table:
    """The nearest event after (or before) one: with a trade, of an agent, of a stock, the first that differs."""
    run = run_of(explorer, words)
    view = run.view(words.get("branch", "root"))
    kind = words.get("kind", "")
    what = {"agent": agent_number, "stock": stock_number}.get(kind)
    event = view.find(kind, number(words, "event"), words.get("way") != "back", what(run, words) if what else 0)
    return {"event": event, "time": view.time_of(event)}


def at(explorer: Explorer, words: Words) -> Table:
    """The last event of a branch that is not later than a time (ns), or the time of an event."""
    view = run_of(explorer, words).view(words.get("branch", "root"))
    event = view.event_at(number(words, "time")) if "time" in words else number(words, "event")
    return {"event": event, "time": view.time_of(event)}


def why(explorer: Explorer, words: Words) -> Table:
    """The causes of an event as a chain, and what came of it, in words; `waiting`: how many of the messages that it
    sent had not come up by the end."""
    run = run_of(explorer, words)
    view = run.view(words.get("branch", "root"))
    event = view.check(number(words, "event"))
    causes = run.causes(view)
    chain = causes.chain(event, CHAIN_DEPTH)
    effects = causes.effects(event)
    return {
        "causes": [cause_table(view, link.event, link.link, depth) for depth, link in chain],
        "effects": [cause_table(view, effect["event"] or effect["first"], effect_link(effect, event), 1)
                    for effect in effects[:MOST_EFFECTS]],
        "more": max(0, len(effects) - MOST_EFFECTS),
        "waiting": run.sent_by(view, event) - len(effects),
    }


def cause_table(view: View, event: int, link: str, depth: int) -> Table:
    """A step of a chain: which event, how it is linked, and its words."""
    return {"event": event, "time": view.time_of(event), "link": link, "depth": depth, "words": sentence(view, event)}


def effect_link(effect: Table, event: int) -> str:
    """How what an event sent is linked with where it arrived."""
    return f"its {effect['kind']} in" if effect["event"] else f"its {effect['kind']} was last put back in"


def compare(explorer: Explorer, words: Words) -> Table:
    """A branch beside its parent."""
    run = run_of(explorer, words)
    view = run.view(words.get("branch", ""))
    if view.branch.parent is None:
        raise BadRequest("the root has no parent")
    return run.compared(view.branch.name, lambda: compared(view, run.view(view.branch.parent)))


def take(explorer: Explorer, words: Words) -> Download:
    """A file of what is looked at: `what` is study, bundle, report, session or state."""
    run = run_of(explorer, words)
    stem = PurePath(explorer.name).stem
    what = words.get("what", "")
    if what == "study":
        return Download(f"{stem}.toml", run.study.to_text().encode(), "application/toml")
    if what == "bundle":
        return Download(f"{stem}.bundle", explorer.engine.bundle_file(run.bundle, stem))
    if what == "report":
        return Download(f"{stem}.html", explorer.engine.report(run.bundle, stem), "text/html; charset=utf-8")
    branch = run.view(words.get("branch", "root")).branch.name
    event = run.view(branch).check(number(words, "event"))
    if what == "session":
        script = session_script(explorer.history[0][1], run.study, branch, event)
        return Download(f"{stem}.session.toml", script.encode(), "application/toml")
    if what == "state":
        return Download(f"{stem}.{branch}.{event}.states", run.state_bytes(branch, event))
    raise BadRequest("what can be taken is study, bundle, report, session or state")


QUESTIONS: dict[str, Callable[[Explorer, Words], Any]] = {
    "status": status, "study": study, "timeline": timeline, "state": state, "find": find, "at": at, "why": why,
    "compare": compare, "take": take,
}


# ---------------------------------------------------------------- what it may do

def change(explorer: Explorer, table: Table) -> Table:
    """A change of the study: `kind` says which, and the rest is its own."""
    explorer.looked_at(wanted(table, "tag", int))
    explorer.change(wanted(table, "kind", str), table)
    return explorer.status()


def step(explorer: Explorer, table: Table) -> Table:
    """Undo (`by` -1) or redo (1)."""
    explorer.looked_at(wanted(table, "tag", int))
    explorer.step(-1 if wanted(table, "by", int) < 0 else 1)
    return explorer.status()


def stop(explorer: Explorer, table: Table) -> Table:
    """Stops the run that goes on."""
    explorer.stop()
    return explorer.status()


def reopen(explorer: Explorer, table: Table) -> Table:
    """Runs the study again whose first run failed or was stopped."""
    explorer.open()
    return explorer.status()


ACTIONS: dict[str, Callable[[Explorer, Table], Any]] = {"change": change, "step": step, "stop": stop, "reopen": reopen}
