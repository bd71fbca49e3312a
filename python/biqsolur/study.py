"""A study: a market, its traders and its branches, to be written, changed and given to the program.

    study = biqsolur.Study.read("examples/tick_size.toml")
    dearer = study.with_("stock.ABM.take", "0.005").branch("late", at="9:31", edits=[biqsolur.Halt("ABM")])
    dearer.check()
    dearer.write("dearer.toml")

A Study can't be changed: whatever changes one gives a new one. Where it was read from a file, comments and layout stay,
but for the value that a change replaces.
"""

from __future__ import annotations

import copy
import json
import os
import tomllib
from collections.abc import Mapping, Sequence
from functools import cached_property
from pathlib import Path
from typing import Any

from biqsolur.edits import Edit, edit_of
from biqsolur.errors import StudyError, StudySyntaxError
from biqsolur.fields import Table, plain_table
from biqsolur.study_changes import (
    changed_table, changed_text, text_with_agent, text_with_branches, text_without_branches)
from biqsolur.times import clock_text, nanoseconds
from biqsolur.toml_text import study_text

MOST_TRADERS = 511
HIDDEN_OFFSET = 2 * 40      # of the display in the digits of an Enter


class Study:
    """A study, from a path, a text of TOML, or a dict; which one is seen from what is given (a text has a line break).

    Two studies are equal where they say the same, whatever their comments and layout. `folder` is where the program
    looks for a series file whose path is relative: the working folder where the file is found there when the study is
    made, else the study's own folder; None where the study names no such file.
    """

    def __init__(self, source: str | os.PathLike[str] | Mapping[str, Any],
                 folder: str | os.PathLike[str] | None = None) -> None:
        if isinstance(source, Mapping):
            self._set(plain_table("study", source), None, folder, None)
        elif isinstance(source, str) and "\n" in source:
            self._set(table_of(source), source, folder, None)
        elif isinstance(source, (str, os.PathLike)):
            text = text_of_file(Path(source))
            self._set(table_of(text, Path(source)), text, folder, Path(source))
        else:
            raise StudyError(
                f"{source!r} is of the type {type(source).__name__}; a study is made from a path, text or dict")

    @classmethod
    def read(cls, path: str | os.PathLike[str], folder: str | os.PathLike[str] | None = None) -> Study:
        """The study of a file. Raises StudySyntaxError where it is no TOML 1.0, and NoSuchFile or ReadFailed, which are
        OSError too, where it can't be read."""
        return cls(Path(path), folder)

    @classmethod
    def from_text(cls, text: str, folder: str | os.PathLike[str] | None = None) -> Study:
        """The study of a text of TOML. Raises StudySyntaxError where it is none."""
        return cls(text if "\n" in text else text + "\n", folder)

    @classmethod
    def from_dict(cls, table: Mapping[str, Any], folder: str | os.PathLike[str] | None = None) -> Study:
        """The study of a dict with the keys of docs/FORMATS.md. Times may be texts such as "9:30:00.5" or Timedelta,
        lengths of time texts such as "250ms", prices and money texts or Decimals of dollars, the key a number, and
        edits those of `biqsolur.edits`. Raises StudyError for an unknown key and a value of a wrong type; a float
        always is."""
        if not isinstance(table, Mapping):
            raise StudyError(f"{table!r} is of the type {type(table).__name__}, and is to be a dict")
        return cls(table, folder)

    @classmethod
    def _made(cls, table: Table, text: str | None, folder: Path | None) -> Study:
        """A study of a table that is plain already, and of its text where that is known."""
        study = cls.__new__(cls)
        study._table, study._text, study.folder = table, text, folder
        return study

    def _set(self, table: Table, text: str | None, folder: str | os.PathLike[str] | None, path: Path | None) -> None:
        self._table, self._text = table, text
        self.folder = Path(folder) if folder is not None else series_folder(table.get("series"), path)

    # ------------------------------------------------------------ what it says

    def to_text(self) -> str:
        """The study in TOML; of a study that was read, the text as it stands in the file."""
        if self._text is None:
            self._text = study_text(self._table)
        return self._text

    def to_dict(self) -> Table:
        """The study as plain dicts, lists, whole numbers and texts; a copy."""
        return copy.deepcopy(self._table)

    def write(self, path: str | os.PathLike[str]) -> None:
        """Writes the study's text to a file that is not there yet (else OutputExistsError); it is whole or not there.

        A relative path of a series file stays as it is, and the program looks for it from its own working folder: give
        `with_series_found()` where the file is to be run from anywhere.
        """
        from biqsolur.output import write_new
        write_new(Path(path), self.to_text().encode())

    @property
    def series_path(self) -> Path | None:
        """The series file's path, or None; a relative one from `folder`."""
        name = self._table.get("series")
        if not isinstance(name, str):
            return None
        return Path(name) if self.folder is None else self.folder / name

    def with_series_found(self) -> Study:
        """The study with the absolute path of its series file, so that it may be run from any folder."""
        path = self.series_path
        return self if path is None else self.with_("series", str(path.absolute()))

    @property
    def branches(self) -> list[str]:
        """The names of the branches, in order; "root" first."""
        return ["root", *(str(branch.get("name", "")) for branch in self._tables("branch"))]

    @property
    def symbols(self) -> list[str]:
        """The stocks' symbols, by number of the stock from 0."""
        return [str(stock.get("symbol", "")) for stock in self._tables("stock")]

    @cached_property
    def traders(self) -> list[tuple[int, str, str]]:
        """(number from 1, kind, name) of each trader; a name is kind and number, such as "maker 1"."""
        kinds = [str(entry.get("kind", "")) for entry in self._tables("agent") for _ in range(count_of(entry))]
        return [(number, kind, f"{kind} {number}") for number, kind in enumerate(kinds, 1)]

    def edits(self, branch: str) -> list[Edit]:
        """The edits of a branch, in order."""
        return [edit_of(edit) for edit in self._branch(branch).get("edit", [])]

    # ------------------------------------------------------------ changes

    def with_(self, path: str | Sequence[str | int], value: object) -> Study:
        """The study with one value changed, or a key added that had its default.

        `path` goes from the top by keys, and in a list by number from 0 or by name: a stock by its symbol, a branch by
        its name, an agent by its kind where only one entry is of it. So "close", "agent.maker.every",
        "stock.ABM.bands.0.1", "branch.wide.edit.0.bands". A list of parts serves where a symbol has a dot. Raises
        StudyError where the path leads nowhere or the value is of a wrong type.
        """
        places, table = changed_table(self._table, path, value)
        text = None if self._text is None else changed_text(self._text, places, table)
        return Study._made(table, text, self.folder)

    def with_agent(self, kind: str, **keys: Any) -> Study:
        """The study with one more agent entry, behind the others, so that all numbers of traders stay: its traders have
        the next ones. `keys` are those of an entry in docs/FORMATS.md; where nothing is said, the stock is the first,
        the group that of the exchange, and the first wakeup is at the open.

            study.with_agent("watcher", every="1s")
        """
        exchange, agents = self._table.get("exchange"), self._tables("agent")
        usual = {"kind": kind, "group": exchange.get("group") if isinstance(exchange, Mapping) else None,
                 "stock": next(iter(self.symbols), None), "first": self._table.get("open")}
        entry = {key: value for key, value in {**usual, **keys}.items() if value is not None}
        made = plain_table("agent", entry, f"agent {len(agents)}")
        changed = {**self._table, "agent": [*agents, made]}
        text = None if self._text is None else text_with_agent(self._text, made, changed)
        return Study._made(changed, text, self.folder)

    def branch(self, name: str, parent: str = "root", after: int | None = None, at: object = None,
               edits: Sequence[Edit | Mapping[str, Any]] = ()) -> Study:
        """The study with one more branch, behind the others.

        It leaves `parent` after so many events (`after`), or once all has come that is due by a time of day (`at`);
        then its `edits` are made, in order. Leaving at a time needs version 2, which the study then gets. Raises
        StudyError: none or both of `after` and `at`, a name that is taken, no such parent.
        """
        if (after is None) == (at is None):
            raise StudyError(
                "a branch leaves its parent after a number of events (after=5000) or at a time (at=\"9:41\"): "
                "give one of the two")
        if name in self.branches:
            raise StudyError(f"there is a branch {name!r} already; a branch has a name of its own")
        self._known(parent)
        stop: Table = {"at": after} if at is None else {"when": at}
        if isinstance(edits, (Edit, Mapping)) or not isinstance(edits, Sequence):
            raise StudyError(f"edits is {edits!r}, and is to be a list of edits, such as [Halt(\"ABM\")]")
        more: Table = {"edit": list(edits)} if edits else {}
        table = plain_table("branch", {"name": name, "parent": parent, **stop, **more}, f"branch {name!r}")
        study = self if at is None else self.in_version_2()
        return study._with_branches([table])

    def without_branch(self, name: str) -> Study:
        """The study without a branch that no other has as its parent. Raises StudyError else."""
        self._branch(name)
        children = [branch.get("name", "") for branch in self._tables("branch") if branch.get("parent") == name]
        if children:
            raise StudyError(
                f"the branch {name!r} has branches of its own, to be taken away first: {', '.join(children)}")
        return self._with_only({*self.branches} - {name})

    def only(self, branch: str) -> Study:
        """The study with this branch and those on the way to it alone; of "root", with no branch."""
        self._known(branch)
        parents = {str(entry.get("name", "")): str(entry.get("parent", "")) for entry in self._tables("branch")}
        line = {"root"}
        while branch not in line:
            line.add(branch)
            if branch not in parents:
                raise StudyError(f"there is no branch {branch!r}, which another one has as its parent")
            branch = parents[branch]
        return self._with_only(line)

    def until(self, time: object, branch: str = "root") -> Study:
        """The study of one branch, closed at a time of day within its hours: its run is the branch's own up to there.

        Dated changes that are later are left out, and so are the other branches. Raises StudyError where the time is
        outside the hours, or before a time at which the branch or one on the way to it leaves its parent.
        """
        table, moment = self.only(branch).to_dict(), nanoseconds(time)
        if type(table.get("open")) is not int or type(table.get("close")) is not int:
            raise StudyError("the study has no hours: `open` and `close` are nanoseconds past midnight")
        if not table["open"] <= moment <= table["close"]:
            raise StudyError(f"{clock_text(moment)} is outside the hours, {clock_text(table['open'])} to "
                             f"{clock_text(table['close'])}")
        for entry in table.get("branch", []):
            if entry.get("when", moment) > moment:
                raise StudyError(f"at {clock_text(moment)} the branch {entry['name']!r} has not begun: it leaves at "
                                 f"{clock_text(entry['when'])}")
        table["close"] = moment
        if "change" in table:
            table["change"] = [change for change in table["change"] if change.get("time", 0) <= moment]
        return Study._made(table, None, self.folder)

    def in_version_2(self) -> Study:
        """The study in version 2 of the format, in which branches may leave at times. All else means what it meant, but
        for injected hidden orders, which version 1 rejects: such a study isn't changed, StudyError."""
        if self._table.get("version") != 1:
            return self
        for branch in self._tables("branch"):
            if any(is_hidden_order(edit) for edit in branch.get("edit", [])):
                raise StudyError(
                    f"the branch {branch.get('name')!r} injects a hidden order (display N), which version 1 rejects "
                    "and version 2 takes: say which is meant by with_(\"version\", 2) first, or leave it out")
        return self.with_("version", 2)

    def schedule(self, trader: int, orders: Sequence[tuple[object, object]], **settings: Any) -> Study:
        """The study with a chain of branches that sends these orders for a trader: `biqsolur.schedules.schedule`."""
        from biqsolur.schedules import schedule
        return schedule(self, trader, orders, **settings)

    def _with_only(self, names: set[str]) -> Study:
        """The study with its branches of these names alone."""
        entries = self._tables("branch")
        gone = [number for number, branch in enumerate(entries) if branch.get("name") not in names]
        if not gone:
            return self
        table = {**self._table, "branch": [branch for branch in entries if branch.get("name") in names]}
        if not table["branch"]:
            del table["branch"]
        text = None if self._text is None else text_without_branches(self._text, gone, table)
        return Study._made(table, text, self.folder)

    def _with_branches(self, branches: list[Table]) -> Study:
        """The study with more branches, which are plain tables, behind the others."""
        table = {**self._table, "branch": [*self._tables("branch"), *branches]}
        text = None if self._text is None else text_with_branches(self._text, branches, table)
        return Study._made(table, text, self.folder)

    def _branch(self, name: str) -> Table:
        """The table of a branch."""
        self._known(name)
        if name == "root":
            raise StudyError("the root is the market itself, and no branch that has edits or could be taken away")
        return next(branch for branch in self._tables("branch") if branch.get("name") == name)

    def _tables(self, key: str) -> list[Table]:
        """The tables of an array, none where the study has none. Raises StudyError where it has something else
        there."""
        tables = self._table.get(key, [])
        if isinstance(tables, list) and all(isinstance(table, dict) for table in tables):
            return tables
        raise StudyError(f"`{key}` is to be an array of tables, as [[{key}]] makes them, and is {tables!r}")

    def _known(self, name: str) -> None:
        if name not in self.branches:
            raise StudyError(f"there is no branch {name!r}; there are {', '.join(self.branches)}")

    # ------------------------------------------------------------ the program's word

    def check(self, program: str | os.PathLike[str] | None = None) -> None:
        """Asks the program whether it accepts the study; nothing is simulated. Raises StudyRefused, with the first rule
        that is broken, the place, and the sentence of `why`."""
        from biqsolur.running import check
        check(self, program=program)

    # ------------------------------------------------------------ comparing

    def __eq__(self, other: object) -> bool:
        return bool(self._canonical == other._canonical) if isinstance(other, Study) else NotImplemented

    def __hash__(self) -> int:
        return hash(self._canonical)

    @cached_property
    def _canonical(self) -> str:
        """What two equal studies have in common."""
        return json.dumps(self._table, sort_keys=True, default=repr)

    def __repr__(self) -> str:
        branches = len(self.branches) - 1
        return (f"<study of {', '.join(self.symbols)}: {len(self.traders)} traders, "
                f"{branches} {'branch' if branches == 1 else 'branches'} beside the root>")


def text_of_file(path: Path) -> str:
    """The text of a file, line ends and a byte order mark as they stand. Raises NoSuchFile, ReadFailed or
    StudySyntaxError."""
    try:
        data = path.read_bytes()
    except (OSError, ValueError) as error:      # a ValueError where the path has a zero byte
        from biqsolur.running import unread
        raise unread(path, error) from None
    try:
        return data.decode("utf-8")
    except UnicodeDecodeError:
        from biqsolur.toml_faults import no_toml
        raise StudySyntaxError(f"{path}: {no_toml(data)}") from None


def table_of(text: str, path: Path | None = None) -> Table:
    """The table that a text of TOML says."""
    try:
        return tomllib.loads(text.removeprefix("\ufeff"))
    except (ValueError, RecursionError):
        from biqsolur.toml_faults import no_toml
        place = "" if path is None else f"{path}: "
        raise StudySyntaxError(f"{place}{no_toml(text.encode())}") from None


def series_folder(name: object, path: Path | None) -> Path | None:
    """The folder from which a relative path of a series file is looked for: the working folder where the file is there,
    else the study's own where it is there, else the working folder."""
    if not isinstance(name, str) or os.path.isabs(name):
        return None
    here = Path.cwd()
    if path is not None and not (here / name).exists():
        beside = path.absolute().parent
        return beside if (beside / name).exists() else here
    return here


def count_of(entry: Mapping[str, Any]) -> int:
    """How many traders an agent entry makes; what is no number makes none, and more than there may be count as too
    many."""
    count = entry.get("count", 1)
    return min(count, MOST_TRADERS + 1) if type(count) is int else 0


def is_hidden_order(edit: Mapping[str, Any]) -> bool:
    """Whether an edit injects an Enter with display N."""
    message = edit.get("message")
    if not isinstance(message, str):
        return False
    return message[:2] == b"O".hex() and message[HIDDEN_OFFSET:HIDDEN_OFFSET + 2] == b"N".hex()
