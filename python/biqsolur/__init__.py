"""Biqsolur's bundles as data frames, and as the files that the field already reads.

    import biqsolur
    bundle = biqsolur.read("tick_size.bundle")
    wide = bundle.branches["wide"]
    wide.trades, wide.quotes, wide.book(levels=5), wide.closing.agents

Units, everywhere: a time is nanoseconds past midnight (whole numbers; `timedeltas` turns them into
pandas' Timedelta), an amount of shares is shares, a price is a whole number with four implied decimals
(100000 is ten dollars) beside a column `..._dollars`, money is whole millionths of a dollar.
`dollars` turns a column of prices into dollars, for pictures.
A number that a row does not have is 0 and its column in dollars is not-a-number: no price, share,
reference or match number of a market is 0.  A stock is its number from 0, and -1 where there is none.

Importing the package loads none of its modules: each is loaded when one of its names is first asked for.
"""

from __future__ import annotations

import importlib
from typing import TYPE_CHECKING, Any

if TYPE_CHECKING:        # for type checkers and editors, which do not see what `__getattr__` finds
    from biqsolur import (
        acts as acts, facts as facts, measures as measures, ouch as ouch, prices as prices, times as times,
        values as values)
    from biqsolur.bundle import Branch as Branch, Bundle as Bundle, read as read
    from biqsolur.cache import CacheWarning as CacheWarning
    from biqsolur.capture import to_capture as to_capture
    from biqsolur.causing import causes as causes, effects as effects
    from biqsolur.closing import Closing as Closing
    from biqsolur.columns import dollars as dollars, timedeltas as timedeltas
    from biqsolur.crosses import Cross as Cross, read_cross as read_cross
    from biqsolur.edits import (
        AgentParameter as AgentParameter, Edit as Edit, Fee as Fee, Halt as Halt, Inject as Inject, Latency as Latency,
        Resume as Resume, SeriesOffset as SeriesOffset, Silence as Silence, Tick as Tick)
    from biqsolur.errors import (
        BundleError as BundleError, CacheError as CacheError, CalibrationError as CalibrationError,
        FactsError as FactsError, FigureError as FigureError, InputError as InputError, KeysError as KeysError,
        LevelsError as LevelsError, MapError as MapError, MeasureError as MeasureError,
        MissingPackageError as MissingPackageError, OuchError as OuchError, OutputExistsError as OutputExistsError,
        OutputFolderError as OutputFolderError, PlayError as PlayError,
        PolicyError as PolicyError, PriceError as PriceError, RunError as RunError,
        ScheduleError as ScheduleError, SeriesError as SeriesError, StudyError as StudyError,
        StudyNeededError as StudyNeededError, StudySyntaxError as StudySyntaxError, SweepError as SweepError,
        TapeError as TapeError, TimeError as TimeError, UnknownBranchError as UnknownBranchError,
        UnknownSymbolError as UnknownSymbolError)
    from biqsolur.figures import figure as figure, write_figure as write_figure
    from biqsolur.itch import to_itch as to_itch
    from biqsolur.lobster import to_lobster as to_lobster
    from biqsolur.mapping import map as map
    from biqsolur.observation import Account as Account, Observation as Observation, OpenOrder as OpenOrder
    from biqsolur.playing import Game as Game, play as play
    from biqsolur.program import find_program as find_program
    from biqsolur.provenance import Provenance as Provenance
    from biqsolur.rewinds import Rewind as Rewind, State as State, read_rewind as read_rewind
    from biqsolur.running import (
        audit as audit, cross as cross, rewind as rewind, run as run, run_bytes as run_bytes, session as session,
        table as table)
    from biqsolur.sessions import Session as Session, read_session as read_session
    from biqsolur.statuses import (
        ActRefused as ActRefused, AuditFailed as AuditFailed, BadBundle as BadBundle, FileTooLong as FileTooLong,
        NoSuchBranch as NoSuchBranch, NoSuchEvent as NoSuchEvent, NoSuchFile as NoSuchFile, NoSuchStock as NoSuchStock,
        OrdersRefused as OrdersRefused, OtherProgramError as OtherProgramError, OutOfMemory as OutOfMemory,
        ProgramError as ProgramError, ProgramKilledError as ProgramKilledError,
        ProgramMissingError as ProgramMissingError, ReadFailed as ReadFailed, ScriptRefused as ScriptRefused,
        StudyRefused as StudyRefused, WordsRefused as WordsRefused, WriteFailed as WriteFailed)
    from biqsolur.study import Study as Study
    from biqsolur.tables import read_table as read_table
    from biqsolur.wording import agent_names as agent_names, edit_words as edit_words

# The module of each name that the package hands out.
HOMES = {
    **dict.fromkeys(("Branch", "Bundle", "read"), "bundle"),
    "Closing": "closing",
    **dict.fromkeys(("dollars", "timedeltas"), "columns"),
    **dict.fromkeys((
        "BundleError", "CacheError", "CalibrationError", "FactsError", "FigureError", "InputError", "KeysError", "LevelsError",
        "MapError", "MeasureError", "MissingPackageError", "OuchError", "OutputExistsError", "OutputFolderError", "PlayError",
        "PolicyError", "PriceError", "RunError", "ScheduleError", "SeriesError", "StudyError", "StudyNeededError", "StudySyntaxError",
        "SweepError", "TapeError", "TimeError", "UnknownBranchError", "UnknownSymbolError"), "errors"),
    **dict.fromkeys((
        "AgentParameter", "Edit", "Fee", "Halt", "Inject", "Latency", "Resume", "SeriesOffset", "Silence", "Tick"), "edits"),
    **dict.fromkeys(("causes", "effects"), "causing"),
    **dict.fromkeys(("figure", "write_figure"), "figures"),
    "map": "mapping",
    "Study": "study",
    **dict.fromkeys(("Game", "play"), "playing"),
    **dict.fromkeys(("Account", "Observation", "OpenOrder"), "observation"),
    "to_capture": "capture",
    "to_itch": "itch",
    "to_lobster": "lobster",
    **dict.fromkeys(("Rewind", "State", "read_rewind"), "rewinds"),
    "read_table": "tables",
    "find_program": "program",
    **dict.fromkeys(("audit", "cross", "rewind", "run", "run_bytes", "session", "table"), "running"),
    **dict.fromkeys(("Cross", "read_cross"), "crosses"),
    **dict.fromkeys(("Session", "read_session"), "sessions"),
    "Provenance": "provenance",
    **dict.fromkeys(("agent_names", "edit_words"), "wording"),
    "CacheWarning": "cache",
    **dict.fromkeys((
        "ActRefused", "AuditFailed", "BadBundle", "FileTooLong", "NoSuchBranch", "NoSuchEvent", "NoSuchFile", "NoSuchStock",
        "OrdersRefused", "OtherProgramError", "OutOfMemory", "ProgramError", "ProgramKilledError", "ProgramMissingError",
        "ReadFailed", "ScriptRefused", "StudyRefused", "WordsRefused", "WriteFailed"), "statuses"),
}

# The modules that are used by their own name.
MODULES = ("acts", "facts", "measures", "ouch", "prices", "times", "values")

__all__ = sorted([*HOMES, *MODULES])


if not TYPE_CHECKING:
    def __getattr__(name: str) -> Any:
        """A name of the package, from its module, which is loaded at the first use."""
        if name in MODULES:
            return importlib.import_module(f"biqsolur.{name}")
        if name not in HOMES:
            raise AttributeError(f"module 'biqsolur' has no attribute {name!r}")
        try:
            value = getattr(importlib.import_module(f"biqsolur.{HOMES[name]}"), name)
        except ModuleNotFoundError as error:
            from biqsolur import missing

            raise ModuleNotFoundError(missing.advice(error), name=error.name) from None
        globals()[name] = value
        return value


def __dir__() -> list[str]:
    """The names of the package."""
    return sorted({*globals(), *__all__})
