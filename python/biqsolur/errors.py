"""What can be wrong, each with its own class. All are InputError, which is a ValueError."""

from __future__ import annotations


class InputError(ValueError):
    """What was asked for cannot be done with what was given. The text says why."""


class BundleError(InputError):
    """The bytes are no bundle (or no rewind). `offset` is where, in bytes; `cause` says what is wrong there."""

    def __init__(self, path: object, offset: int, cause: str) -> None:
        super().__init__(f"{path}: at byte {offset}: {cause}")
        self.path = path
        self.offset = offset
        self.cause = cause


class UnknownBranchError(InputError, KeyError):
    """A branch that the file has not."""

    def __init__(self, name: object, known: list[str]) -> None:
        super().__init__(f"no branch {name!r}; there are {', '.join(known)}")

    def __str__(self) -> str:
        return str(self.args[0])


class UnknownSymbolError(InputError, KeyError):
    """A stock that the market has not."""

    def __init__(self, symbol: object, known: list[str]) -> None:
        super().__init__(f"no stock {symbol!r}; there are {', '.join(known)}")

    def __str__(self) -> str:
        return str(self.args[0])


class StudyNeededError(InputError):
    """What was asked follows from the study, which is not there, or is another one's."""


class LevelsError(InputError):
    """A number of levels below 1."""


class MissingPackageError(InputError, ImportError):
    """A library that only this command needs is not installed."""


class OuchError(InputError):
    """A field of an order or reply can't be what it is. `offset` is the field's, in bytes from the message's first."""

    def __init__(self, text: str, offset: int) -> None:
        super().__init__(text)
        self.offset = offset


class OutputExistsError(InputError, FileExistsError):
    """What was to be written is there already. Nothing is ever overwritten."""


class OutputFolderError(InputError, OSError):
    """A file can't be made where it is to be: no such folder, or no leave to write there. Nothing was written."""


class RunError(InputError):
    """What was asked of the program can't be: a number of workers, states to rewind to, orders of a cross, acts of a session."""


class CacheError(InputError):
    """The cache can't be used as it was asked for, and there is no other place for the program's output."""


class StudyError(InputError):
    """A study, a change of one, or a value in one, that cannot be: a wrong type, an unknown key, no such entry.

    It is raised before the program is asked. What the program refuses is StudyRefused.
    """


class StudySyntaxError(StudyError):
    """The text is no TOML. The message has line and column."""


class TimeError(StudyError):
    """What was given is no time of day, or no length of time."""


class PriceError(StudyError):
    """What was given is no exact price or amount of money; a floating-point number never is."""


class ScheduleError(StudyError):
    """A list of orders that no chain of branches can send as it stands."""


class PlayError(StudyError):
    """A strategy cannot be played so: over a limit, an unknown trader, no time left."""


class PolicyError(PlayError):
    """The policy raised, or gave what is no list of orders. `decision` is which (from 1), `time` when (ns).

    The message has the policy's own traceback; `__cause__` is its exception, None where its answer was wrong.
    """

    def __init__(self, decision: int, time: int, message: str) -> None:
        super().__init__(message)
        self.decision = decision
        self.time = time


class MeasureError(InputError):
    """A measure that there is not, a setting that it has not, or one that this run cannot answer."""


class SeriesError(InputError):
    """A course of values that can't be made: the text says which setting is wrong and what it may be."""


class TapeError(InputError):
    """Files that are no public record of a stock: the text says which file, which row, and what is wanted there."""


class FactsError(InputError):
    """Facts that can't be measured of what was given."""


class CalibrationError(InputError):
    """A calibration that can't be made of its configuration, or whose journal is another one's."""


class KeysError(InputError):
    """Keys that are none: the text says which one is wrong."""


class MapError(InputError):
    """A study could not be mapped: a run or the function failed. The text names the key."""


class SweepError(InputError):
    """A sweep that can't be made of its configuration, or did not come to its end. The text says why."""


class FigureError(InputError):
    """A figure that can't be drawn of what was given. The text says what may be asked for."""
