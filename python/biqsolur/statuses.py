"""How the program can end, each as an error of its own: what it said, which file it speaks of, and what to do.

docs/COMMANDS.md has the statuses. An error here has `status`, `line` (the program's own line) and `file` (the path of
the study, series file, orders, script or bundle of which the line speaks; "the study", "the orders" or "the script"
where that was given from memory, None where the line speaks of none).
"""

from __future__ import annotations

import re
import signal
from collections.abc import Callable, Mapping
from dataclasses import dataclass, field
from pathlib import Path
from typing import Any, ClassVar

from biqsolur.errors import InputError


class ProgramMissingError(InputError, FileNotFoundError):
    """There is no program to run. The text says where it was looked for and what to do."""

    def __str__(self) -> str:
        return str(self.args[0])


class OtherProgramError(InputError):
    """The program is of another version than this package."""


class ProgramError(InputError):
    """The program did not write what it was asked for. `sentence` says more than its line, where something is known,
    else ""."""

    STATUS: ClassVar[int] = -1
    sentence: str = ""

    def __init__(self, text: str, status: int, line: str, file: str | None = None) -> None:
        super().__init__(text)
        self.status = status
        self.line = line
        self.file = file

    def __str__(self) -> str:
        return str(self.args[0])

    def __reduce__(self) -> tuple[Callable[..., ProgramError], tuple[object, ...]]:
        """How an error goes from one process to another."""
        return remade, (type(self), str(self), dict(self.__dict__))


def remade(kind: type[ProgramError], text: str, values: dict[str, Any]) -> ProgramError:
    """An error as it was in another process."""
    error = kind(text, values["status"], values["line"], values["file"])
    error.__dict__.update(values)
    return error


class ProgramKilledError(ProgramError):
    """The program was ended by a signal, or with a status that it never gives; `status` is then minus the signal's
    number."""


class WordsRefused(ProgramError):
    """Status 2: a number of workers or places outside its range, or a program of another version, which lacks a
    command."""

    STATUS = 2


class NoSuchFile(ProgramError, FileNotFoundError):
    """Status 3: the study, its series file, the orders, the script or the bundle is not there."""

    STATUS = 3


class FileTooLong(ProgramError):
    """Status 4: a file has more than 16,777,216 bytes, a bundle more than 1,073,741,824."""

    STATUS = 4


class StudyRefused(ProgramError):
    """Status 5: the study breaks a rule. `rule` and `place` as in docs/REFUSALS.md; `sentence` says it in words."""

    STATUS = 5
    rule: int
    place: int


class ReadFailed(ProgramError, OSError):
    """Status 6: a file is there and can't be read: a folder, no permission, a loop of links."""

    STATUS = 6


class WriteFailed(ProgramError):
    """Status 7: the output could not be written: the disk is full, or the pipe was closed."""

    STATUS = 7


class NoSuchBranch(ProgramError):
    """Status 8: the study has no such branch. `word` is what was asked for, as BRANCH:EVENT."""

    STATUS = 8
    word: str


class NoSuchEvent(ProgramError):
    """Status 9: the event is past the last one of its branch. `word` is what was asked for; `last` the last event."""

    STATUS = 9
    word: str
    last: int


class OutOfMemory(ProgramError, MemoryError):
    """Status 10: the memory did not suffice."""

    STATUS = 10


class NoSuchStock(ProgramError):
    """Status 11: no stock of the study has the symbol. `word` is what was asked for."""

    STATUS = 11
    word: str


class OrdersRefused(ProgramError):
    """Status 12: the file of orders of a cross breaks a rule. `record` counts from 0, the header among them."""

    STATUS = 12
    record: int


class BadBundle(ProgramError):
    """Status 13: the bytes are no bundle. `reason` is 1 (cut), 2 (bad frame) or 3 (bad order); `offset` in bytes, of
    reason 1 the bytes left."""

    STATUS = 13
    reason: int
    offset: int


class AuditFailed(ProgramError):
    """Status 14: a closing is not what the branch's feed tells. `branch` is its number; `reference` that of the first
    order that differs, 0 where only a trading state or the order of the list does."""

    STATUS = 14
    branch: int
    reference: int


class ScriptRefused(ProgramError):
    """Status 15: the script of a session says no acts. `act` is the first bad one, from 0; 64 where the whole is
    none."""

    STATUS = 15
    act: int


class ActRefused(ProgramError):
    """Status 16: the tree of branches refuses an act as it then stands. `act` is which, from 0."""

    STATUS = 16
    act: int


BUNDLE_FAULTS = {
    1: "its last frame is cut, with {offset} bytes left",
    2: "what stands at byte {offset} is no frame of a bundle",
    3: "the frame at byte {offset} may not stand there, or bytes follow the end",
}


@dataclass(frozen=True)
class Form:
    """The line of a status: its pattern, and what the error says in its place.

    `names` are the attributes that the groups of the pattern become, numbers where they are digits; `text` may name
    them. `explained` is the text where a sentence is known.
    """

    error: type[ProgramError]
    pattern: str
    text: str
    names: tuple[str, ...] = ()
    explained: str = ""


FORMS = {form.error.STATUS: form for form in (
    Form(WordsRefused, r"usage: .*",
         "the program does not know these words: {words}. Where they are right for this version (docs/COMMANDS.md), "
         "the program at {program} is of another one: unset BIQSOLUR_PROGRAM"),
    Form(NoSuchFile, r"no such file: (.*)", "there is no file {file}", ("file",), "no such file: {sentence}"),
    Form(FileTooLong, r"file too long: (.*)",
         "{file} is too long: a study, series file, file of orders or script has at most 16,777,216 bytes, a bundle "
         "1,073,741,824", ("file",)),
    Form(StudyRefused, r"study refused: rule (\d+), place (\d+)",
         "{file} is refused by rule {rule}, place {place} (docs/REFUSALS.md)", ("rule", "place"),
         "{file} is refused by rule {rule}, place {place} (docs/REFUSALS.md): {sentence}"),
    Form(ReadFailed, r"read failed: (.*)", "{file} could not be read", ("file",), "a file can't be read: {sentence}"),
    Form(WriteFailed, r"write failed", "the output could not be written: no room is left, or its reader is gone", (),
         "the output could not be written: {sentence}"),
    Form(NoSuchBranch, r"no branch: (.*)", "the study has no branch as {word!r} names it", ("word",),
         "the study has no branch as {word!r} names it; {sentence}"),
    Form(NoSuchEvent, r"no event: (.*), last event (\d+)",
         "there is no event as {word!r} names it: the last event of that branch is {last}", ("word", "last"),
         "{sentence}"),
    Form(OutOfMemory, r"out of memory",
         "the memory did not suffice: take a study with fewer events, branches or workers, or run fewer at once"),
    Form(NoSuchStock, r"no stock: (.*)", "no stock of the study has the symbol {word!r}", ("word",),
         "no stock of the study has the symbol {word!r}; {sentence}"),
    Form(OrdersRefused, r"orders refused: record (\d+)",
         "{file}: refused at record {record}, counted from 0 with the header (docs/FORMATS.md#the-file-of-a-cross)",
         ("record",),
         "{file}: {sentence} (docs/FORMATS.md#the-file-of-a-cross)"),
    Form(BadBundle, r"bad bundle: (\d+) at (\d+)",
         "{file} is no bundle: {fault}. `python3 -m biqsolur why FILE` says more", ("reason", "offset")),
    Form(AuditFailed, r"audit failed: branch (\d+), reference (\d+)",
         "the closing of branch {branch} of {file} is not what its feed tells: {order} differs. `python3 -m biqsolur why "
         "FILE` says more", ("branch", "reference")),
    Form(ScriptRefused, r"script refused: act (\d+)",
         "{file}: refused, {act_name} (docs/REFUSALS.md#when-a-script-is-refused)", ("act",),
         "{file}: {sentence} (docs/REFUSALS.md#when-a-script-is-refused)"),
    Form(ActRefused, r"act refused: (\d+)",
         "{file}: act {act}, counted from 0, can't be done in the tree of branches as it then stands "
         "(docs/REFUSALS.md#when-a-script-is-refused)", ("act",),
         "{file}: {sentence} (docs/REFUSALS.md#when-a-script-is-refused)"),
)}
NUMBERS = {"rule", "place", "last", "record", "reason", "offset", "branch", "reference", "act"}


@dataclass(frozen=True)
class Context:
    """What is known of a run that failed.

    words: what the program was given. program: its path. names: for each path that it was given in place of another,
    that other one. subject: the file of which a refusal speaks. folder: from where it looked for files, None for the
    working folder. sentence: says more of an error, where something is known.
    """

    words: list[str]
    program: str = ""
    names: Mapping[str, str] = field(default_factory=dict)
    subject: str | None = None
    folder: Path | None = None
    sentence: Callable[[ProgramError], str] | None = None

    def file(self, name: str) -> str:
        """The path that a line names, as the caller knows it."""
        if name in self.names:
            return self.names[name]
        return name if self.folder is None else str(self.folder / name)


def error_of(status: int, stderr: bytes, context: Context) -> ProgramError:
    """The error for a status that is not 0, from what the program said."""
    line = stderr.decode("utf-8", "surrogateescape").removesuffix("\n")
    form = FORMS.get(status)
    match = re.fullmatch(form.pattern, line, re.DOTALL) if form is not None else None
    if form is None or match is None:
        return ended_otherwise(status, line, context)
    found: dict[str, str | int] = {
        name: int(text) if name in NUMBERS else text for name, text in zip(form.names, match.groups())}
    named = found.pop("file", None)
    file = context.subject if named is None else context.file(str(named))
    error = form.error("", status, line, file)
    error.__dict__.update(found)
    error.sentence = sentence_of(error, context)
    text = form.explained if error.sentence and form.explained else form.text
    error.args = (text.format(**found, file=file, words=" ".join(context.words), program=context.program,
                              sentence=error.sentence, **details(error)),)
    return error


def sentence_of(error: ProgramError, context: Context) -> str:
    """What is known of an error beyond its line."""
    if isinstance(error, (NoSuchFile, ReadFailed)) and error.file is not None:
        from biqsolur.file_faults import read_fault
        return read_fault(error.file) or ""
    return context.sentence(error) if context.sentence is not None else ""


def details(error: ProgramError) -> dict[str, str]:
    """What a text says in words of an error's numbers."""
    if isinstance(error, BadBundle):
        return {"fault": BUNDLE_FAULTS.get(error.reason, "reason {reason}").format(**vars(error))}
    if isinstance(error, AuditFailed):
        return {"order": f"the order with the reference {error.reference}" if error.reference else
                "a trading state, or the order of the list,"}
    if isinstance(error, ScriptRefused):
        return {"act_name": "as a whole it is no list of 1 to 64 acts" if error.act == 64 else
                f"act {error.act}, counted from 0"}
    return {}


def ended_otherwise(status: int, line: str, context: Context) -> ProgramError:
    """The error for an end that the program itself never comes to."""
    said = f", and said {line[:300]!r}" if line else ""
    if status < 0:
        try:
            name = signal.Signals(-status).name
        except ValueError:
            name = f"signal {-status}"
        why = " (where nobody ended it, the system was out of memory)" if -status == signal.SIGKILL else ""
        text = (f"the program was ended by {name}{why} while it did {' '.join(context.words)!r}{said}; nothing of its "
                "output was kept")
    else:
        text = (f"{context.program} ended with status {status}{said}, which no program of this version does; name "
                "another one in BIQSOLUR_PROGRAM, or unset it")
    return ProgramKilledError(text, status, line)
