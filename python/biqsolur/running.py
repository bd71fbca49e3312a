"""Running the program: each command as a function, its answer as data frames, and an error of its own for each status.

    bundle = biqsolur.run("examples/tick_size.toml", workers=4)
    biqsolur.table(study)
    biqsolur.rewind(study, [("wide", 5000), ("root", 0)])["wide", 5000].closing.orders
    biqsolur.cross(study, "root", 5000, "ABM", [(3, "B", 500, "50.10")])
    biqsolur.session(study, [acts.Values("wide"), acts.Undo()])
    biqsolur.audit(bundle)

A study is a Study, a path, a text of TOML or a dict. The program gets studies, orders and scripts from memory, so
nothing is written but a bundle, which goes to the cache or to a temporary file, and stands there only once it is whole.
An interrupt ends the program. All of this may be called from several threads and processes at once.
"""

from __future__ import annotations

import contextlib
import os
import re
import signal
import subprocess
import threading
import time
from collections.abc import Callable, Iterable, Iterator, Mapping, Sequence
from dataclasses import dataclass, replace
from functools import cached_property
from numbers import Integral
from pathlib import Path
from typing import TYPE_CHECKING, Any, NamedTuple, Union

from biqsolur.errors import RunError, StudyError
from biqsolur.program import Program, environment, kit, program_of, version
from biqsolur.statuses import (
    ActRefused, Context, NoSuchBranch, NoSuchEvent, NoSuchFile, NoSuchStock, OrdersRefused, OtherProgramError, ProgramError,
    ProgramMissingError, ScriptRefused, StudyRefused, WriteFailed, error_of)

if TYPE_CHECKING:
    import pandas

    from biqsolur.acts import Act
    from biqsolur.bundle import Bundle
    from biqsolur.crosses import Cross
    from biqsolur.provenance import Provenance
    from biqsolur.rewinds import Rewind
    from biqsolur.sessions import Session
    from biqsolur.study import Study

AnyStudy = Union["Study", str, "os.PathLike[str]", Mapping[str, Any]]
AnyProgram = Union[str, "os.PathLike[str]", None]

MOST_WORKERS = 64
MOST_TARGETS = 64
MOST_BYTES = 16_777_216         # of a study
PROGRESS_SECONDS = 0.2          # between two words of progress
TOLD = ("run", "table", "rewind", "cross", "session")
AnyProgress = Union[bool, Callable[[int], object], None]
ACCEPTED = r"accepted: agents (\d+), stocks (\d+), branches (\d+), segments (\d+)\n"
IN_MEMORY = re.compile(r"/proc/self/fd/\d+")
AUDITED = r"audit ok: branches (\d+), orders (\d+)\n"


class Answer(NamedTuple):
    """What a run of the program ended with: its status (minus a signal's number where one ended it), and what it
    wrote."""

    status: int
    stdout: bytes
    stderr: bytes


@dataclass(frozen=True)
class Counts:
    """What `check` says of a study: agents with the exchange, stocks, branches with the root, segments."""

    agents: int
    stocks: int
    branches: int
    segments: int


@dataclass(frozen=True)
class Audit:
    """What `audit` says of a bundle whose closings are those that its feed tells: branches, and displayed orders in
    all."""

    branches: int
    orders: int


# ---------------------------------------------------------------- the process

def run_bytes(*words: str | os.PathLike[str], program: AnyProgram = None,
              folder: str | os.PathLike[str] | None = None) -> Answer:
    """Runs the program with these words as they are, in `folder` (else the working folder), and gives what it wrote.

    No status is an error here. An interrupt ends the program. Raises ProgramMissingError.
    """
    return ended(program_of(program), [os.fspath(word) for word in words], folder, subprocess.PIPE)


def ended(program: Program, words: list[str], folder: str | os.PathLike[str] | None, output: int,
          descriptors: Sequence[int] = (), watch: Callable[[], None] | None = None) -> Answer:
    """Starts the program and waits until it has ended; `watch` is called now and then while it runs.

    output: a descriptor to write to, or subprocess.PIPE. descriptors: those that the program inherits.
    """
    process = None
    try:
        with interrupts_held():
            process = started(program, words, folder, output, descriptors)
        while True:
            try:
                stdout, stderr = process.communicate(timeout=None if watch is None else PROGRESS_SECONDS)
                return Answer(process.returncode, stdout or b"", stderr)
            except subprocess.TimeoutExpired:
                if watch is not None:
                    watch()
    finally:
        if process is not None:
            end(process)


def end(process: subprocess.Popen[bytes]) -> None:
    """Ends the program where it still runs, and closes its pipes."""
    if process.returncode is None:
        process.kill()
        process.wait()
    for pipe in (process.stdout, process.stderr):
        if pipe is not None:
            pipe.close()


@contextlib.contextmanager
def interrupts_held() -> Iterator[None]:
    """Holds an interrupt back until the block is done, so that none comes between the start of a program and the moment
    at which it is known. Python tells its main thread alone of signals."""
    if threading.current_thread() is not threading.main_thread():
        yield
        return
    held: list[int] = []
    before = signal.signal(signal.SIGINT, lambda number, frame: held.append(number))
    try:
        yield
    finally:
        signal.signal(signal.SIGINT, signal.SIG_DFL if before is None else before)
        if held:
            signal.raise_signal(signal.SIGINT)


def started(program: Program, words: list[str], folder: str | os.PathLike[str] | None, output: int,
            descriptors: Sequence[int]) -> subprocess.Popen[bytes]:
    """The program, started in a folder. Raises RunError and ProgramMissingError."""
    try:
        return subprocess.Popen([program.path, *words], stdin=subprocess.DEVNULL, stdout=output, stderr=subprocess.PIPE,
                                cwd=folder, env=environment(), pass_fds=descriptors)
    except ValueError:
        raise RunError(f"the words {words!r} have a zero byte, which no word of a command can have") from None
    except OSError as error:
        if folder is not None and not os.path.isdir(folder):
            raise RunError(f"the folder {os.fspath(folder)}, from which the study's series file is looked for, is not "
                           "there: make the study anew, or give it another folder") from None
        raise ProgramMissingError(f"{program.path} can't be started: {error.strerror}") from None


class Words:
    """The words of a command, of which some are files in memory, under the names that the caller knows them by."""

    def __init__(self, stack: contextlib.ExitStack, *words: str) -> None:
        self.stack, self.words = stack, list(words)
        self.descriptors: list[int] = []
        self.names: dict[str, str] = {}

    def add_file(self, data: bytes, name: str) -> None:
        """Adds a file with these bytes, which the program reads as it reads any other."""
        descriptor = os.memfd_create("biqsolur", os.MFD_CLOEXEC)
        self.stack.callback(os.close, descriptor)
        view = memoryview(data)
        while view:
            view = view[os.write(descriptor, view):]
        word = f"/proc/self/fd/{descriptor}"
        self.descriptors.append(descriptor)
        self.names[word] = name
        self.words.append(word)


# ---------------------------------------------------------------- the study

@dataclass(frozen=True)
class Given:
    """A study as the program is to read it.

    data: its bytes. name: its path, or "the study". folder: from where its series file is looked for, None for the
    working folder. read: whether Python could read it too (the program reads TOML 1.1); else `series` is not known.
    """

    data: bytes
    name: str
    folder: Path | None
    series: Path | None
    read: bool

    @cached_property
    def study(self) -> Study:
        """The study as an object. Raises StudySyntaxError where Python can't read it."""
        from biqsolur.study import Study
        return Study.from_text(self.data.decode("utf-8"), self.folder)

    def known_study(self) -> Study | None:
        """The same, or None."""
        with contextlib.suppress(StudyError, UnicodeDecodeError):
            return self.study
        return None

    def table(self) -> dict[str, Any] | None:
        """The study's table, with a path of its series file that holds from here; None where Python can't read it."""
        study = self.known_study()
        if study is None:
            return None
        table = study.to_dict()
        if self.series is not None:
            table["series"] = str(self.series)
        return table

    def sentence(self, error: ProgramError) -> str:
        """What is wrong with the study, or what it has of that which was asked for."""
        from biqsolur.study_rules import explain
        from biqsolur.toml_faults import no_toml
        if isinstance(error, StudyRefused):
            return no_toml(self.data) if error.rule == 0 else explain(self.table(), error.rule, error.place)
        study = self.known_study()
        if study is not None and isinstance(error, NoSuchBranch):
            return f"there are {', '.join(study.branches)}"
        return f"there are {', '.join(study.symbols)}" if study is not None and isinstance(error, NoSuchStock) else ""


def given_study(study: AnyStudy) -> Given:
    """What the program is to read, of a Study, path, text or dict. Raises NoSuchFile or ReadFailed for a path."""
    from biqsolur.study import Study
    if isinstance(study, os.PathLike) or isinstance(study, str) and "\n" not in study:
        return study_of_path(os.fspath(study))
    if isinstance(study, str):
        return study_of_data(study.encode("utf-8", "surrogatepass"), "the study", None)
    known = study if isinstance(study, Study) else Study(study)
    return given_object(known)


def given_object(study: Study) -> Given:
    """What the program is to read of a Study."""
    return Given(study.to_text().encode(), "the study", study.folder, study.series_path, True)


def study_of_path(path: str) -> Given:
    """What the program is to read of a study's file."""
    return study_of_data(file_data(path), path, Path(path))


def file_data(path: str | os.PathLike[str]) -> bytes:
    """The bytes of a study, script or file of orders, at most one more than it may have. Raises NoSuchFile or
    ReadFailed, with the line that the program has for it."""
    try:
        with open(path, "rb") as file:
            return file.read(MOST_BYTES + 1)
    except (OSError, ValueError) as error:      # a ValueError where the path has a zero byte
        raise unread(path, error) from None


def unread(path: str | os.PathLike[str], error: Exception) -> ProgramError:
    """The error for a file that can't be read: NoSuchFile or ReadFailed, with the line that the program has for it."""
    status, line = (6, "read failed") if isinstance(error, OSError) and not isinstance(error, FileNotFoundError) \
        else (3, "no such file")
    return error_of(status, os.fsencode(f"{line}: {os.fspath(path)}\n"), Context([]))


def study_of_data(data: bytes, name: str, path: Path | None) -> Given:
    """What the program is to read of a study's bytes."""
    from biqsolur.study import Study, series_folder
    if len(data) > MOST_BYTES:
        return Given(data, name, None, None, False)
    try:
        study = Study.from_text(data.decode("utf-8"))
    except (StudyError, UnicodeDecodeError):
        return Given(data, name, None, None, False)
    series = study.to_dict().get("series")
    folder = series_folder(series, path)
    return Given(data, name, folder, (folder or Path()) / series if isinstance(series, str) else None, True)


def workers_words(workers: int) -> list[str]:
    """The option of how many workers simulate."""
    if isinstance(workers, bool) or not isinstance(workers, Integral) or not 1 <= workers <= MOST_WORKERS:
        raise RunError(f"workers = {workers!r}: give a whole number from 1 to {MOST_WORKERS}")
    return ["--workers", str(int(workers))]


# ---------------------------------------------------------------- commands

@contextlib.contextmanager
def command(name: str, study: AnyStudy | Given, program: AnyProgram, *options: str) -> Iterator[tuple[Call, Words]]:
    """A command on a study, whose words are completed by the caller."""
    given = study if isinstance(study, Given) else given_study(study)
    with contextlib.ExitStack() as stack:
        words = Words(stack, *options, name, "--")
        words.add_file(given.data, given.name)
        yield Call(given, program_of(program), words), words


@dataclass
class Call:
    """A command on a study, ready to run. subject: the file of which a refusal speaks, where it isn't the study. more:
    says what is wrong with that file."""

    given: Given
    program: Program
    words: Words
    subject: str | None = None
    more: Callable[[ProgramError], str] | None = None

    def output(self, progress: AnyProgress = None) -> bytes:
        """What the program writes, which comes at its end. Raises the error of its status."""
        with Progress(progress, None, self.words.words) as watch:
            return self.end(subprocess.PIPE, watch).stdout

    def end(self, output: int, watch: Callable[[], None] | None = None) -> Answer:
        """Runs it; raises the error of its status."""
        descriptors = [*self.words.descriptors, *of(output)]
        answer = ended(self.program, self.words.words, self.given.folder, output, descriptors, watch)
        if answer.status:
            raise self.error(answer)
        return answer

    def error(self, answer: Answer) -> ProgramError:
        """The error of a status."""
        names = self.words.names
        subject = self.given.name if answer.status in OF_STUDY or self.subject is None else self.subject
        shown = [names.get(word, word) for word in self.words.words]
        return error_of(answer.status, answer.stderr,
                        Context(shown, str(self.program.path), names, subject, self.given.folder, self.sentence))

    def sentence(self, error: ProgramError) -> str:
        """What is known of an error beyond its line."""
        return (self.more(error) if self.more is not None else "") or self.given.sentence(error)


OF_STUDY = [error.STATUS for error in (StudyRefused, NoSuchBranch, NoSuchEvent, NoSuchStock)]


def of(output: int) -> list[int]:
    """The descriptor of an output that is none of subprocess's own numbers."""
    return [output] if output >= 0 else []


def check(study: AnyStudy, *, program: AnyProgram = None) -> Counts:
    """Asks whether the program accepts a study; nothing is simulated. Raises StudyRefused with rule, place and
    sentence."""
    with command("check", study, program) as (call, _):
        return Counts(*line_of(call.output(), ACCEPTED, call.program))


def line_of(output: bytes, pattern: str, program: Program) -> list[int]:
    """The numbers of a line that the program writes."""
    match = re.fullmatch(pattern.encode(), output)
    if match is None:
        raise OtherProgramError(f"{program.path} wrote {output[:200]!r}, which no program of this version does")
    return [int(number) for number in match.groups()]


def table(study: AnyStudy, workers: int = 1, *, program: AnyProgram = None,
          progress: AnyProgress = None) -> pandas.DataFrame:
    """The comparison table: a row a branch, columns as of `read_table`.

    progress, here and in `rewind`, `cross` and `session`: True for a line on standard error while it runs, or a
    function that is called every fifth of a second with 0, since all of the answer comes at the end.
    """
    from biqsolur.tables import read_table
    with command("table", study, program, *workers_words(workers)) as (call, _):
        return read_table(call.output(progress))


def rewind(study: AnyStudy, targets: Iterable[tuple[str, int]], workers: int = 1, *,
           program: AnyProgram = None, progress: AnyProgress = None) -> Rewind:
    """The states of branches after events, for 1 to 64 pairs (branch, event) in any order: rewind(...)["wide", 5000].

    Raises NoSuchBranch and NoSuchEvent, and RunError where there are too many pairs or one is none.
    """
    from biqsolur.rewinds import read_rewind
    given = given_study(study)
    with command("rewind", given, program, *workers_words(workers)) as (call, words):
        words.words += [target_word(branch, event) for branch, event in pairs_of(targets)]
        output = call.output(progress)
    return read_rewind(output, given.known_study())


def pairs_of(targets: Iterable[tuple[str, int]]) -> list[tuple[str, int]]:
    """The pairs of a rewind, each once."""
    pairs: list[tuple[str, int]] = []
    if not isinstance(targets, Iterable):
        raise RunError(f"{targets!r} are no states: give a list of pairs of a branch and an event, [(\"wide\", 5000)]")
    for target in targets:
        if not isinstance(target, (tuple, list)) or len(target) != 2:
            raise RunError(f"{target!r} is no pair of a branch and an event, as (\"wide\", 5000) is")
        pairs.append((target[0], target[1]))
    pairs = list(dict.fromkeys(pairs))
    if not 1 <= len(pairs) <= MOST_TARGETS:
        raise RunError(f"there are {len(pairs)} states to rewind to; one rewind has 1 to {MOST_TARGETS}: make several")
    return pairs


def target_word(branch: str, event: int) -> str:
    """A state as the program's words name it."""
    if not isinstance(event, Integral) or isinstance(event, bool) or not 0 <= event <= 9_999_999:
        raise RunError(f"{event!r} is no event number: give a whole number from 0 on, 0 for the state before the first "
                       "event")
    if not isinstance(branch, str) or "\0" in branch:
        raise RunError(f"{branch!r} is no branch's name")
    return f"{branch}:{int(event)}"


def cross(study: AnyStudy, branch: str, event: int, symbol: str, orders: object, workers: int = 1, *,
          program: AnyProgram = None, progress: AnyProgress = None) -> Cross:
    """At which price a stock would reopen in the state of a branch after an event, if these orders joined its book.

    orders: the path of a file of docs/FORMATS.md#the-file-of-a-cross, its text, a data frame with its columns, or a
    list of (trader, side, shares, price), (trader, `ouch.Enter`) or `ouch.Enter`. Raises NoSuchBranch, NoSuchEvent,
    NoSuchStock and OrdersRefused.
    """
    from biqsolur.crosses import orders_data, read_cross
    given, (data, name) = given_study(study), orders_data(orders, symbol)
    with command("cross", given, program, *workers_words(workers)) as (call, words):
        words.words += [target_word(branch, event), plain_word(symbol, "symbol")]
        words.add_file(data, name)
        call.subject, call.more = name, lambda error: orders_fault(error, data, given)
        output = call.output(progress)
    return read_cross(output, data, lambda: rewind_of(given, branch, event, workers, program))


def orders_fault(error: ProgramError, data: bytes, given: Given) -> str:
    """What is wrong with a file of orders."""
    from biqsolur.order_rules import explain_orders
    return explain_orders(data, error.record, given.table()) if isinstance(error, OrdersRefused) else ""


def script_fault(error: ProgramError, data: bytes, given: Given) -> str:
    """What is wrong with a script."""
    from biqsolur.script_rules import explain_no_event, explain_script
    if isinstance(error, (ScriptRefused, ActRefused)):
        return explain_script(data, error.status, error.act, given.table()).removeprefix("the script: ")
    if isinstance(error, NoSuchEvent) and (match := re.fullmatch(r"act (\d+)", error.word)):
        return explain_no_event(data, int(match[1]), error.last)
    return ""


def rewind_of(given: Given, branch: str, event: int, workers: int, program: AnyProgram) -> Rewind:
    """The state of a cross."""
    from biqsolur.rewinds import read_rewind
    with command("rewind", given, program, *workers_words(workers)) as (call, words):
        words.words.append(target_word(branch, event))
        return read_rewind(call.output(), given.known_study())


def plain_word(text: object, what: str) -> str:
    """A text that can be a word of a command."""
    if not isinstance(text, str) or "\0" in text:
        raise RunError(f"{text!r} is no {what}")
    return text


def session(study: AnyStudy, script: str | os.PathLike[str] | Iterable[Act], workers: int = 1, *,
            program: AnyProgram = None, progress: AnyProgress = None) -> Session:
    """The answers to the acts of a script, over the study's tree of branches: a path, a text of TOML, or a list of acts
    of `biqsolur.acts` (`Fork`, `Undo`, `EditBranch`, `StateAt`, `Close`, `Values`). Raises ScriptRefused, ActRefused
    and NoSuchEvent."""
    from biqsolur.acts import script_data
    from biqsolur.sessions import read_session
    given, (data, name) = given_study(study), script_data(script)
    with command("session", given, program, *workers_words(workers)) as (call, words):
        words.add_file(data, name)
        call.subject, call.more = name, lambda error: script_fault(error, data, given)
        output = call.output(progress)
    return read_session(output, data, given.known_study())


def audit(bundle: Bundle | str | os.PathLike[str], *, program: AnyProgram = None) -> Audit:
    """Asks whether each closing of a bundle is what the branch's feed tells. Raises BadBundle and AuditFailed."""
    which = program_of(program)
    if not isinstance(bundle, (str, os.PathLike)) and not hasattr(bundle, "frames"):
        raise RunError(f"{bundle!r} is no bundle: give one of biqsolur.run or biqsolur.read, or the path of one")
    name = plain_word(os.fspath(bundle) if isinstance(bundle, (str, os.PathLike)) else bundle.path, "path")
    answer = run_bytes("audit", "--", name, program=which.path)
    if answer.status == NoSuchFile.STATUS and not isinstance(bundle, (str, os.PathLike)):
        answer = audit_of_bytes(bundle, which)
    if answer.status:
        named = {word: name for word in IN_MEMORY.findall(answer.stderr.decode("utf-8", "replace"))}
        raise error_of(answer.status, answer.stderr, Context(["audit", name], str(which.path), named, name))
    return Audit(*line_of(answer.stdout, AUDITED, which))


def audit_of_bytes(bundle: Bundle, program: Program) -> Answer:
    """The audit of a bundle whose file is gone, as the cache gave it up: its bytes are still mapped."""
    with contextlib.ExitStack() as stack:
        words = Words(stack, "audit", "--")
        words.add_file(bundle.frames.raw.data, bundle.path)
        answer = ended(program, words.words, None, subprocess.PIPE, words.descriptors)
    return answer


# ---------------------------------------------------------------- bundles

def run(study: AnyStudy, workers: int = 1, *, program: AnyProgram = None, cache: bool = True,
        progress: AnyProgress = None) -> Bundle:
    """Runs a study and gives its bundle, with `bundle.provenance` and `bundle.study`.

    workers: 1 to 64 threads, which change no byte. cache: whether the bundle is looked for in the cache and kept there.
    progress: True for a line on standard error while it runs, or a function that is told every fifth of a second how
    many bytes of the bundle are written; most come at the end of the simulation. An interrupt ends the program and
    leaves no file.

    Raises StudyRefused, NoSuchFile (also for a series file), FileTooLong, ReadFailed, WriteFailed, OutOfMemory.
    """
    from biqsolur import cache as caches
    given = given_study(study)
    options, which = workers_words(workers), program_of(program)
    limit = caches.cache_limit() if cache and given.read else 0
    folder = caches.cache_folder() if limit else None
    series = sum_of_series(given)
    key = caches.key_of(given.data, series.encode(), which.sum.encode(), which.found.encode(), version().encode())
    kept = caches.kept_bundle(folder, key) if folder is not None else None
    if kept is not None and kept.provenance is not None:
        kept.ran_as(replace(kept.provenance, folder=folder_text(given)))
        return kept
    with command("run", given, program, *options) as (call, _), caches.part_for(limit) as (part, folder):
        begun, clock = time.time(), time.monotonic()
        with Progress(progress, part.descriptor, ["run"]) as watch:
            call.subject, call.more = str(part.path), lambda error: write_sentence(error, part.path)
            call.end(part.descriptor, watch)
        bundle = written_bundle(part.path, which)
        record = record_of_run(given, series, which, workers, bundle, begun, time.monotonic() - clock)
        if sum_of_series(given) != series or len(bundle.frames.raw) > limit:
            folder = None       # what the program read isn't known, or it is too much for the cache
        caches.keep(folder, key, part, bundle, record, limit)
    return bundle


def write_sentence(error: ProgramError, part: Path) -> str:
    """Why a bundle could not be written."""
    from biqsolur.file_faults import write_fault
    return write_fault(str(part)) if isinstance(error, WriteFailed) else ""


def written_bundle(part: Path, program: Program) -> Bundle:
    """The bundle that the program has just written."""
    from biqsolur.bundle import read
    from biqsolur.errors import BundleError
    try:
        return read(part)
    except BundleError as error:
        raise OtherProgramError(f"{program.path} wrote no bundle (at byte {error.offset}: {error.cause}), which no "
                                "program of this version does") from None


def record_of_run(given: Given, series: str, program: Program, workers: int, bundle: Bundle, begun: float,
                  seconds: float) -> Provenance:
    """The record of a run."""
    from biqsolur.provenance import Provenance, moment_text, sum_of_bundle
    return Provenance(
        given.data.decode("utf-8", "replace"), folder_text(given), series or None, version(), kit(), program.sum,
        program.found, moment_text(begun), round(seconds, 6), int(workers), len(bundle.frames.raw), sum_of_bundle(bundle))


def folder_text(given: Given) -> str | None:
    """From where the series file of a study is looked for, as a record has it."""
    return None if given.folder is None else str(given.folder.absolute())


def sum_of_series(given: Given) -> str:
    """SHA-256 of a study's series file; "" where the study names none, or it can't be read."""
    import hashlib
    if given.series is None or not given.series.is_file():
        return ""
    try:
        with open(given.series, "rb") as file:
            return hashlib.sha256(file.read(MOST_BYTES + 1)).hexdigest()
    except OSError:
        return ""


class Progress:
    """Tells how far a command is: `with Progress(...) as watch` gives what is to be called now and then, or None.

    descriptor: of the file that it writes, None where its output comes at the end. words: of the program, one of which
    is the command.
    """

    def __init__(self, told: AnyProgress, descriptor: int | None, words: Sequence[str]) -> None:
        self.told, self.descriptor, self.begun = told, descriptor, time.monotonic()
        self.name = next((word for word in words if word in TOLD), "abides")
        self.line = ""

    def __enter__(self) -> Callable[[], None] | None:
        return self.watch if self.told else None

    def __exit__(self, *error: object) -> None:
        if callable(self.told) and error[0] is None:
            self.watch()
        elif self.line:
            self.write(" " * len(self.line) + "\r")

    def watch(self) -> None:
        """Tells once."""
        size = 0 if self.descriptor is None else os.fstat(self.descriptor).st_size
        if callable(self.told):
            self.told(size)
        else:
            written = "" if self.descriptor is None else f", {size / 1e6:.1f} MB written"
            self.line = f"abides {self.name}: {time.monotonic() - self.begun:.0f} s{written}"
            self.write(self.line + "\r")

    def write(self, text: str) -> None:
        """Writes to standard error."""
        import sys
        print(text, end="", file=sys.stderr, flush=True)
