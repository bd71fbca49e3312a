"""The stored runs over the program: the cases of crates/study_cases, and the examples against their sums.

    python3 python/tests/stored.py PROGRAM [--write]

needs nothing but Python itself, and writes a line for each run that ended otherwise. With `--write` the sums of the
examples, examples/SHA256SUMS, are made anew from what the program writes now.

A case is a line of crates/study_cases/data/*.tsv, and crates/study_cases/stdout has how it ended: name, status (of a
refused study with its rule and place), counted steps, size and sum of the output's bytes, and the text of output and note.
The steps are known inside the program alone. A line of examples/SHA256SUMS is a sum, two blanks, and the words.
"""

from __future__ import annotations

import hashlib
import re
import subprocess
import sys
import tempfile
from collections.abc import Iterator
from concurrent.futures import ThreadPoolExecutor
from dataclasses import dataclass
from functools import cache
from pathlib import Path

ROOT = Path(__file__).resolve().parent.parent.parent
CASES = ROOT / "crates" / "study_cases"
DATA = CASES / "data"
EXAMPLES = ROOT / "examples"
SUMS = EXAMPLES / "SHA256SUMS"
FILES = ("cases.tsv", "drawn.tsv", "times.tsv")
NOTE = 100                      # the bytes of a note that the stored runs have at most
REFUSED = re.compile(rb"study refused: rule (\d+), place (\d+)\n")


@dataclass(frozen=True)
class Case:
    """One run of the stored ones: its words, and the study `s` and the file `t`.

    Each of the two is its bytes, or its name in the data. `failing` is the number of the read that fails, 0 where none does; `changes` are those of both files.
    """

    name: str
    words: tuple[str, ...]
    study: str | bytes
    series: str | bytes
    failing: int = 0
    changes: tuple[str, ...] = ()

    @property
    def group(self) -> str:
        """The first word of the name: cases of one kind have it in common."""
        return self.name.split(" ")[0]


def unfolded(column: str) -> bytes:
    """A text as a column says it."""
    return column.replace("\\n", "\n").replace("\\r", "\r").encode()


def changed(given: str | bytes, changes: tuple[str, ...]) -> bytes:
    """The bytes of a file with changes: what is taken out, how often the other text stands there, that text."""
    bytes_ = given if isinstance(given, bytes) else (DATA / given).read_bytes()
    for number in range(0, len(changes), 3):
        old, times, new = changes[number:number + 3]
        at = bytes_.find(text := unfolded(old))
        if at >= 0:
            bytes_ = bytes_[:at] + unfolded(new) * int(times) + bytes_[at + len(text):]
    return bytes_


def case_of(line: str) -> Case:
    """The case of a line of a file of cases."""
    name, words, study, series, failing, *changes = line.split("\t")
    given = tuple(words.split(" ")) if words else ()
    return Case(name, given, study, series, int(failing), tuple(changes))


def each_byte() -> Iterator[Case]:
    """A small study cut after each byte, and with the lowest bit of each byte turned."""
    whole = (DATA / "small.toml").read_bytes()
    for length in range(len(whole) + 1):
        yield Case(f"cut {length}", ("run", "s"), whole[:length], b"")
    for place in range(len(whole)):
        yield Case(f"turned {place}", ("run", "s"), whole[:place] + bytes([whole[place] ^ 1]) + whole[place + 1:], b"")


@cache
def cases() -> list[Case]:
    """All cases, in the order of the stored runs."""
    lines = [line for name in FILES for line in (DATA / name).read_bytes().decode().split("\n")]
    return [case_of(line) for line in lines if line and not line.startswith("#")] + list(each_byte())


def lay(case: Case, folder: Path) -> None:
    """Writes the files of a case. A read that fails is that of a folder."""
    for number, (name, given) in enumerate((("s", case.study), ("t", case.series)), 1):
        if number == case.failing:
            (folder / name).mkdir()
        else:
            (folder / name).write_bytes(changed(given, case.changes))


def ended(program: str, case: Case) -> bytes:
    """How the program ends a case, as the stored runs have it, with 0 for the counted steps."""
    with tempfile.TemporaryDirectory(prefix="biqsolur-case-") as name:
        lay(case, Path(name))
        answer = subprocess.run([program, *case.words], cwd=name, stdin=subprocess.DEVNULL, capture_output=True)
    refused = REFUSED.fullmatch(answer.stderr)
    status = b"%d" % answer.returncode + (b" %s %s" % refused.groups() if refused else b"")
    text = shown(answer.stdout) + shown(answer.stderr[:NOTE])
    sums = b"%d\t%d" % (len(answer.stdout), sum(answer.stdout))
    return b"%s\t%s\t0\t%s%s%s" % (case.name.encode(), status, sums, b"\t" if text else b"\n", text)


def shown(bytes_: bytes) -> bytes:
    """Bytes as text; none of those that are no text, or have a zero byte."""
    try:
        bytes_.decode()
    except UnicodeDecodeError:
        return b""
    return b"" if b"\0" in bytes_ else bytes_


@cache
def stored() -> dict[str, bytes]:
    """How each case ended, by its name, as the stored runs have it, with 0 for the counted steps."""
    names = [case.name for case in cases()]
    content = (CASES / "stdout").read_bytes()
    starts, at = [], 0
    for name in names:
        at = content.index(b"\n%s\t" % name.encode(), at) + 1
        starts.append(at)
    parts = [content[start:end] for start, end in zip(starts, [*starts[1:], len(content)], strict=True)]
    steps = re.compile(rb"^([^\t]*\t[^\t]*)\t\d+\t")
    return {name: steps.sub(rb"\1\t0\t", part) for name, part in zip(names, parts, strict=True)}


def stored_head() -> bytes:
    """What the stored runs have before their first case: three command lines over the system's own files."""
    content = (CASES / "stdout").read_bytes()
    return content[:content.index(b"\n" + cases()[0].name.encode() + b"\t") + 1]


def head(program: str) -> bytes:
    """The same of the program: a line with a word that is no text, a table, and a study that isn't there."""
    lines = [[b"run", b"\xff"], ["table", "fees.toml"], ["run", "missing.toml"]]
    answers = [subprocess.run([program, *line], cwd=DATA, capture_output=True) for line in lines]
    return b"".join(answer.stdout + answer.stderr for answer in answers)


def faults(program: str, some: list[Case]) -> list[str]:
    """A line for each of these cases that ends otherwise than it did."""
    before = stored()
    with ThreadPoolExecutor(4) as several:
        now = several.map(lambda case: ended(program, case), some)
        return [f"{case.name}: {got!r} in place of {before[case.name]!r}"
                for case, got in zip(some, now, strict=True) if got != before[case.name]]


def listed() -> dict[str, str]:
    """The words of each example with the sum of what they write."""
    lines = SUMS.read_text().splitlines()
    return {words: sum_ for sum_, words in (line.split("  ", 1) for line in lines)}


def example_sum(program: str, words: str) -> str:
    """The sum of what the program writes for these words, or how it ended where not well."""
    answer = subprocess.run([program, *words.split(" ")], cwd=ROOT, stdin=subprocess.DEVNULL, capture_output=True)
    if answer.returncode or answer.stderr:
        return f"status {answer.returncode}, {answer.stderr.decode(errors='replace').strip()}"
    return hashlib.sha256(answer.stdout).hexdigest()


def example_words() -> list[str]:
    """What is run of the examples: each study by three commands, and those of the files that go with one."""
    studies = [path.name for path in sorted(EXAMPLES.glob("*.toml")) if path.name != "session.toml"]
    words = [f"{command} examples/{study}" for study in studies for command in ("check", "run", "table")]
    return [*words, "rewind examples/tick_size.toml root:0 wide:5000 same:10000",
            "session examples/tick_size.toml examples/session.toml",
            "cross examples/halt.toml root:5000 ABM examples/reopening.csv"]


def write(program: str) -> None:
    """Makes the sums of the examples anew, where all of them end well."""
    sums = {words: example_sum(program, words) for words in example_words()}
    bad = [f"{words}: {sum_}" for words, sum_ in sums.items() if sum_.startswith("status")]
    if bad:
        raise SystemExit("\n".join(bad))
    SUMS.write_text("".join(f"{sum_}  {words}\n" for words, sum_ in sums.items()))


def main(program: str) -> int:
    """Runs everything; the status is 1 where something ended otherwise."""
    sums = listed()
    wrong = [f"{words}: {got} in place of {sums.get(words)}" for words in example_words()
             if (got := example_sum(program, words)) != sums.get(words)]
    wrong += faults(program, cases())
    if head(program) != stored_head():
        wrong.append("the three command lines over the system's own files")
    for line in wrong:
        print(line)
    print(f"stored runs: {len(cases()) + len(sums) + 1 - len(wrong)} passed, {len(wrong)} failed")
    return 1 if wrong else 0


if __name__ == "__main__":
    if "--write" in sys.argv[2:]:
        write(sys.argv[1])
    sys.exit(main(sys.argv[1]))
