"""`why`: what is wrong with a file that the program refused, in a sentence: a study, orders, a script or a bundle.

What a file is, its content tells. The program is asked for the rule and the place; it alone decides. The file is then
looked at once more here, by Python's own readers, without numpy. Where the study is not given that a script or orders
go with, only what they show alone is told. """

from __future__ import annotations

import argparse
import re
import subprocess
import sys
import tomllib
from pathlib import Path

from biqsolur import file_faults, order_rules, script_rules
from biqsolur.errors import InputError
from biqsolur.study_rules import explain
from biqsolur.toml_faults import no_toml

HEAD = 1 << 16              # bytes from which the kind of a file is told
REFUSED = re.compile(r"study refused: rule (\d+), place (\d+)")
BAD_RECORD = re.compile(r"orders refused: record (\d+)")
BAD_ACT = re.compile(r"(?:script refused: act|act refused:) (\d+)")
NO_EVENT = re.compile(r"no event: act (\d+), last event (\d+)")
BAD_BUNDLE = re.compile(r"bad bundle: ([123]) at (\d+)")
BAD_AUDIT = re.compile(r"audit failed: branch (\d+), reference (\d+)")
FILE_LINES = re.compile(r"(?:no such file|file too long|read failed): (.*)", re.DOTALL)
KEY_LINE = re.compile(r"^\s*(?:\[\[?\s*)?([A-Za-z_]+)\s*(?:\]\]?|=)", re.MULTILINE)
OUTPUTS = {"b": "what `rewind` or `session` writes", "v": "what `session` writes", "z": "what `session` writes",
           "H": "what `cross` writes"}
NO_STUDY_GIVEN = "its study was not given, so only what it shows alone was looked at: why {} --study STUDY tells more"


def add_words(parser: argparse.ArgumentParser) -> None:
    """The words of the command."""
    parser.add_argument("file", metavar="FILE", nargs="?", help="a study, a file of orders, a script, or a bundle; "
                                                                "with --write, what the output went to")
    parser.add_argument("--study", metavar="STUDY", help="the study that the orders or the script were given with")
    parser.add_argument("--write", action="store_true", help="why writing to FILE failed (without FILE: to a pipe)")
    parser.add_argument("--program", metavar="PATH", help="the program that is asked, where it is not the checkout's "
                                                          "or wheel's own")


def main(arguments: argparse.Namespace) -> int:
    """Says what is wrong with a file. The status is the program's; where it is not asked, the one that it would give."""
    if arguments.write:
        say(file_faults.write_fault(arguments.file))
        return 7
    if arguments.file is None:
        raise InputError("name the file that was refused: why FILE")
    kind = kind_of(arguments.file)
    if kind in ("orders", "script") and arguments.study is None:
        return alone(arguments.file, kind)
    other = other_kind(arguments.file) if kind == "other" else None
    status, line = ask_program(program_of(arguments), asked_words(arguments, kind))
    sentence = other or said_of(arguments, kind, line)
    if sentence is not None:
        say(sentence)
    return status


def say(sentence: str) -> None:
    """Prints a sentence; what of a path or a text can't be shown is written as an escape."""
    print("".join(letter if letter.isprintable() or letter == "\n" else letter.encode("unicode_escape").decode()
                  for letter in sentence))


def asked_words(arguments: argparse.Namespace, kind: str) -> list[str]:
    """The words with which the program is asked about a file of this kind."""
    if kind == "orders":
        return ["cross", "--", arguments.study, "root:0", first_symbol(arguments.study), arguments.file]
    if kind == "script":
        return ["session", "--", arguments.study, arguments.file]
    return ["audit" if kind == "bundle" else "check", "--", arguments.file]


def program_of(arguments: argparse.Namespace) -> str:
    """The program that is asked."""
    if arguments.program:
        return str(arguments.program)
    from biqsolur.program import find_program
    return str(find_program())


def ask_program(program: str, words: list[str]) -> tuple[int, str]:
    """Runs the program, and passes on what it says; its status, and its line on standard error. What it would write to
    standard output but for `check` and `audit` is thrown away."""
    output = None if words[0] in ("check", "audit") else subprocess.DEVNULL
    sys.stdout.flush()
    try:
        process = subprocess.Popen([program, *words], stdout=output, stderr=subprocess.PIPE, text=True,
                                   errors="surrogateescape")
    except OSError as error:
        raise InputError(f"the program cannot be run: {program}: {error.strerror}; name it by --program") from None
    try:
        said = process.communicate()[1]
    except BaseException:
        process.kill()
        process.wait()
        raise
    sys.stderr.write(said.encode("utf-8", "surrogateescape").decode("utf-8", "replace"))
    sys.stderr.flush()
    return process.returncode, said.removesuffix("\n")


# ---------------------------------------------------------------- what a file is

def kind_of(path: str) -> str:
    """What a file is by its content: "study", "orders", "script", "bundle", "other" (some other file of this project),
    or "unread" where it can't be read."""
    if file_faults.read_fault(path) is not None:
        return "unread"
    with open(path, "rb") as file:
        head = file.read(HEAD)
    if b"\0" in head:
        return "other" if frame_letter(head) in OUTPUTS else "bundle"
    first = head.lstrip(b"\xef\xbb\xbf\r\n").split(b"\n", 1)[0].strip()
    if first.replace(b'"', b"").startswith((b"symbol,", b"branch,parent,")):
        return "other"
    if is_csv(first):
        return "orders"
    keys = KEY_LINE.findall(head.decode("utf-8", "replace"))
    return "script" if keys and keys[0] == "act" or "act" in keys and "version" not in keys else "study"


def frame_letter(head: bytes) -> str:
    """The letter of the first frame."""
    return head[2:3].decode("latin1")


def is_csv(first: bytes) -> bool:
    """Whether a first line is one of comma-separated values and none of TOML."""
    return first.count(b",") >= 2 and b"=" not in first and not first.startswith((b"[", b"#"))


def other_kind(path: str) -> str:
    """What a file is that no command takes as its study."""
    with open(path, "rb") as file:
        head = file.read(HEAD)
    if b"\0" in head:
        return f"{path} is {OUTPUTS[frame_letter(head)]}; `audit` and the readers of bundles take what `run` writes"
    first = head.lstrip(b"\xef\xbb\xbf\r\n")
    if first.startswith(b"branch,"):
        return f"{path} is what `table` writes, and no study"
    return (f"{path} is a series file, and no study: ask why of the study that names it, as `series = {path!r}`; the "
            "program then says which of its records is refused")


def first_symbol(study_path: str) -> str:
    """The symbol of the first stock of a study; where it can't be read, one that no study has, which comes to the
    same."""
    table = study_table(study_path)
    stocks = (table or {}).get("stock")
    symbol = stocks[0].get("symbol") if isinstance(stocks, list) and stocks and isinstance(stocks[0], dict) else None
    return symbol if isinstance(symbol, str) and symbol else "?"


def study_table(path: str) -> dict[str, object] | None:
    """A study as Python's reader of TOML has it, or None."""
    try:
        return tomllib.loads(Path(path).read_bytes().decode("utf-8-sig"))
    except (OSError, ValueError, RecursionError):
        return None


# ---------------------------------------------------------------- sentences

def said_of(arguments: argparse.Namespace, kind: str, line: str) -> str | None:
    """The sentence for the program's line, or None where it says all."""
    if match := REFUSED.fullmatch(line):
        study = arguments.study if kind in ("orders", "script") else arguments.file
        return why(study, int(match[1]), int(match[2]))
    odd = [path for path in (arguments.file, arguments.study) if path and not is_utf8(path)]
    if odd:
        return f"{odd[0]}: this name is no text in UTF-8, and the program takes no other: rename the file"
    if match := FILE_LINES.fullmatch(line):
        most = file_faults.MOST_BUNDLE_BYTES if kind == "bundle" else file_faults.MOST_BYTES
        return file_faults.read_fault(match[1], most) or f"{match[1]}: it can be read now; run the command again"
    data = None if arguments.file is None or kind == "unread" else Path(arguments.file)
    if data is None:
        return None
    return said_of_data(data, study_table(arguments.study) if arguments.study else None, line)


def is_utf8(path: str) -> bool:
    """Whether a path is a text in UTF-8."""
    return not any("\ud800" <= letter <= "\udfff" for letter in path)


def said_of_data(path: Path, study: dict[str, object] | None, line: str) -> str | None:
    """The sentence for a line that speaks of the content of orders, a script or a bundle."""
    if match := BAD_RECORD.fullmatch(line):
        return order_rules.explain_orders(path.read_bytes(), int(match[1]), study)
    if match := BAD_ACT.fullmatch(line):
        status = 15 if line.startswith("script") else 16
        return script_rules.explain_script(path.read_bytes(), status, int(match[1]), study)
    if match := NO_EVENT.fullmatch(line):
        return script_rules.explain_no_event(path.read_bytes(), int(match[1]), int(match[2]))
    if match := BAD_BUNDLE.fullmatch(line):
        from biqsolur.bundle_walk import explain_bytes
        return explain_bytes(path.read_bytes(), int(match[1]), int(match[2]))
    if match := BAD_AUDIT.fullmatch(line):
        from biqsolur.audit_faults import explain_audit
        return explain_audit(path.read_bytes(), int(match[1]), int(match[2]))
    return None


def why(study_path: str, rule: int, place: int) -> str:
    """The sentence for the refusal of a study."""
    data = Path(study_path).read_bytes()
    if rule == 0:
        return no_toml(data)
    try:
        study = tomllib.loads(data.decode("utf-8-sig"))
    except (ValueError, RecursionError) as error:
        note = f"the study itself cannot be looked at, as Python reads TOML 1.0 alone: {error}"
        return f"{explain(None, rule, place)}\n{note}"
    return explain(study, rule, place)


def alone(path: str, kind: str) -> int:
    """Says what orders or a script show without their study, as the program can't be asked: 12, 15, or 0."""
    data = Path(path).read_bytes()
    if len(data) > file_faults.MOST_BYTES:
        say(f"{file_faults.read_fault(path, file_faults.MOST_BYTES)}")
        return 4
    if kind == "orders":
        record = order_rules.first_bad_record(data)
        sentence = None if record is None else order_rules.explain_orders(data, record)
        status = 12
    else:
        fault = script_rules.first_script_fault(data)
        sentence = None if fault is None else script_rules.explain_script(data, *fault)
        status = 15
    say(sentence or f"{path}: no fault is seen in it")
    say(NO_STUDY_GIVEN.format(path))
    return 0 if sentence is None else status
