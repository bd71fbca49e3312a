"""Sentences for refused studies: each names the entry, the key and the value, and what is asked."""

import random
import subprocess
import sys

import pytest
import studies
from conftest import PACKAGE

from biqsolur.study_rules import ASKED, explain
from biqsolur.why import why

STUDY = """\
version = 1
key = "00000000000000000000000000000000000000000000000000000000000000b2"
open = 1000
close = 2000
events = 100
series = "values.csv"
exchange = { group = 0, delay = 10 }

[latency]
base = [[5, 7], [7, 9]]
jitter = [[0, 1], [1, 2]]

[[stock]]
symbol = "ABM"
bands = [[0, 100], [10000, 500]]
add = -20
take = 30
series = "rule"
start = 100000
mean = 100000
pull = 0
shock = 50
every = 100

[[stock]]
symbol = "XYZ"
bands = [[0, 100]]
add = 0
take = 0
series = "rows"

[[change]]
time = 1200
stock = "ABM"
kind = "fee"
add = 0
take = 10

[[agent]]
kind = "watcher"
group = 0
stock = "ABM"
first = 1000
every = 1000000

[[agent]]
kind = "momentum"
group = 1
stock = "XYZ"
first = 1000
every = 50
size = 100
short = 2
long = 5
count = 2

[[branch]]
name = "cheap"
parent = "root"
at = 10
edit = [{ kind = "tick", stock = "ABM", bands = [[0, 500]] }, { kind = "fee", stock = "ABM", add = 0, take = 5 }]

[[branch]]
name = "later"
parent = "cheap"
at = 30
edit = [{ kind = "agent", agent = 2, name = "every", value = 60 }, { kind = "silence", agent = 3 }]

[[branch]]
name = "order"
parent = "root"
at = 30

  [[branch.edit]]
  kind = "inject"
  agent = 1
  after = 5
  message = "58543030303230303030303030303100000000"
"""
VALUES = "symbol,time,value\nXYZ,1000,100000\n\nXYZ,1500,100800\n"

SLIPS = [
    ("symbol = \"ABM\"\n", "symbol = ABM\n", ["line 14, column 10", "symbol = ABM"]),
    ("take = 0\n", "add = 0\n", ["line 29, column 8", "add = 0"]),
    ("events = 100\n", "events = 9223372036854775808\n", ["line 5, column 10", "9223372036854775808", "64 bits"]),
    ("version = 1\n", "version = \"1\"\n", ["top of the study: `version` is \"1\", and is to be a whole number"]),
    ("events = 100\n", "event = 100\n", ["unknown key `event`; did you mean `events`?"]),
    ("open = 1000\n", "open = 1000\nstrides = 100\n", ["unknown key `strides`; did you mean `stride`?"]),
    ("open = 1000\n", "", ["the key `open` is missing"]),
    ("version = 1\n", "version = 0\n", ["`version` is 0, and is to be 1"]),
    ("b2\"", "B2\"", ["`key` has 64 characters", "a to f"]),
    ("close = 2000", "close = 999", ["`close` is 999, and is not to be before `open`, which is 1,000"]),
    ("events = 100\n", "events = 0\n", ["`events` is 0, and is to be 1 to 1,000,000"]),
    ("delay = 10 }", "dely = 10 }", ["[exchange]: unknown key `dely`; did you mean `delay`?"]),
    ("base = [[5, 7], [7, 9]]", "base = [[5, 7], [7]]", ["[latency]: `base` has 2 rows of 1 and 2 numbers", "square"]),
    ("base = [[5, 7], [7, 9]]", "base = [[5, 7], [7, -9]]", ["`base[1][1]` is -9, and is to be 0 to 3,600,000,000,000"]),
    ("jitter = [[0, 1], [1, 2]]", "jitter = [[0, 1], [-1, 2]]", ["`jitter[1][0]` is -1, and is to be 0 to 4,294,967,295"]),
    ("exchange = { group = 0", "exchange = { group = 2", ["[exchange]: `group` is 2, and is to be a group of [latency], 0 to 1"]),
    ("series = \"rule\"", "series = \"rules\"", ["stock entry 0 (the first `[[stock]]`, \"ABM\"): `series` is \"rules\"",
                                                "did you mean `rule`?"]),
    ("shock = 50\n", "shok = 50\n", ["unknown key `shok`; did you mean `shock`?"]),
    ("symbol = \"XYZ\"", "symbol = \"X YZ\"", ["stock entry 1 (the second", "1 to 8 visible ASCII characters"]),
    ("symbol = \"XYZ\"", "symbol = \"ABM\"", ["`symbol` is \"ABM\", which the first `[[stock]]` has already"]),
    ("[10000, 500]]", "[10100, 500]]", ["the second pair of `bands`, [10100, 500]", "no multiple of its tick 500"]),
    ("add = -20\n", "add = -2000000\n", ["`add` is -2000000, and is to be -1,000,000 to 1,000,000"]),
    ("start = 100000\n", "start = 0\n", ["`start` is 0, and is to be 1 to 1,999,999,900"]),
    ("shock = 50\n", "shock = -50\n", ["`shock` is -50, and is to be 0 to 1,000,000,000"]),
    ("close = 2000", "close = 6554600", ["`every` is 100, and is to be at least 101"]),
    ("series = \"values.csv\"\n", "", ["the key `series`", "the stock XYZ"]),
    ("time = 1200", "time = 999", ["change entry 0 (the first `[[change]]`): `time` is 999, and is to be 1,000 to 2,000"]),
    ("kind = \"fee\"\nadd", "kind = \"fees\"\nadd", ["`kind` is \"fees\", and is to be one of tick, fee, halt, resume",
                                                   "did you mean `fee`?"]),
    ("time = 1200\nstock = \"ABM\"", "time = 1200\nstock = \"abm\"", ["`stock` is \"abm\"", "did you mean `ABM`?"]),
    ("take = 10\n", "take = 2000000\n", ["change entry 0", "`take` is 2000000, and is to be -1,000,000 to 1,000,000"]),
    ("count = 2\n", "count = 511\n", ["agent entry 1 (the second `[[agent]]`): `count` is 511, and is to be at most 510"]),
    ("size = 100\n", "sise = 100\n", ["agent entry 1 (the second `[[agent]]`): unknown key `sise`; did you mean `size`?"]),
    ("kind = \"watcher\"", "kind = \"Watcher\"", ["agent entry 0", "`kind` is \"Watcher\"", "did you mean `watcher`?"]),
    ("every = 1000000\n", "every = 1000000\nsize = 5\n", ["`size` is a key of noise, value, momentum, maker, and of no watcher"]),
    ("group = 1\n", "group = 2\n", ["`group` is 2, and is to be a group of [latency], 0 to 1"]),
    ("first = 1000\nevery = 50", "first = 0\nevery = 50", ["`first` is 0, and is to be at least `open`, 1,000"]),
    ("every = 50\n", "every = 3600000000001\n", ["`every` is 3600000000001, and is to be 1 to 3,600,000,000,000"]),
    ("stock = \"XYZ\"\nfirst", "stock = \"XY\"\nfirst", ["agent entry 1", "`stock` is \"XY\"", "did you mean `XYZ`?"]),
    ("size = 100\n", "size = 1000000\n", ["`size` is 1000000, and is to be 1 to 999,999"]),
    ("short = 2\n", "short = 5\n", ["`short` is 5, and is to be below `long`, which is 5"]),
    ("name = \"later\"\nparent", "nam = \"later\"\nparent", ["branch entry 1 (the second `[[branch]]`): unknown key `nam`",
                                                          "did you mean `name`?"]),
    ("name = \"later\"\n", "name = \"cheap\"\n", ["`name` is \"cheap\", which the first `[[branch]]` has already"]),
    ("parent = \"cheap\"\n", "parent = \"cheep\"\n", ["`parent` is \"cheep\"", "did you mean `cheap`?"]),
    ("parent = \"root\"\nat = 10", "parent = \"later\"\nat = 10", ["`parent` is \"later\"", "stands below"]),
    ("at = 30\nedit", "at = 9\nedit", ["branch entry 1 (the second `[[branch]]`, \"later\"): `at` is 9, and is to be 10 to 100"]),
    ("{ kind = \"silence\", agent = 3 }", "{ kind = \"silent\", agent = 3 }",
     ["branch entry 1", "edit 1 (its second): `kind` is \"silent\"", "did you mean `silence`?"]),
    ("agent = 3 }", "agent = 4 }", ["edit 1 (its second): `agent` is 4, and is to be the number of a trader, 1 to 3"]),
    ("name = \"every\", value = 60", "name = \"evry\", value = 60", ["edit 0 (its first): `name` is \"evry\"",
                                                                 "every, wobble, delay, size", "did you mean `every`?"]),
    ("name = \"every\", value = 60", "name = \"every\", value = 0", ["`value` is 0, and is to be 1 to 3,600,000,000,000"]),
    ("message = \"58", "message = \"59", ["branch entry 2", "edit 0 (its first): `message` begins with 59", "4f", "58"]),
    ("000000\"\n", "0000\"\n", ["`message` has 18 bytes, and a Cancel Order (58) is to have 19"]),
    ("events = 100\n", "events = 1000000\nstride = 99\n", ["`stride` is 99, and is to be 100 to 1,000,000"]),
    ("events = 100\n", "events = 1000000\n", []),
]
TIMED = STUDY.replace("version = 1", "version = 2", 1).replace("at = 10\n", "when = 1200\n", 1).replace(
    "at = 30\n\n", "when = 1300\n\n", 1)
TIMED_SLIPS = [
    ("version = 2\n", "version = 3\n", ["`version` is 3, and is to be 1 or 2"]),
    ("version = 2\n", "version = 1\n", ["branch entry 0 (the first `[[branch]]`, \"cheap\"): unknown key `when`; `when` is a key of "
                                        "studies of version 2", "the key `at` is missing"]),
    ("when = 1200\n", "wen = 1200\n", ["unknown key `wen`; did you mean `when`?", "neither `at`"]),
    ("when = 1200\n", "", ["branch entry 0", "neither `at`, an event number, nor `when`, a time, is there"]),
    ("when = 1200\n", "at = 10\nwhen = 1200\n", ["`at` and `when` are both there, and one of them is to be"]),
    ("when = 1200\n", "when = 12:00:00\n", ["`when` is \"12:00:00\", and is to be a whole number"]),
    ("when = 1200\n", "when = 999\n", ["`when` is 999, and is to be 1,000 to 2,000: from `open` to `close`"]),
    ("when = 1200\n", "when = 2001\n", ["`when` is 2,001, and is to be 1,000 to 2,000: from `open` to `close`"]),
    ("when = 1200\n", "when = 2000\n", []),
    ("when = 1300\n", "at = 30\n", ["branch entry 2 (the third `[[branch]]`, \"order\"): it has `at`, and the branch \"cheap\" above, "
                                    "of the same parent \"root\", has `when`"]),
    ("at = 30\n", "at = 101\n", ["branch entry 1", "`at` is 101, and is to be 0 to 100: from 0 to `events`"]),
    ("at = 30\n", "at = 0\n", []),
    ("at = 30\n", "when = 1199\n", ["`when` is 1,199, and is to be 1,200 to 2,000: from that of its parent \"cheap\" to `close`"]),
]
SERIES_SLIPS = [
    ("symbol,time,value", "Symbol,Time,Value", ["line 1", "`symbol,time,value`"]),
    ("XYZ,1500", "XYZ, 1500", ["values.csv, line 4", "`time` is \" 1500\""]),
    ("XYZ,1500", "XYZ,1000", ["values.csv, line 4", "`time` is 1000, and is to be above", "1000"]),
    ("XYZ,1500", "ABM,1500", ["line 4", "`symbol` is \"ABM\"", "XYZ"]),
    (",100800", "", ["line 4", "its fields are 2"]),
    ("XYZ,1000,", "XYZ,1001,", ["stock entry 1", "no row of \"XYZ\" at `open` = 1,000"]),
]


def ask(program, folder):
    """Status, standard output and standard error of the command `why`."""
    words = [sys.executable, "-m", "biqsolur", "why", "study.toml", "--program", program]
    answer = subprocess.run(words, cwd=folder, capture_output=True, text=True, env={"PYTHONPATH": str(PACKAGE)})
    return answer.returncode, answer.stdout, answer.stderr


@pytest.fixture
def refused(program, tmp_path, monkeypatch):
    """The sentence for a study and its series file, which the program has to refuse."""
    monkeypatch.chdir(tmp_path)

    def sentence(study, values=VALUES):
        (tmp_path / "study.toml").write_text(study)
        (tmp_path / "values.csv").write_text(values)
        answer = subprocess.run([program, "check", "study.toml"], capture_output=True, text=True)
        if answer.returncode == 0:
            return ""
        assert answer.returncode == 5, answer.stderr
        words = answer.stderr.replace(",", "").split()
        return why("study.toml", int(words[3]), int(words[5]))
    return sentence


@pytest.mark.parametrize("right, wrong, said", SLIPS, ids=[wrong.strip()[:30] for _, wrong, _ in SLIPS])
def test_slips_in_the_study(refused, right, wrong, said):
    assert right in STUDY
    sentence = refused(STUDY.replace(right, wrong, 1) if right != "000000\"\n" else STUDY.replace(right, wrong))
    assert bool(sentence) == bool(said)
    for words in said:
        assert words in sentence


@pytest.mark.parametrize("right, wrong, said", TIMED_SLIPS, ids=[wrong.strip()[:30] for _, wrong, _ in TIMED_SLIPS])
def test_slips_in_a_study_with_forks_by_time(refused, right, wrong, said):
    assert right in TIMED
    sentence = refused(TIMED.replace(right, wrong, 1))
    assert bool(sentence) == bool(said)
    for words in said:
        assert words in sentence


def test_too_many_branches(refused):
    for version, most, stop in ((1, 127, "at = 30"), (2, 255, "when = 1300")):
        study = (STUDY if version == 1 else TIMED).split("[[branch]]")[0]
        study += "".join(f'[[branch]]\nname = "b{place}"\nparent = "root"\n{stop}\n' for place in range(most))
        assert refused(study) == ""
        study += f'[[branch]]\nname = "more"\nparent = "root"\n{stop}\n'
        assert refused(study) == f"top of the study: there are {most + 1} branches, and are to be at most {most}"


@pytest.mark.parametrize("right, wrong, said", SERIES_SLIPS, ids=[wrong for _, wrong, _ in SERIES_SLIPS])
def test_slips_in_the_series_file(refused, right, wrong, said):
    sentence = refused(STUDY, VALUES.replace(right, wrong, 1))
    for words in said:
        assert words in sentence


def test_the_command_passes_on_what_the_program_says(program, tmp_path):
    (tmp_path / "values.csv").write_text(VALUES)
    (tmp_path / "study.toml").write_text(STUDY)
    status, out, error = ask(program, tmp_path)
    assert (status, out, error) == (0, "accepted: agents 4, stocks 2, branches 4, segments 7\n", "")
    (tmp_path / "study.toml").write_text(STUDY.replace("size = 100", "sise = 100"))
    status, out, error = ask(program, tmp_path)
    assert (status, error) == (5, "study refused: rule 26, place 1\n")
    assert out == "agent entry 1 (the second `[[agent]]`): unknown key `sise`; did you mean `size`?\n"
    (tmp_path / "study.toml").unlink()
    assert ask(program, tmp_path) == (3, "there is no study.toml\n", "no such file: study.toml\n")
    status, out, error = ask("./nothing", tmp_path)
    assert (status, out) == (1, "") and "cannot be run" in error and "--program" in error


def test_a_study_that_python_cannot_read(tmp_path):
    """Of TOML 1.1, where Python reads 1.0, what is asked is said without the value; a fault is told with a hint."""
    path = tmp_path / "study.toml"
    path.write_text(STUDY.replace("exchange = { group = 0, delay = 10 }", "exchange = { group = 0,\n  delay = 10 }"))
    sentence = why(str(path), 29, 1)
    assert sentence.startswith("agent entry 1 (the second `[[agent]]`): this is asked: the keys of an agent's kind are in")
    assert "Python reads TOML 1.0 alone" in sentence and "line 7, column" in sentence
    assert "look further down" in why(str(path), 0, 0)


@pytest.mark.parametrize("data, said", [
    (b"", "Python reads this as TOML"), (b"a = 1\n\xff", "line 2, column 1: byte 0xff is no text in UTF-8"),
    (b"a = [1,\n", "line 2, at the end of the document"), (b"\xef\xbb\xbfa = \n", "line 1, column 5"),
    (b"a = 0x1_0000_0000_0000_0000\n", "line 1, column 5: the number 0x1_0000_0000_0000_0000 is outside 64 bits"),
    (b"a = " + b"[" * 3000, "this is no TOML"),
])
def test_bytes_that_are_no_toml(tmp_path, data, said):
    (tmp_path / "study.toml").write_bytes(data)
    assert why(str(tmp_path / "study.toml"), 0, 0).startswith(said)


def test_control_characters_are_not_printed(refused):
    for wrong in ("\"A\\u001b[31m\"", "\"\\n\"", "\"\\u0007\""):
        sentence = refused(STUDY.replace("symbol = \"XYZ\"", f"symbol = {wrong}"))
        assert sentence.isprintable()


def test_every_rule_has_words_without_a_study():
    for rule in range(1, 37):
        for place in (0, 1, 33, 99, 1024, 1056):
            sentence = explain(None, rule, place)
            assert ASKED[rule] in sentence and sentence.isprintable()
            assert explain({}, rule, place).isprintable()


ODD_VALUES = [-1, 0, 2**63 - 1, -2**63, "", "zz", "\u00e9", [], [1], {}, True]


def places_of(value, path=()):
    """The path of each value inside a study."""
    items = value.items() if isinstance(value, dict) else enumerate(value) if isinstance(value, list) else ()
    for key, item in items:
        yield (*path, key)
        yield from places_of(item, (*path, key))


@pytest.mark.parametrize("seed", range(40))
def test_random_changes_are_named(program, tmp_path, monkeypatch, seed):
    """A value or key of a random study is changed: where that is refused, the sentence is no general one."""
    monkeypatch.chdir(tmp_path)
    generator = random.Random(seed)
    study, series = studies.make_study(seed)
    if series is not None:
        (tmp_path / study["series"]).write_text(series)
    for _ in range(5):
        changed, _ = studies.make_study(seed)
        path = generator.choice(list(places_of(changed)))
        parent = changed
        for key in path[:-1]:
            parent = parent[key]
        odd = generator.choice(ODD_VALUES)
        if isinstance(parent, dict) and generator.random() < 0.4:
            parent[path[-1] + "x"] = parent.pop(path[-1])
        else:
            parent[path[-1]] = odd
        (tmp_path / "study.toml").write_text(studies.toml(changed), encoding="utf-8")
        answer = subprocess.run([program, "check", "study.toml"], capture_output=True, text=True)
        if answer.returncode == 5:
            words = answer.stderr.replace(",", "").split()
            sentence = why("study.toml", int(words[3]), int(words[5]))
            assert "this is asked" not in sentence and not sentence.rstrip().endswith(":"), (path, odd)
