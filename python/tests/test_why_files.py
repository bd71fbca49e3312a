"""`why` of orders, scripts, bundles and of files that can't be read or written, over what the program says of them."""

import os
import random
import subprocess
import sys

import plain
import pytest
import studies

from biqsolur import bundle_walk, file_faults, order_rules, script_rules
from biqsolur.__main__ import main
from biqsolur.audit_faults import Told, explain_audit
from biqsolur.bundle_walk import explain_bytes
from test_why import STUDY, TIMED, VALUES

HEAD = "agent,side,shares,price\n"


@pytest.fixture
def folder(tmp_path, monkeypatch):
    """A folder with a study of two stocks and three traders, in which the test works."""
    monkeypatch.chdir(tmp_path)
    (tmp_path / "study.toml").write_text(STUDY)
    (tmp_path / "values.csv").write_text(VALUES)
    return tmp_path


@pytest.fixture
def why(program, folder, capfd):
    """(status, what `why` of a file with these bytes prints, the program's own line)"""
    def asked(name, data=None, *more):
        if data is not None:
            (folder / name).write_bytes(data if isinstance(data, bytes) else data.encode())
        status = main(["why", str(name), "--program", program, *more])
        out, error = capfd.readouterr()
        return status, out.removesuffix("\n"), error.removesuffix("\n")
    return asked


# ---------------------------------------------------------------- orders of a cross

ORDERS = [
    ("", 0, ["record 0: the file has no record, and is to begin with `agent,side,shares,price`"]),
    ("\n\n", 0, ["the file has no record"]),
    ("Agent,Side,Shares,Price\n", 0, ["record 0 (line 1, \"Agent,Side,Shares,Price\")", "in small letters"]),
    ("agent, side, shares, price\n", 0, ["without spaces"]),
    (HEAD + "1,B,100,100000\n\n0,B,100,100000\n", 2, ["record 2 (line 4, \"0,B,100,100000\"): `agent` is "
                                                      "\"0\"", "1 to 3 ",
                                                      "0 is the exchange"]),
    (HEAD + "4,B,100,100000\n", 1, ["`agent` is \"4\", and is to be the number of a trader of the study, which has 3: "
                                    "1 to 3"]),
    (HEAD + "maker 1,B,100,100000\n", 1, ["`agent` is \"maker 1\""]),
    (HEAD + "0001,B,100,100000\n", 1, ["1 to 3 in 1 to 3 digits"]),
    (HEAD + "1,buy,100,100000\n", 1, ["`side` is \"buy\", and is to be `B` to buy or `S` to sell; did you mean `B`?"]),
    (HEAD + "1,s,100,100000\n", 1, ["did you mean `S`?"]),
    (HEAD + "1,B,0,100000\n", 1, ["`shares` is \"0\", and is to be 1 to 999,999, in 1 to 6 digits"]),
    (HEAD + "1,B,1000000,100000\n", 1, ["`shares` is \"1000000\""]),
    (HEAD + "1,B, 5,100000\n", 1, ["`shares` is \" 5\""]),
    (HEAD + "1,B,100,10.05\n", 1, ["`price` is \"10.05\", and is to be 1 to 1,999,999,900", "ten dollars are 100000"]),
    (HEAD + "1,B,100,0\n", 1, ["`price` is \"0\""]),
    (HEAD + "1,B,100,2000000000\n", 1, ["`price` is \"2000000000\""]),
    (HEAD + "1,B,100\n", 1, ["it has 3 fields, and is to have four: agent, side, shares, price"]),
    (HEAD + "1;B;100;100000\n", 1, ["it has 1 field, and"]),
    (HEAD + "1,B,100,100000,\n", 1, ["it has 5 fields"]),
    (HEAD + "9,X,0,0\n", 1, ["`agent`", "`side`", "`shares`", "`price`"]),
    (HEAD + "1,B,1,1\n" * 16_384 + "1,B,1,1\n", 16_385, ["there are more than 16,384 orders, which are the most"]),
]


@pytest.mark.parametrize("text, record, said", ORDERS, ids=range(len(ORDERS)))
def test_orders_of_a_cross(why, text, record, said):
    status, sentence, line = why("orders.csv", text, "--study", "study.toml")
    if text.strip() == "":              # nothing tells that such a file is one of orders
        sentence = order_rules.explain_orders(text.encode(), 0)
    else:
        assert (status, line) == (12, f"orders refused: record {record}")
    for words in said:
        assert words in sentence
    assert sentence.isprintable() and "this is asked" not in sentence


def test_the_least_bad_record_is_seen_without_the_study(why):
    """As the program has it, but for traders that a study of 511 would have."""
    for text, record, _ in ORDERS:
        if text.strip() and "4,B" not in text:
            assert order_rules.first_bad_record(text.encode()) == record
            status, sentence, line = why("orders.csv", text)
            assert (status, line) == (12, "") and sentence.startswith(f"record {record}")
            assert sentence.endswith("why orders.csv --study STUDY tells more")
    status, sentence, _ = why("orders.csv", HEAD + "4,B,100,100000\n")
    assert status == 0 and "no fault is seen in it" in sentence


def test_right_orders(why):
    assert why("orders.csv", HEAD, "--study", "study.toml")[:2] == (0, "")
    rows = HEAD.replace("\n", "\r\n") + "\n\"3\",S,000001,1\n"
    assert why("orders.csv", rows, "--study", "study.toml") == (0, "", "")
    assert why("orders.csv", HEAD + "3,S,1,1\n", "--study", "nothing.toml") == (3, "there is no nothing.toml",
                                                                              "no such file: nothing.toml")


def test_random_orders_are_named(program, folder):
    """A field of right orders is changed: where the program refuses it the sentence is no general one, and Python sees
    it."""
    generator = random.Random("orders")
    values = ["", "0", "1", "3", "4", "B", "S", "b", "999999", "1000000", "1999999900", "1999999901", " 1", "1 ", "-1",
              "+1", "\u0661"]
    for _ in range(40):
        rows = [["1", "B", "5", "100000"] for _ in range(4)]
        row = generator.choice(rows)
        row[generator.randrange(4)] = generator.choice(values)
        data = (HEAD + "".join(",".join(row) + "\n" for row in rows)).encode()
        (folder / "orders.csv").write_bytes(data)
        answer = subprocess.run([program, "cross", "study.toml", "root:0", "ABM", "orders.csv"], capture_output=True)
        study = {"agent": [{"kind": "watcher"}, {"kind": "momentum", "count": 2}]}
        told = int(answer.stderr.split()[-1]) if answer.returncode == 12 else None
        assert answer.returncode in (0, 12) and order_rules.first_bad_record(data, study) == told
        if told is not None:
            assert "this is asked" not in order_rules.explain_orders(data, told, study)


# ---------------------------------------------------------------- scripts of a session

def acts(*tables):
    return "".join("[[act]]\n" + table.replace("; ", "\n") + "\n" for table in tables)


FORK = 'kind = "fork"; name = "new"; parent = "root"; at = 20'
UNDO, CLOSE = 'kind = "undo"', 'kind = "close"; name = "new"'
SCRIPTS = [
    # status 15: the whole
    ("act = [1]\n", "script refused: act 64", ["the script: `act` is [1], and is to be an array of tables"]),
    ("act = []\n", "script refused: act 64", ["there are 0 acts, and are to be 1 to 64"]),
    (acts(*[CLOSE.replace("new", "root")] * 65), "script refused: act 64", ["there are 65 acts"]),
    ("keys = 1\n" + acts(FORK), "script refused: act 64", ["unknown key `keys`; `act` is the one key of a script"]),
    ("[act]\nkind = \"undo\"\n", "script refused: act 64", ["double brackets, `[[act]]`"]),
    ("[[act]]\nkind = undo\n", "script refused: act 64", ["the script: line 2, column"]),
    # status 15: an act
    (acts(FORK, 'kind = "jump"'), "script refused: act 1",
     ["act 1 (the second `[[act]]`, \"jump\"): `kind` is \"jump\", and is to be one of fork, undo, edit, rewind, "
      "close, values"]),
    (acts('kind = "Close"; name = "root"'), "script refused: act 0", ["did you mean `close`?"]),
    (acts('name = "root"'), "script refused: act 0", ["the key `kind` is missing"]),
    (acts(UNDO + '; name = "order"'), "script refused: act 0", ["unknown key `name`"]),
    (acts('kind = "edit"; name = "order"'), "script refused: act 0", ["the key `edit` is missing"]),
    (acts(FORK.replace("at =", "event =")), "script refused: act 0", ["unknown key `event`", "the key `at` is "
                                                                                             "missing"]),
    (acts(FORK.replace("20", "\"20\"")), "script refused: act 0", ["`at` is \"20\", and is to be a whole number"]),
    (acts(FORK.replace("20", "-1")), "script refused: act 0", ["`at` is -1, and is to be 0 to 9,999,999"]),
    (acts('kind = "rewind"; name = "root"; event = 10000000'), "script refused: act 0", ["`event` is 10000000"]),
    (acts(FORK.replace("new", "Wide")), "script refused: act 0",
     ["`name` is \"Wide\", and is to have 1 to 32 of a to z, 0 to 9, _ and -"]),
    (acts(FORK.replace("\"root\"", "\"\"")), "script refused: act 0", ["`parent` is \"\" of 0 bytes, and is to have 1 "
                                                                       "to 32"]),
    (acts(f'kind = "close"; name = "{"a" * 33}"'), "script refused: act 0", ["of 33 bytes"]),
    (acts(FORK + '; edit = [{ kind = "halt", stock = "ABC" }]'), "script refused: act 0",
     ["edit 0 (its first): `stock` is \"ABC\", and is to be the symbol of a stock", "did you mean `ABM`?"]),
    (acts(FORK + '; edit = [{ kind = "halt", stock = "ABM" }, { kind = "silence" }]'), "script refused: act 0",
     ["edit 1 (its second): the key `agent` is missing"]),
    (acts(FORK + "; edit = [" + '{ kind = "halt", stock = "ABM" }, ' * 17 + "]"), "script refused: act 0",
     ["there are 17 edits, and are to be at most 16"]),
    (acts('kind = "edit"; name = "order"; edit = [{ kind = "inject", agent = 1, after = 0, message = "00" }]'),
     "script refused: act 0", ["`message` begins with 00"]),
    # status 16: the tree
    (acts(CLOSE), "act refused: 0", ["act 0 (the first `[[act]]`, \"close\"): `name` is \"new\", and is to be a branch "
                                    "of the tree as it then stands: root, cheap, later, order"]),
    (acts(FORK, UNDO, CLOSE), "act refused: 2", ["`name` is \"new\"", "it was undone before"]),
    (acts('kind = "values"; name = "chep"'), "act refused: 0", ["did you mean `cheap`?"]),
    (acts(FORK.replace('"root"', '"no"')), "act refused: 0", ["`parent` is \"no\""]),
    (acts(FORK, FORK), "act refused: 1", ["`name` is \"new\", which is the name of a branch already"]),
    (acts(FORK.replace("new", "root")), "act refused: 0", ["`name` is \"root\", which is the name of a branch "
                                                           "already"]),
    (acts(FORK.replace("20", "101")), "act refused: 0", ["`at` is 101, and is to be 0 to 100", "above the study's "
                                                                                               "`events`"]),
    (acts(FORK.replace('"root"', '"later"')), "act refused: 0", ["`at` is 20, and is to be 30 to "
                                                                 "100", "parent \"later\""]),
    (acts(UNDO, UNDO, UNDO, UNDO), "act refused: 3", ["there is no branch beside the root any more"]),
    (acts('kind = "edit"; name = "root"; edit = []'), "act refused: 0", ["`name` is \"root\", which has no edits"]),
    # status 9
    (acts(FORK, 'kind = "rewind"; name = "new"; event = 5000'), "no event: act 1, last event",
     ["act 1 (the second `[[act]]`, \"rewind\"): `event` is 5000, and is to be 0 to ", "the last event of the branch "
                                                                                       "\"new\""]),
]


@pytest.mark.parametrize("text, line, said", SCRIPTS, ids=range(len(SCRIPTS)))
def test_scripts_of_a_session(why, text, line, said):
    status, sentence, told = why("script.toml", text, "--study", "study.toml")
    assert told.startswith(line) and status == {"script": 15, "act": 16, "no": 9}[line.split()[0]]
    for words in said:
        assert words in sentence
    assert sentence.split("\n")[0].isprintable() and "this is asked" not in sentence
    if status != 9:
        expected = (status, int(told.split()[-1]))
        study = script_rules.script_of(STUDY.encode())
        assert script_rules.first_script_fault(text.encode(), study) == expected


def test_scripts_without_their_study(why):
    """What the script alone shows is told; the rest needs the study, and that is said."""
    for text, line, said in SCRIPTS:
        status, sentence, told = why("script.toml", text)
        assert told == "" and "why script.toml --study STUDY tells more" in sentence
        if line.startswith("script") and "ABC" not in text:
            assert status == 15 and said[0].split(":")[0].split(" (")[0] in sentence
        else:
            assert status == 0 and "no fault is seen in it" in sentence


def test_a_script_for_a_study_whose_branches_leave_by_time(why, folder):
    (folder / "study.toml").write_text(TIMED)
    status, sentence, line = why("script.toml", acts(UNDO), "--study", "study.toml")
    assert (status, line) == (15, "script refused: act 64")
    assert "the study's branch \"cheap\" leaves at a time (`when`)" in sentence


def test_a_tree_that_grows_too_large(why, folder):
    (folder / "study.toml").write_text(STUDY.replace("events = 100\n", "events = 800000\n"))
    status, sentence, line = why("script.toml", acts(FORK, FORK.replace("new", "more")), "--study", "study.toml")
    assert (status, line) == (16, "act refused: 1")
    assert "6 branches with the root times `events`, 800,000, is 4,800,000, and is to be at most 4,000,000" in sentence


def test_too_many_branches_in_a_tree():
    """255 branches of version 2 can't be a session's study where they leave by time, so the tree is looked at alone."""
    study = {"events": 10, "branch": [{"name": f"b{place}", "at": 0} for place in range(255)]}
    act = {"kind": "fork", "name": "more", "parent": "root", "at": 0}
    sentence = script_rules.explain_script(acts(FORK.replace("20", "0")).encode(), 16, 0, study)
    assert "there would be 257 branches with the root" in sentence
    assert script_rules.tree_faults([act], 0, {**study, "branch": study["branch"][1:]}) == []


def test_right_scripts(why):
    assert why("script.toml", acts(FORK, CLOSE, UNDO), "--study", "study.toml") == (0, "", "")
    status, sentence, line = why("script.toml", acts(FORK), "--study", "values.csv")
    assert status == 5 and line.startswith("study refused: rule 0") and "line 1" in sentence


# ---------------------------------------------------------------- bundles

def ran(program, folder, study, series=None):
    """The bundle of a study."""
    (folder / "study.toml").write_text(study)
    if series is not None:
        (folder / series[0]).write_text(series[1])
    answer = subprocess.run([program, "run", "study.toml"], cwd=folder, capture_output=True)
    assert (answer.returncode, answer.stderr) == (0, b"")
    return answer.stdout


@pytest.fixture(scope="module")
def written(program, tmp_path_factory):
    """The bytes of the bundle of a small random study with branches."""
    study, series = studies.make_study(41)
    return ran(program, tmp_path_factory.mktemp("bundle"), studies.toml(study), series and (study["series"], series))


@pytest.fixture(scope="module")
def halting(program, tmp_path_factory):
    """The bytes of a bundle with dated halts and resumptions, and a branch that halts and resumes; one time is
    both's."""
    study = STUDY.replace('kind = "fee"\nadd = 0\ntake = 10', 'kind = "halt"').replace(
        "[[agent]]", '[[change]]\ntime = 1300\nstock = "ABM"\nkind = "resume"\n\n[[change]]\ntime = 1300\n'
        'stock = "XYZ"\nkind = "halt"\n\n[[agent]]', 1).replace(
        '{ kind = "silence", agent = 3 }', '{ kind = "halt", stock = "ABM" }, { kind = "resume", stock = "ABM" }')
    return ran(program, tmp_path_factory.mktemp("halting"), study, ("values.csv", VALUES))


def audited(program, folder, data):
    """(status, the numbers of the program's line) of an audit."""
    (folder / "b.bundle").write_bytes(data)
    answer = subprocess.run([program, "audit", "b.bundle"], capture_output=True, text=True, cwd=folder)
    return answer.returncode, [int(word.strip(",")) for word in answer.stderr.split() if word.strip(",").isdigit()]


def test_the_walk_takes_what_the_program_writes(written):
    walk, count = bundle_walk.Walk(), 0
    for frame in bundle_walk.frames(written):
        assert walk.fault(frame) is None and bundle_walk.frame_faults(frame, walk.stocks) == []
        walk.take(frame)
        count += 1
    assert walk.may == "" and count == len(plain.split_frames(written))


def test_a_bundle_that_is_cut(why, written):
    cases = [(0, "the file is empty"), (1, "one byte is left"), (11, "the file ends here, and `b` (branch) is to "
                                                                     "stand"),
             (30, "bytes, and "), (len(written) - 5, "the file ends here, and `z` (end) is to stand"),
             (len(written) - 4, "one byte is left"), (len(written) - 1, "the frame says 3 bytes, and 2 are left")]
    for size, said in cases:
        sentence = explain_bytes(written[:size], 1, size) if size in (0, 1) else None
        if sentence is None:
            status, sentence, line = why("b.bundle", written[:size])
            assert status == 13 and line.startswith("bad bundle: 1 at ")
        assert said in sentence and "run or copy it again" in sentence


def first_fault(data):
    """(2 or 3, offset) of the first frame that the walk doesn't take, or None; a frame that is cut is none."""
    walk = bundle_walk.Walk()
    for frame in bundle_walk.frames(data):
        if bundle_walk.frame_faults(frame, walk.stocks):
            return 2, frame.offset
        if walk.fault(frame):
            return 3, frame.offset
        walk.take(frame)
    return None


def damaged(written, generator):
    """Bundles of which a byte is changed, or a frame is left out or doubled elsewhere; and each frame behind each
    trading action."""
    frames = list(bundle_walk.frames(written))
    ends = {frame.offset: frame.offset + 2 + len(frame.payload) for frame in frames}
    rare = [frame.offset for frame in frames if frame.letter in "hbSRcsadzH"]
    for number in range(60):
        data = bytearray(written)
        at, other = generator.choice(rare), generator.choice(frames).offset
        if number % 3 == 0:
            data[at + generator.randrange(4)] ^= 1 << generator.randrange(8)
        elif number % 3 == 1:
            del data[at:ends[at]]
        else:
            data[at:at] = written[other:ends[other]]
        yield bytes(data)
    one_of_each = {frame.letter: frame.offset for frame in frames}
    for frame in [frame for frame in frames if frame.letter == "H"][:16]:
        for other in one_of_each.values():
            yield written[:ends[frame.offset]] + written[other:ends[other]] + written[ends[frame.offset]:]


@pytest.mark.parametrize("which", ["written", "halting"])
def test_damaged_bundles_are_explained_where_the_program_refuses_them(program, tmp_path, request, which):
    """The walk stops where the program does; the sentence is of that place, and no general one."""
    bundle, refused = request.getfixturevalue(which), 0
    for data in damaged(bundle, random.Random("bundle")):
        status, numbers = audited(program, tmp_path, data)
        if status != 13:
            assert first_fault(data) is None
            continue
        refused += 1
        if numbers[0] != 1:
            assert first_fault(data) == tuple(numbers)
        sentence = explain_bytes(data, *numbers)
        place = len(data) - numbers[1] if numbers[0] == 1 else numbers[1]
        assert sentence.startswith(f"at byte {place:,}: ") and sentence.isprintable()
        assert "none of a bundle's frames" not in sentence
    assert refused > 40


def test_what_stood_there_and_what_may(why, written):
    places = [frame.offset for frame in bundle_walk.frames(written)]
    status, sentence, line = why("b.bundle", written + written[:11])
    assert status == 13 and line == f"bad bundle: 3 at {len(written)}"
    assert "here `h` (header) stands, and may stand nothing, as the end stands before" in sentence
    assert "; a file to which something was added" in sentence
    status, sentence, _ = why("b.bundle", written[:places[1]] + written[places[2]:])
    assert status == 13 and sentence == "at byte 11: here `S` (System Event) stands, and may stand `b` (branch)"
    changed = bytearray(written)
    changed[places[1] + 2] = ord("q")
    status, sentence, _ = why("b.bundle", bytes(changed))
    assert status == 13 and "it is the first byte 71, and a frame of a bundle begins with one of h b e d" in sentence
    changed = bytearray(written)
    changed[places[1] + 4] = 9
    status, sentence, _ = why("b.bundle", bytes(changed))
    assert status == 13 and "`b` (branch) has the number 9, and is to have 0" in sentence


def test_an_order_in_an_event_with_a_wrong_byte(program, tmp_path, written):
    frames = list(bundle_walk.frames(written))
    frame = next(frame for frame in frames if frame.letter == "e" and len(frame.payload) == 43 + 49)
    for at, said in ((25, "58 at byte 25, where 44 or 50 is to stand"), (43 + 15, "58 at byte 58, where 42 (B) or 53 "
                                                                                  "(S)"),
                     (42, "58 at byte 42, where 69 is to stand"), (43, "58 at byte 43, where 4f is to stand")):
        data = bytearray(written)
        data[frame.offset + 2 + at] = ord("X")
        status, numbers = audited(program, tmp_path, bytes(data))
        assert (status, numbers) == (13, [2, frame.offset])
        assert said in explain_bytes(bytes(data), *numbers)


def event_before(data, offset):
    """The number of the last event or edit before an offset, 0 at an opening."""
    number = 0
    for frame in bundle_walk.frames(data[:offset]):
        number = 0 if frame.letter == "b" else frame.number(1, 4) if frame.letter in "ed" else number
    return number


def fed(letter, reference, shares=0, price=0, locate=1, side=b"B"):
    """A message of the feed as a frame."""
    body = {"A": side + shares.to_bytes(4, "big") + b"ABM     " + price.to_bytes(4, "big"), "D": b"",
            "E": shares.to_bytes(4, "big") + bytes(8), "X": shares.to_bytes(4, "big")}[letter]
    head = letter.encode() + locate.to_bytes(2, "big") + bytes(8) + reference.to_bytes(8, "big")
    return bundle_walk.Frame(0, head + body)


def test_the_feed_is_applied_as_the_audit_does():
    told = Told(["T", "T"])
    assert told.take(fed("A", 5, 10, 100_000)) is None
    assert told.take(fed("A", 5, 10, 100_000)) == "its reference is not above 5, that of an order before"
    assert told.take(fed("E", 5, 11)) == "it takes 11 shares, and 10 are open"
    assert told.take(fed("X", 5, 4)) is None and told.orders[5].open == 6
    assert told.take(fed("X", 5, 7)) == "it cancels 7 shares, and 6 are open"
    assert told.take(fed("X", 5, 1, locate=2)) == "it speaks of stock 1, and the order is of stock 0"
    assert told.take(fed("E", 5, 6)) is None and told.orders == {}
    assert told.take(fed("D", 5)) == "no displayed order has this reference then"
    assert told.take(fed("A", 6, 1, locate=3)) == "its locate is 3, and is to be 1 to 2"


def test_a_closing_that_the_feed_does_not_tell(program, tmp_path, written):
    """Messages of the feed and orders of the closing are changed: branch and reference are the program's, the sentence
    says what."""
    generator = random.Random("audit")
    frames = list(bundle_walk.frames(written))
    assert audited(program, tmp_path, written)[0] == 0
    kinds = {"A": (20, 4), "E": (19, 4), "X": (19, 4), "l": (30, 4), "s": (3, 1)}
    said = set()
    for letter, (offset, size) in kinds.items():
        found = [frame for frame in frames if frame.letter == letter]
        for frame in generator.sample(found, min(6, len(found))):
            data = bytearray(written)
            place = frame.offset + 2 + offset
            value = ord("H") if letter == "s" else frame.number(offset, size) + generator.choice([1, 7, 10**6])
            data[place:place + size] = value.to_bytes(size, "big")
            status, numbers = audited(program, tmp_path, bytes(data))
            if status == 14:
                sentence = explain_audit(bytes(data), *numbers)
                assert sentence.startswith(f"branch {numbers[0]}, \"") and sentence.isprintable()
                assert "what differs is" not in sentence and (numbers[1] == 0 or f"{numbers[1]:,}" in sentence)
                if "can't be applied" in sentence:
                    assert f" behind event {event_before(data, frame.offset):,}, " in sentence
                said.add(next(words for words in ("can't be applied", "in the closing, "
                                                                      "and", "in the state") if words in sentence))
    assert len(said) >= 2


def test_the_command_over_a_closing(why, written):
    frame = next(frame for frame in bundle_walk.frames(written) if frame.letter == "s")
    data = bytearray(written)
    data[frame.offset + 2 + 3] = ord("P")
    status, sentence, line = why("b.bundle", bytes(data))
    assert (status, line) == (14, "audit failed: branch 0, reference 0")
    state = chr(frame.payload[3])
    assert f"stock 0 (the first) is in the state 'P' in the closing, and in {state!r} by the feed" in sentence
    status, sentence, line = why("b.bundle", written)
    assert (status, line) == (0, "") and sentence.startswith("audit ok: branches ")


# ---------------------------------------------------------------- files of another kind

def test_files_are_known_by_their_content(program, why, folder, written):
    for command, more, said in (("rewind", ["root:5"], "what `rewind` or `session` writes"),
                                ("cross", ["root:5", "ABM", "orders.csv"], "what `cross` writes")):
        (folder / "orders.csv").write_text(HEAD)
        answer = subprocess.run([program, command, "study.toml", *more], capture_output=True)
        assert answer.returncode == 0
        status, sentence, _ = why("odd.toml", answer.stdout)
        assert status == 5 and sentence.startswith(f"odd.toml is {said}")
    table = subprocess.run([program, "table", "study.toml"], capture_output=True).stdout
    assert why("odd.toml", table)[1] == "odd.toml is what `table` writes, and no study"
    assert "is a series file, and no study" in why("values.csv")[1]
    assert why("study.toml")[:2] == (0, "accepted: agents 4, stocks 2, branches 4, segments 7")
    status, sentence, _ = why("orders.toml", HEAD + "1,X,1,1\n", "--study", "study.toml")
    assert status == 12 and "`side` is \"X\"" in sentence
    assert "audit ok" in why("study.toml", written)[1]


# ---------------------------------------------------------------- reading and writing

def test_files_that_cannot_be_read(why, folder):
    (folder / "inner").mkdir()
    assert why("inner")[:2] == (6, "inner is a folder, and is to be a file")
    assert why("studi.toml")[:2] == (3, "there is no studi.toml; did you mean study.toml?")
    assert why("inner/no/study.toml")[:2] == (3, "there is no inner/no")
    assert why("study.toml/x")[1] == "study.toml is no folder, so there is no study.toml/x"
    (folder / "link").symlink_to("gone")
    assert why("link")[:2] == (3, "link is a link to gone, which isn't there")
    (folder / "round").symlink_to("round")
    assert why("round")[:2] == (6, "round: its links lead in a circle")
    assert "the name is too long: 300 characters" in why("n" * 300)[1]
    with open(folder / "long.toml", "wb") as file:
        file.truncate(16_777_217)
    assert file_faults.read_fault("long.toml", 16_777_216) == "long.toml has 16,777,217 bytes, and may have 16,777,216"


def test_names_that_cannot_be_shown(why):
    """Letters that move a terminal's cursor, and bytes that are no text, are written as escapes."""
    assert why("a\x1b[31m.toml")[1] == "there is no a\\x1b[31m.toml"
    assert why("a\udcff.toml")[:2] == (2, "a\\udcff.toml: this name is no text in UTF-8, and the program takes no other: "
                                          "rename the file")


def test_a_series_file_that_is_not_there(why, folder):
    (folder / "values.csv").unlink()
    assert why("study.toml") == (3, "there is no values.csv", "no such file: values.csv")
    (folder / "values.csv").mkdir()
    assert why("study.toml") == (6, "values.csv is a folder, and is to be a file", "read failed: values.csv")


AS_NOBODY = """
import os, sys
sys.path.insert(0, sys.argv[1])
from biqsolur.file_faults import read_fault, write_fault
if os.geteuid() == 0:
    try:
        os.setgroups([])
        os.setresgid(65534, 65534, 65534)
        os.setresuid(65534, 65534, 65534)
    except OSError:
        print("root can't become another user here")
        sys.exit()
for path in ("closed/study.toml", "secret.toml"):
    print(read_fault(path))
for path in ("secret.toml", "new.bundle"):
    print(write_fault(path))
"""


def test_files_without_leave(folder):
    """Who may not read or write is told so, and who may. Root may all, so it is asked as nobody there."""
    (folder / "closed").mkdir()
    (folder / "closed/study.toml").write_text(STUDY)
    (folder / "secret.toml").write_text(STUDY)
    (folder / "closed").chmod(0o700 if os.geteuid() == 0 else 0)
    (folder / "secret.toml").chmod(0o600 if os.geteuid() == 0 else 0)
    folder.chmod(0o555)
    package = os.path.dirname(os.path.dirname(file_faults.__file__))
    try:
        answer = subprocess.run([sys.executable, "-c", AS_NOBODY, package], capture_output=True, text=True, cwd=folder)
    finally:
        folder.chmod(0o755)
        (folder / "closed").chmod(0o755)
    lines = answer.stdout.splitlines()
    if len(lines) == 1:
        pytest.skip(lines[0])
    assert len(lines) == 4, answer.stderr
    assert lines[0].startswith("no leave to go into the folder closed: it is d") and ", and this is user " in lines[0]
    assert lines[1].startswith("no leave to read secret.toml: it is -")
    assert lines[2].startswith("no leave to write secret.toml: it is -")
    assert lines[3].startswith("no leave to write in the folder .: it is dr-xr-xr-x")


def test_files_that_cannot_be_written(why, folder, monkeypatch):
    assert why("inner/out.bundle", None, "--write")[:2] == (7, "there is no inner")
    (folder / "inner").mkdir()
    assert why("inner", None, "--write")[1] == "inner is a folder, and is to be a file"
    assert why("study.toml/out", None, "--write")[1] == "study.toml is no folder, so out can't be written there"
    if os.path.exists("/dev/full"):
        assert "the device that is always full" in why("/dev/full", None, "--write")[1]
    os.mkfifo(folder / "pipe")
    assert why("pipe", None, "--write")[1] == "pipe is a named pipe: its reader ended before"
    assert "`| head` does" in why("-", None, "--write")[1]
    assert "nothing stands in the way now" in why("out.bundle", None, "--write")[1]
    numbers = {"f_flag": 0, "f_blocks": 10, "f_frsize": 4096, "f_bavail": 0, "f_files": 0, "f_favail": 0}
    full = type("system", (), numbers)
    monkeypatch.setattr(os, "statvfs", lambda path: full)
    sentence = why("out.bundle", None, "--write")[1]
    assert sentence == "the disk is full: the file system of out.bundle has no room left of 40,960 bytes"
    monkeypatch.setattr(full, "f_bavail", 5)
    monkeypatch.setattr(full, "f_flag", os.ST_RDONLY)
    assert "can only be read" in why("out.bundle", None, "--write")[1]
    monkeypatch.setattr(full, "f_flag", 0)
    monkeypatch.setattr(full, "f_files", 9)
    assert "can take no more files" in why("out.bundle", None, "--write")[1]


def test_a_file_that_is_as_long_as_it_may_get(folder):
    code = ("import resource, sys; sys.path.insert(0, sys.argv[1]); from biqsolur.file_faults import write_fault\n"
            "resource.setrlimit(resource.RLIMIT_FSIZE, (100, resource.RLIM_INFINITY)); "
            "print(write_fault('study.toml'))")
    package = os.path.dirname(os.path.dirname(file_faults.__file__))
    answer = subprocess.run([sys.executable, "-c", code, package], capture_output=True, text=True, cwd=folder)
    assert f"study.toml has {len(STUDY):,} bytes, and a file may have 100 here (ulimit -f)" in answer.stdout


def test_a_pipe_and_a_missing_name(capsys):
    assert main(["why"]) == 1
    assert "name the file that was refused" in capsys.readouterr().err
    assert main(["why", "--write"]) == 7
    assert "`| head` does" in capsys.readouterr().out


def test_why_needs_no_numpy(program, folder):
    """One real start, in which numpy can't be imported."""
    (folder / "numpy.py").write_text("raise ImportError('numpy is not here')\n")
    (folder / "script.toml").write_text(acts(CLOSE))
    package = os.path.dirname(os.path.dirname(file_faults.__file__))
    words = [sys.executable, "-m", "biqsolur", "why", "script.toml", "--study", "study.toml", "--program", program]
    answer = subprocess.run(words, capture_output=True, text=True, cwd=folder,
                            env={"PYTHONPATH": f"{folder}:{package}", "PYTHONDONTWRITEBYTECODE": "1"})
    assert (answer.returncode, answer.stderr) == (16, "act refused: 0\n")
    assert answer.stdout.startswith("act 0 (the first `[[act]]`, \"close\"): `name` is \"new\"")
