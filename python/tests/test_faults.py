"""Damaged files and wrong questions: each has its own clear error."""

import random

import numpy
import plain
import pytest

import biqsolur
from biqsolur import check, frames


def verdict(path):
    """None, or offset and kind of the fault that the package finds."""
    try:
        biqsolur.read(path)
    except biqsolur.BundleError as error:
        # A frame `b` at the beginning is told as what it is, a rewind.
        cause = "bad order" if error.cause.startswith("this is a rewind") else error.cause
        return error.offset, cause.split(":")[0]
    return None


def plain_verdict(data):
    try:
        plain.read_plain(data)
    except plain.Fault as fault:
        return fault.offset, fault.cause
    return None


def test_damage_is_told_as_by_the_plain_reader(market, tmp_path):
    """Cuts, changed bytes, and bytes that are put in or taken out."""
    data = market.bundle.read_bytes()
    generator = random.Random(len(data))
    path = tmp_path / "damaged"
    for _ in range(5):
        at = generator.choice([generator.randrange(len(data)), generator.randrange(min(len(data), 300))])
        changed = generator.choice([
            data[:at],
            data[:at] + bytes([data[at] ^ 1 << generator.randrange(8)]) + data[at + 1:],
            data[:at] + data[at + 1:],
            data[:at] + b"\0" + data[at:],
            data + data[at:at + 1],
        ])
        path.write_bytes(changed)
        assert verdict(path) == plain_verdict(changed)


def test_each_frame_in_the_wrong_place_is_told(market, tmp_path):
    """Whole frames that are left out, doubled or exchanged."""
    data = market.bundle.read_bytes()
    payloads = plain.split_frames(data)
    generator = random.Random(len(payloads))
    path = tmp_path / "damaged"
    for _ in range(5):
        changed = list(payloads)
        kind = generator.choice(sorted({payload[:1] for payload in payloads}))
        other = generator.choice([place for place, payload in enumerate(payloads) if payload[:1] == kind])
        one = generator.randrange(len(changed))
        generator.choice([
            lambda: changed.pop(one), lambda: changed.insert(one, changed[other]),
            lambda: changed.__setitem__(one, changed[other]),
        ])()
        damaged = b"".join(len(payload).to_bytes(2, "big") + payload for payload in changed)
        path.write_bytes(damaged)
        assert verdict(path) == plain_verdict(damaged)


@pytest.fixture
def many_walkers(monkeypatch):
    """Small files are walked by many walkers too."""
    monkeypatch.setattr(frames, "SMALL_FILE", 0)
    monkeypatch.setattr(frames, "WALKERS", 64)


def test_each_byte_of_each_kind_of_frame(market, tmp_path):
    """Each byte of a frame of each kind and size is set to bytes of every class: which of them are no frames."""
    kinds = {}
    for payload in plain.split_frames(market.bundle.read_bytes()):
        kinds.setdefault((payload[:1], len(payload)), payload)
    header = kinds.pop((b"h", 9))
    payloads = [header]
    for payload in kinds.values():
        for at in range(len(payload)):
            payloads += [payload[:at] + byte + payload[at + 1:] for byte in (b"\0", b" ", b"!", b"A", b"~", b"\x7f", b"\xff")]
        payloads += [payload + b"\0", payload[:-1]]
    path = tmp_path / "frames"
    path.write_bytes(b"".join(len(payload).to_bytes(2, "big") + payload for payload in payloads))
    found = frames.read_frames(path)
    stocks = plain.number(header, 5, 2)
    expected = [not plain.frame_is_right(payload, stocks) for payload in payloads]
    assert check.bad_frames(found, 0, len(payloads), stocks).tolist() == expected


def test_walkers_find_what_one_walker_finds(market, many_walkers):
    """Also where the file is cut, and where its middle is damaged."""
    data = numpy.frombuffer(market.bundle.read_bytes(), numpy.uint8)
    damaged = data.copy()
    damaged[len(data) // 2:len(data) // 2 + 300] = 1
    for part in (data, *(data[:-cut] for cut in range(1, 8)), data[:-50], damaged):
        assert (frames.find_offsets(part) == frames.walk_alone(part)).all()


@pytest.mark.parametrize("greatest", [0, 1, 2, 50, 255])
def test_walkers_in_bytes_that_are_no_bundle(many_walkers, greatest):
    for size in (1_000, 20_000):
        noise = numpy.random.default_rng(size).integers(0, greatest, size, numpy.uint8, endpoint=True)
        assert (frames.find_offsets(noise) == frames.walk_alone(noise)).all()


@pytest.fixture(scope="module")
def small(program, tmp_path_factory):
    """The bundle of an example, as bytes, and a folder for changed ones."""
    import subprocess
    from conftest import ROOT
    study = str(ROOT / "examples" / "two_watchers.toml")
    return subprocess.run([program, "run", study], capture_output=True, check=True).stdout, tmp_path_factory.mktemp("small")


def test_each_byte_of_a_small_bundle(small):
    """Every byte changed, and every length that a cut file can have."""
    data, folder = small
    path = folder / "damaged"
    for at in range(0, len(data), max(1, len(data) // 150)):
        for changed in (data[:at], data[:at] + bytes([data[at] ^ 0x21]) + data[at + 1:]):
            path.write_bytes(changed)
            assert verdict(path) == plain_verdict(changed)


@pytest.mark.parametrize("content, offset, cause", [
    (b"", 0, "cut"),
    (b"\0", 0, "cut"),
    (b"\0\0", 0, "bad frame"),
    (b"hello, this is a text", 0, "cut"),
    (b"\0\3z\0\0", 0, "bad order"),
    (b"\0\x09h\0\2\0\1\0\1\0\1", 0, "bad frame"),
    (b"\0\x09h\0\1\0\1\0\1\0\1", 11, "cut"),
    (b"\0\x09h\0\1\0\1\0\1\0\1\0\3z\0\0", 11, "bad order"),
    (b"\0\x09h\0\1\0\0\0\0\0\0\0\3z\0\0x", 16, "bad order"),
    (b"\0\x12bx", 0, "cut"),
])
def test_files_that_are_no_bundle(tmp_path, content, offset, cause):
    path = tmp_path / "file"
    path.write_bytes(content)
    with pytest.raises(biqsolur.BundleError) as caught:
        biqsolur.read(path)
    assert (caught.value.offset, caught.value.cause.split(":")[0]) == (offset, cause)
    assert str(path) in str(caught.value) and str(offset) in str(caught.value)


def test_a_bundle_without_branches(tmp_path):
    path = tmp_path / "file"
    path.write_bytes(b"\0\x09h\0\1\0\1\0\1\0\0\0\3z\0\0")
    assert dict(biqsolur.read(path).branches) == {}


def test_two_branches_of_one_name(small):
    data, folder = small
    branch = data[11:data.rindex(b"\0\3z")]
    second = branch[:3] + b"\0\1" + branch[5:]
    path = folder / "twice"
    path.write_bytes(data[:9] + b"\0\2" + branch + second + b"\0\3z\0\2")
    with pytest.raises(biqsolur.BundleError) as caught:
        biqsolur.read(path)
    assert caught.value.offset == 11 + len(branch) and "second branch is called 'root'" in caught.value.cause


def test_two_stocks_of_one_symbol(market, tmp_path):
    data = market.bundle.read_bytes()
    at, places = 0, []
    while len(places) < plain.number(data, 7, 2):
        if data[at + 2:at + 3] == b"R":
            places.append(at)
        at += 2 + plain.number(data, at, 2)
    for place in places[1:]:
        path = tmp_path / "twice"
        path.write_bytes(data[:place + 13] + data[places[0] + 13:places[0] + 21] + data[place + 21:])
        with pytest.raises(biqsolur.BundleError, match="a second stock is called") as caught:
            biqsolur.read(path)
        assert caught.value.offset == place


def test_a_feed_that_takes_what_is_not_there(program, tmp_path):
    """A bundle by its frames, whose feed takes more shares than rest: the book says where."""
    import subprocess
    from conftest import ROOT
    study = str(ROOT / "examples" / "tick_size.toml")
    data = subprocess.run([program, "run", study], capture_output=True, check=True).stdout
    at = 0
    while data[at + 2:at + 3] != b"E":
        at += 2 + int.from_bytes(data[at:at + 2], "big")
    path = tmp_path / "odd"
    path.write_bytes(data[:at + 2 + 19] + b"\xff" + data[at + 2 + 20:])
    root = biqsolur.read(path).branches["root"]
    with pytest.raises(biqsolur.BundleError) as caught:
        root.book()
    assert caught.value.offset == at


def test_wrong_questions(market, tmp_path):
    bundle = biqsolur.read(market.bundle)
    root = bundle.branches["root"]
    with pytest.raises(biqsolur.UnknownBranchError, match="no branch 'wider'; there are root"):
        bundle.branches["wider"]
    for levels in (0, -1):
        with pytest.raises(biqsolur.LevelsError, match="at least one level"):
            root.book(levels=levels)
        with pytest.raises(biqsolur.LevelsError):
            biqsolur.to_lobster(tmp_path / "never", root, levels)
    assert not (tmp_path / "never").exists()
    there = tmp_path / "there"
    there.mkdir()
    for write in (bundle.to_csv, lambda path: biqsolur.to_lobster(path, root, 1), lambda path: biqsolur.to_itch(path, root)):
        with pytest.raises(biqsolur.OutputExistsError, match="is there already; nothing was written"):
            write(there)
    assert list(there.iterdir()) == []
    with pytest.raises(biqsolur.NoSuchFile, match=f"there is no {tmp_path}/none"):
        biqsolur.read(tmp_path / "none")
    with pytest.raises(biqsolur.ReadFailed, match="is a folder"):
        biqsolur.read(tmp_path)


def test_each_reader_names_the_right_one(market, tmp_path):
    states = tmp_path / "states"
    states.write_bytes(market.run("rewind", "root:3"))
    with pytest.raises(biqsolur.BundleError, match="read_rewind"):
        biqsolur.read(states)
    with pytest.raises(biqsolur.BundleError, match="biqsolur.read"):
        biqsolur.read_rewind(market.bundle)
    table = tmp_path / "table.csv"
    table.write_bytes(market.run("table"))
    with pytest.raises(biqsolur.BundleError, match="read_table"):
        biqsolur.read(table)
    with pytest.raises(biqsolur.InputError, match="there are root:3"):
        biqsolur.read_rewind(states).state("root", 4)
    states.write_bytes(states.read_bytes()[:-1])
    with pytest.raises(biqsolur.BundleError, match="cut"):
        biqsolur.read_rewind(states)


@pytest.mark.parametrize("text, words", [
    ("", "line 1"), ("a,b\n1,2\n", "no table"),
    ("branch,parent,stop,events,end,first_difference\nroot,,0,1,Quiet\n", "line 2"),
    ("branch,parent,stop,events,end,first_difference\nroot,,0,x,Quiet,0\n", "column events"),
])
def test_tables_that_are_none(tmp_path, text, words):
    path = tmp_path / "table.csv"
    path.write_text(text)
    with pytest.raises(biqsolur.InputError, match=words):
        biqsolur.read_table(path)


def test_long_numbers_are_exact(tmp_path):
    path = tmp_path / "table.csv"
    path.write_text(f"branch,parent,stop,events,end,first_difference,fees\nroot,,0,1,Quiet,0,{2**127 - 1}\n")
    assert biqsolur.read_table(path).fees[0] == 2**127 - 1


def test_times_on_request(market):
    events = biqsolur.timedeltas(biqsolur.read(market.bundle).branches["root"].events)
    assert str(events.time.dtype) == str(events.busy_until.dtype) == "timedelta64[ns]"
    assert events.time.astype("int64").tolist() == biqsolur.read(market.bundle).branches["root"].events.time.tolist()
    root = biqsolur.read(market.bundle).branches["root"]
    for frame, names in [(root.replies, ["time", "handled"]), (root.closing.agents, ["own_time"]), (root.book(1), ["time"])]:
        changed = biqsolur.timedeltas(frame)
        assert [name for name in changed if changed[name].dtype == "timedelta64[ns]"] == names
        assert all(changed[name].astype("int64").tolist() == frame[name].tolist() for name in names)


def test_the_parts_of_a_bundle_cover_its_frames(market):
    found = frames.read_frames(market.bundle)
    _, _, parts = check.bundle_parts(found)
    ends = [part.end for part in parts]
    assert [part.branch for part in parts] == [1, *ends[:-1]] and ends[-1] == len(found.starts) - 1
