"""The cache of bundles: what is found again and what not, its bounds, damage, and several at once."""

import contextlib
import gc
import itertools
import os
import shutil
import subprocess
import sys
import threading
import warnings
from pathlib import Path

import pytest
from conftest import PACKAGE, ROOT

import biqsolur
from biqsolur import cache as caches
from biqsolur.__main__ import main
from biqsolur.provenance import record_path

TICK = ROOT / "examples" / "tick_size.toml"
ROWS = """\
version = 1
key = "00000000000000000000000000000000000000000000000000000000000000b2"
open = 1000
close = 900_000
events = 300
series = "values.csv"
exchange = { group = 0, delay = 10 }
latency = { base = [[5]], jitter = [[3]] }

[[stock]]
symbol = "XYZ"
bands = [[0, 100]]
add = 0
take = 0
series = "rows"

[[agent]]
kind = "value"
group = 0
stock = "XYZ"
first = 1000
every = 2000
wobble = 900
size = 100
noise = 500
margin = 100
count = 5
"""


@pytest.fixture(autouse=True)
def folder(tmp_path, monkeypatch):
    """A cache for each test, the clock of which counts the uses."""
    monkeypatch.setenv("XDG_CACHE_HOME", str(tmp_path / "cache"))
    monkeypatch.delenv("BIQSOLUR_CACHE_BYTES", raising=False)
    monkeypatch.setattr(caches, "now", itertools.count(10**18, 10**9).__next__)
    monkeypatch.setattr(caches, "warned", False)
    return tmp_path / "cache" / "biqsolur" / "runs"


@pytest.fixture
def counted(tmp_path, program):
    """(a program that notes each of its runs, what gives their number)"""
    log = tmp_path / "log"
    path = tmp_path / "counted"
    path.write_text(f"#!/bin/sh\necho \"$@\" >>'{log}'\nexec '{program}' \"$@\"\n")
    path.chmod(0o755)
    return path, lambda: len(log.read_text().splitlines()) if log.exists() else 0


def study_of(key):
    """A small study, another one for each key."""
    return biqsolur.Study(TICK).with_("key", key).with_("events", 500).only("root")


def bytes_of(bundle):
    """A bundle's bytes."""
    return bundle.frames.raw.tobytes()


def files_of(folder):
    """The names of the files in a folder."""
    return sorted(path.name for path in folder.iterdir()) if folder.is_dir() else []


def test_asking_twice_runs_once(counted, folder):
    program, runs = counted
    first = biqsolur.run(study_of(1), program=program)
    second = biqsolur.run(study_of(1), program=program, workers=3)
    assert runs() == 1 and bytes_of(first) == bytes_of(second)
    assert first.provenance == second.provenance and second.provenance.workers == 1
    path = Path(first.path)
    assert path.parent == folder and files_of(folder) == sorted([path.name, record_path(path).name])
    biqsolur.run(study_of(1), program=program, cache=False)
    assert runs() == 2
    biqsolur.run(study_of(2), program=program)
    assert runs() == 3


def test_layout_and_comments_make_another_entry(counted):
    program, runs = counted
    text = study_of(1).to_text()
    assert bytes_of(biqsolur.run(text, program=program)) == bytes_of(biqsolur.run(text + "# more\n", program=program))
    assert runs() == 2


def test_another_program_makes_another_entry(counted, tmp_path):
    program, runs = counted
    biqsolur.run(study_of(1), program=program)
    other = tmp_path / "other"
    other.write_text(program.read_text() + "# another one\n")
    other.chmod(0o755)
    biqsolur.run(study_of(1), program=other)
    assert runs() == 2
    program.write_text(program.read_text() + "# changed\n")
    biqsolur.run(study_of(1), program=program)
    assert runs() == 3


def test_a_copy_of_the_program_makes_another_entry(program, tmp_path):
    """The record says whether the program is that of the checkout, and a copy of it is not known to be."""
    copy = tmp_path / "copy"
    copy.write_bytes(Path(program).read_bytes())
    copy.chmod(0o755)
    own = biqsolur.run(study_of(1)).provenance
    named = biqsolur.run(study_of(1), program=copy).provenance
    assert (named.program_sum, named.bundle_sum) == (own.program_sum, own.bundle_sum)
    assert named.program_found == "named" and biqsolur.run(study_of(1)).provenance.program_found == own.program_found


def test_another_version_makes_another_entry(counted, monkeypatch):
    program, runs = counted
    biqsolur.run(study_of(1), program=program)
    monkeypatch.setattr("biqsolur.running.version", lambda: "9.9.9")
    assert biqsolur.run(study_of(1), program=program).provenance.version == "9.9.9" and runs() == 2


def test_another_series_file_makes_another_entry(counted, tmp_path):
    program, runs = counted
    (tmp_path / "rows").mkdir()
    study, series = tmp_path / "rows" / "rows.toml", tmp_path / "rows" / "values.csv"
    study.write_text(ROWS)
    series.write_text("symbol,time,value\nXYZ,1000,100000\nXYZ,5000,110000\n")
    first = biqsolur.run(study, program=program)
    assert bytes_of(biqsolur.run(study, program=program)) == bytes_of(first) and runs() == 1
    series.write_text("symbol,time,value\nXYZ,1000,100000\nXYZ,5000,120000\n")
    changed = biqsolur.run(study, program=program)
    assert runs() == 2 and bytes_of(changed) != bytes_of(first)
    assert first.provenance.series_sum != changed.provenance.series_sum
    shutil.copytree(tmp_path / "rows", tmp_path / "moved")
    moved = biqsolur.run(tmp_path / "moved" / "rows.toml", program=program)
    assert runs() == 2 and bytes_of(moved) == bytes_of(changed)
    assert moved.study.series_path == tmp_path / "moved" / "values.csv" and changed.study.series_path == series


def test_a_series_file_that_changes_during_the_run_is_not_kept(tmp_path, program, folder):
    series = tmp_path / "values.csv"
    series.write_text("symbol,time,value\nXYZ,1000,100000\n")
    (tmp_path / "rows.toml").write_text(ROWS)
    changing = tmp_path / "changing"
    changing.write_text(f"#!/bin/sh\necho XYZ,5000,90000 >>'{series}'\nexec '{program}' \"$@\"\n")
    changing.chmod(0o755)
    bundle = biqsolur.run(tmp_path / "rows.toml", program=changing)
    assert [name for name in files_of(folder) if name.endswith(".bundle")] == []
    assert len(bundle.branches["root"].events) > 0


def test_the_longest_unused_goes_first(counted, folder, monkeypatch):
    program, runs = counted
    bundles = [biqsolur.run(study_of(key), program=program) for key in (1, 2)]
    size = sum(path.stat().st_size for path in folder.iterdir()) // 2
    monkeypatch.setenv("BIQSOLUR_CACHE_BYTES", str(size * 5 // 2))
    biqsolur.run(study_of(1), program=program)      # so 2 is the longest unused
    biqsolur.run(study_of(3), program=program)
    assert runs() == 3
    assert not Path(bundles[1].path).exists() and Path(bundles[0].path).exists()
    assert len(bundles[1].branches["root"].events) == 500      # it is still mapped
    assert biqsolur.audit(bundles[1]).branches == 1
    biqsolur.run(study_of(1), program=program)
    assert runs() == 3
    assert bytes_of(biqsolur.run(study_of(2), program=program)) == bytes_of(bundles[1]) and runs() == 4


def test_the_cache_keeps_its_bound(folder, monkeypatch):
    biqsolur.run(study_of(1))
    limit = sum(path.stat().st_size for path in folder.iterdir()) * 7 // 2
    monkeypatch.setenv("BIQSOLUR_CACHE_BYTES", str(limit))
    for key in range(2, 9):
        biqsolur.run(study_of(key))
        assert sum(path.stat().st_size for path in folder.iterdir()) <= limit
    assert len(caches.entries(folder)) == 3


def test_a_bundle_beyond_the_bound_is_not_kept(folder, monkeypatch):
    monkeypatch.setenv("BIQSOLUR_CACHE_BYTES", "1000")
    bundle = biqsolur.run(study_of(1))
    path = Path(bundle.path)
    assert path.exists() and caches.entries(folder) == [] and bundle.provenance.bundle_bytes == path.stat().st_size
    caches.shrink(folder, 0)
    assert path.exists()        # it is in use
    del bundle
    gc.collect()
    assert files_of(folder) == []


def test_no_cache(folder, monkeypatch):
    monkeypatch.setenv("BIQSOLUR_CACHE_BYTES", "0")
    with warnings.catch_warnings():
        warnings.simplefilter("error")
        bundle = biqsolur.run(study_of(1))
    path = Path(bundle.path)
    assert not folder.exists() and path.exists() and bundle.study == study_of(1)
    del bundle
    gc.collect()
    assert not path.exists()


@pytest.mark.parametrize("said", ["many", "-1", "1e9", "٣"])
def test_a_bound_that_is_none(monkeypatch, said):
    monkeypatch.setenv("BIQSOLUR_CACHE_BYTES", said)
    with pytest.raises(biqsolur.CacheError, match="whole number of bytes"):
        biqsolur.run(study_of(1))


def test_a_cache_that_cannot_be_written(monkeypatch, tmp_path):
    (tmp_path / "file").write_text("")
    monkeypatch.setenv("XDG_CACHE_HOME", str(tmp_path / "file"))
    with pytest.warns(biqsolur.CacheWarning, match="XDG_CACHE_HOME") as told:
        bundle = biqsolur.run(study_of(1))
    assert [warning.filename for warning in told] == [__file__]      # whose line it shows
    with warnings.catch_warnings():
        warnings.simplefilter("error")      # it is said once
        again = biqsolur.run(study_of(1))
    assert bytes_of(bundle) == bytes_of(again)
    assert Path(bundle.path).exists() and bundle.path != again.path


def test_no_place_at_all(monkeypatch, tmp_path):
    (tmp_path / "file").write_text("")
    monkeypatch.setenv("XDG_CACHE_HOME", str(tmp_path / "file"))
    monkeypatch.setattr("tempfile.tempdir", str(tmp_path / "nowhere"))
    with pytest.warns(biqsolur.CacheWarning), pytest.raises(biqsolur.CacheError, match="set TMPDIR"):
        biqsolur.run(study_of(1))


def test_a_record_that_cannot_be_written(monkeypatch, folder):
    def full(*words):
        raise OSError("no room")

    monkeypatch.setattr(caches, "make_entry", full)
    with pytest.warns(biqsolur.CacheWarning, match="no room"):
        bundle = biqsolur.run(study_of(1))
    assert len(bundle.branches["root"].events) == 500 and bundle.study == study_of(1)
    assert files_of(folder) == [Path(bundle.path).name]
    del bundle
    gc.collect()
    assert files_of(folder) == []


def test_where_the_cache_lies(monkeypatch, tmp_path):
    monkeypatch.setenv("HOME", str(tmp_path))
    for said in ("relative", ""):       # a relative one says nothing
        monkeypatch.setenv("XDG_CACHE_HOME", said)
        assert caches.cache_folder() == tmp_path / ".cache" / "biqsolur" / "runs"
    monkeypatch.setenv("HOME", "nowhere")
    assert caches.cache_folder() is None


def replace(path, data):
    """Puts other bytes into a file's place; whoever has the old one mapped keeps it."""
    beside = path.with_name("beside")
    beside.write_bytes(data)
    beside.replace(path)


@pytest.mark.parametrize("harm", [
    lambda path, data: replace(path, data[:len(data) // 2]),
    lambda path, data: replace(path, data[:-20] + bytes([data[-20] ^ 1]) + data[-19:]),
    lambda path, data: replace(path, data + b"\0"),
    lambda path, data: replace(path, b""),
    lambda path, data: path.unlink(),
    lambda path, data: record_path(path).unlink(),
    lambda path, data: replace(record_path(path), b"{"),
    lambda path, data: replace(record_path(path), b"[]"),
    lambda path, data: replace(record_path(path), b'{"form": 1}'),
    lambda path, data: replace(record_path(path), record_path(path).read_bytes().replace(b'"version": "', b'"version": 5, "x": "')),
])
def test_a_damaged_entry_is_run_anew(counted, harm):
    program, runs = counted
    first = biqsolur.run(study_of(1), program=program)
    harm(Path(first.path), bytes_of(first))
    second = biqsolur.run(study_of(1), program=program)
    assert runs() == 2 and bytes_of(second) == bytes_of(first)
    biqsolur.run(study_of(1), program=program)
    assert runs() == 2


def test_what_killed_runs_left_is_taken_away(folder):
    folder.mkdir(parents=True)
    (folder / "biqsolur-left.part").write_text("half a bundle")
    with caches.part_file(folder) as part:
        biqsolur.run(study_of(1))
        assert not (folder / "biqsolur-left.part").exists()
        assert part.path.exists()       # it is locked: somebody writes it
    assert not part.path.exists()


def test_several_threads(folder):
    studies, answers, errors = [study_of(key) for key in (1, 2, 3)], {}, []

    def work(number):
        try:
            answers[number] = bytes_of(biqsolur.run(studies[number % 3]))
        except BaseException as error:
            errors.append(error)

    threads = [threading.Thread(target=work, args=(number,)) for number in range(12)]
    for thread in threads:
        thread.start()
    for thread in threads:
        thread.join()
    assert errors == []
    for number in range(12):
        assert answers[number] == bytes_of(biqsolur.run(studies[number % 3]))
    assert len(caches.entries(folder)) == 3 and not list(folder.glob("*.part"))


def test_several_processes(folder, monkeypatch, tmp_path):
    wanted = [bytes_of(biqsolur.run(study_of(key), cache=False)) for key in (1, 2)]
    size = max(map(len, wanted))
    monkeypatch.setenv("BIQSOLUR_CACHE_BYTES", str(size * 3 // 2 + 20_000))     # so they take each other's entries away
    (tmp_path / "words.py").write_text(
        "import sys, hashlib, biqsolur\n"
        "for place in range(12):\n"
        "    bundle = biqsolur.run(sys.argv[1 + place % 2])\n"
        "    print(hashlib.sha256(bundle.frames.raw).hexdigest(), len(bundle.branches['root'].events))\n")
    for key in (1, 2):
        study_of(key).write(tmp_path / f"{key}.toml")
    words = [sys.executable, tmp_path / "words.py", tmp_path / "1.toml", tmp_path / "2.toml"]
    some = [subprocess.Popen(words, env={**os.environ, "PYTHONPATH": str(PACKAGE)}, stdout=subprocess.PIPE, text=True)
            for _ in range(3)]
    answers = [process.communicate()[0].splitlines() for process in some]
    assert [process.returncode for process in some] == [0, 0, 0]
    assert answers[0] == answers[1] == answers[2] and len(answers[0]) == 12 and len(set(answers[0])) == 2
    assert not list(folder.glob("*.part"))


def test_a_forked_process_leaves_the_file(monkeypatch):
    monkeypatch.setenv("BIQSOLUR_CACHE_BYTES", "0")
    bundle = biqsolur.run(study_of(1))
    child = os.fork()
    if child == 0:
        with contextlib.suppress(BaseException):
            del bundle
            gc.collect()
        os._exit(0)
    os.waitpid(child, 0)
    assert Path(bundle.path).exists()


def test_the_command(capsys, folder):
    assert main(["cache", "show"]) == 0
    assert capsys.readouterr().out == f"{folder}: 0 bundles, 0 bytes of at most 2,000,000,000\n"
    bundle = biqsolur.run(study_of(1))
    size = sum(path.stat().st_size for path in folder.iterdir())
    assert main(["cache", "show"]) == 0
    assert capsys.readouterr().out == f"{folder}: 1 bundle, {size:,} bytes of at most 2,000,000,000\n"
    (folder / ("0" * 64 + ".bundle.run.json")).write_text("of a killed run")
    with caches.part_file(folder) as part:
        assert main(["cache", "clear"]) == 0
        assert files_of(folder) == [part.path.name]     # somebody writes it
    assert capsys.readouterr().out == f"{folder}: 1 bundle, {size:,} bytes removed\n"
    assert files_of(folder) == [] and len(bundle.branches["root"].events) == 500
