"""Where a bundle comes from, what its agents are called, and edits in words."""

import warnings

import pytest
from conftest import ROOT

import biqsolur
from biqsolur.ouch import Cancel, Enter
from biqsolur.program import program_of
from biqsolur.provenance import Provenance, record_path
from biqsolur.wording import decimal, order_words, time_words

TICK = ROOT / "examples" / "tick_size.toml"


@pytest.fixture
def study():
    """A small study with a branch."""
    return biqsolur.Study(TICK).with_("events", 6000).only("wide")


@pytest.fixture
def written(study, tmp_path):
    """The path of a bundle that was run and written."""
    biqsolur.run(study).write(tmp_path / "a.bundle")
    return tmp_path / "a.bundle"


def test_a_record_stands_beside_a_written_bundle(study, written):
    bundle, again = biqsolur.run(study), biqsolur.read(written)
    assert sorted(path.name for path in written.parent.iterdir()) == ["a.bundle", "a.bundle.run.json"]
    assert again.frames.raw.tobytes() == bundle.frames.raw.tobytes()
    assert again.provenance == bundle.provenance and again.study == study and "no record" not in repr(again)
    record = again.provenance
    assert record.study_text == study.to_text() and record.folder is None and record.series_sum is None
    assert record.version == (ROOT / "python" / "biqsolur" / "VERSION").read_text().strip()
    assert record.kit == (ROOT / "release" / "KIT").read_text().strip()
    assert record.program_sum == program_of(None).sum and len(record.program_sum) == 64
    assert record.time.endswith("Z") and record.seconds >= 0 and record.workers == 1
    assert record.bundle_bytes == written.stat().st_size
    assert dict(record.lines())["sum of the bundle"] == record.bundle_sum
    assert Provenance.from_json(record.to_json()) == record


def test_a_bundle_alone_says_so(written):
    record_path(written).unlink()
    bundle = biqsolur.read(written)
    assert bundle.provenance is None and bundle.study is None and repr(bundle).endswith("; no record of its run>")
    assert bundle.agent_names == ["exchange", *(f"trader {number}" for number in range(1, bundle.agents))]
    assert "words" not in bundle.branches["wide"].edits and "name" not in bundle.branches["wide"].closing.agents
    bundle.write(written.with_name("b.bundle"))
    assert not record_path(written.with_name("b.bundle")).exists()


@pytest.mark.parametrize("harm", [
    lambda text: text.replace('"bundle_bytes": ', '"bundle_bytes": 1'),
    lambda text: text.replace('"bundle_sum": "', '"bundle_sum": "x'),
    lambda text: text[:50],
    lambda text: text.replace('"form": 1', '"form": 2'),
    lambda text: text.replace('"workers": 1', '"workers": "1"'),
    lambda text: text.replace('"workers": 1', '"workings": 1'),
])
def test_a_record_of_another_bundle_is_left_out(written, harm):
    text = record_path(written).read_text()
    record_path(written).write_text(harm(text))
    assert record_path(written).read_text() != text
    bundle = biqsolur.read(written)
    with pytest.warns(UserWarning, match="it is left out"):
        assert bundle.provenance is None
    with warnings.catch_warnings():
        warnings.simplefilter("error")
        assert bundle.study is None


def test_nothing_is_written_over(study, written):
    bundle = biqsolur.run(study)
    with pytest.raises(biqsolur.OutputExistsError):
        bundle.write(written)
    written.unlink()
    with pytest.raises(biqsolur.OutputExistsError):     # its record is there still
        bundle.write(written)
    assert not written.exists()


def test_agents_are_called_by_kind_and_number(study):
    bundle = biqsolur.run(study)
    names = ["exchange"]
    for entry in study.to_dict()["agent"]:
        for _ in range(entry.get("count", 1)):
            names.append(f"{entry['kind']} {len(names)}")
    assert bundle.agent_names == biqsolur.agent_names(study) == names
    assert [bundle.agent_name(number) for number in (0, 1, 3)] == ["exchange", "maker 1", "noise 3"]
    assert bundle.agent_name(99) == "agent 99"
    assert list(bundle.branches["wide"].closing.agents["name"]) == names


def test_edits_are_told_in_words(study):
    frame = biqsolur.run(study).branches["wide"].edits
    assert list(frame["words"]) == ["tick of ABM: 5 cents from 0 dollars"]


EDITS = [
    (biqsolur.Tick("ABM", [("0", "0.01"), ("20", "0.05"), ("1.5", 1)]),
     "tick of ABM: 1 cent from 0 dollars, 5 cents from 20 dollars, 0.01 cents from 1.5 dollars"),
    (biqsolur.Fee("ABM", "-0.002", "0.003"), "fees of ABM: -0.002 dollars a share to add, 0.003 to take"),
    (biqsolur.Halt("ABM"), "halt of ABM"),
    (biqsolur.Resume("ABM"), "resume of ABM"),
    (biqsolur.Latency(1, 0, "50us", "2us"), "latency from group 1 to group 0: 50 us and up to 2 us more"),
    (biqsolur.Latency(1, 0, 999), "latency from group 1 to group 0: 999 ns"),
    (biqsolur.AgentParameter(1, "every", "250ms"), "every of maker 1: 250 ms"),
    (biqsolur.AgentParameter(1, "half", "0.02"), "half of maker 1: 2 cents"),
    (biqsolur.AgentParameter(1, "size", 1), "size of maker 1: 1 share"),
    (biqsolur.AgentParameter(1, "levels", 3), "levels of maker 1: 3"),
    (biqsolur.Silence(3), "silence of noise 3"),
    (biqsolur.Inject(3, Enter("A1", "B", 100, "ABM", "50.10"), "1.5s"),
     "order of noise 3: buy 100 ABM at 50.1 dollars, 1.5 s later"),
    (biqsolur.Inject(3, Enter("A1", "S", 1, "ABM", 10_000, display="N")), "order of noise 3: sell 1 ABM at 1 dollar, hidden"),
    (biqsolur.Inject(3, Cancel("A1", 40)), "order of noise 3: cancel A1 down to 40 shares"),
    (biqsolur.Inject(3, Cancel("A1")), "order of noise 3: cancel A1"),
    (biqsolur.SeriesOffset("ABM", "-0.05"), "value of ABM: 5 cents less"),
    (biqsolur.SeriesOffset("ABM", "1"), "value of ABM: 1 dollar more"),
]


@pytest.mark.parametrize("number", range(len(EDITS)))
def test_each_edit_in_words(number):
    study = biqsolur.Study(TICK).branch("more", after=1, edits=[biqsolur.Halt("ABM"), EDITS[number][0]])
    assert biqsolur.edit_words(study, "more", 1) == EDITS[number][1]


def test_an_edit_that_is_not_there(study):
    for branch, index in (("wide", 1), ("wide", -1), ("root", 0), ("nobody", 0)):
        with pytest.raises(biqsolur.InputError, match="the branches with edits are wide"):
            biqsolur.edit_words(study, branch, index)


def test_each_kind_of_edit_of_random_markets_has_words(market):
    study = biqsolur.Study(market.folder / "study.toml")
    count = 0
    for branch in market.study.get("branch", []):
        for index, edit in enumerate(branch.get("edit", [])):
            words = biqsolur.edit_words(study, branch["name"], index)
            count += 1
            assert edit.get("stock", "") in words
            if "agent" in edit:
                assert f"{market.traders[edit['agent']]['kind']} {edit['agent']}" in words
    bundle = biqsolur.run(market.folder / "study.toml")
    told = [words for branch in bundle.branches.values() for words in branch.edits["words"]] if count else []
    assert all(isinstance(words, str) and words for words in told)


def test_numbers_in_words():
    assert [decimal(*number) for number in ((0, 4), (5, 4), (-5, 4), (10_000, 4), (-12_300, 4))] == [
        "0", "0.0005", "-0.0005", "1", "-1.23"]
    assert [time_words(time) for time in (0, 999, 1000, 1_500_000, 10**9, 90 * 10**9)] == [
        "0 ns", "999 ns", "1 us", "1.5 ms", "1 s", "90 s"]
    assert order_words(b"") == "a message of 0 bytes"
