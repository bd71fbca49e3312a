"""The stored runs of the repository over the program that is used, and the examples against their sums."""

import pytest
import stored

GROUPS = sorted({case.group for case in stored.cases()})
WORDS = stored.example_words()


@pytest.mark.parametrize("group", GROUPS)
def test_the_cases_end_as_the_stored_runs_have_it(program, group):
    """Status, size, sum and text of each case of crates/study_cases, run over real files."""
    wrong = stored.faults(program, [case for case in stored.cases() if case.group == group])
    assert not wrong, "\n".join(wrong)


def test_the_first_three_command_lines_write_what_is_stored(program):
    """A word that is no text, a table, and a study that isn't there."""
    assert stored.head(program) == stored.stored_head()


@pytest.mark.parametrize("words", WORDS)
def test_the_examples_have_their_sums(program, words):
    """What the program writes for an example is byte for byte what it wrote when its sum was noted."""
    assert stored.example_sum(program, words) == stored.listed().get(words)


def test_each_example_has_a_sum_and_each_sum_an_example():
    """None was forgotten (python3 python/tests/stored.py PROGRAM --write notes them)."""
    assert list(stored.listed()) == WORDS


@pytest.fixture(scope="module")
def stub(tmp_path_factory):
    """A program that says of everything that the words are wrong."""
    path = tmp_path_factory.mktemp("stub") / "program"
    path.write_text("#!/bin/sh\necho 'usage: abides' >&2\nexit 2\n")
    path.chmod(0o755)
    return str(path)


def test_a_program_that_ends_otherwise_is_noticed(stub):
    """The comparison sees a wrong status, text, size and sum."""
    case = next(case for case in stored.cases() if case.name == "cut 5")
    assert [line.split(":")[0] for line in stored.faults(stub, [case])] == ["cut 5"]
    assert stored.head(stub) != stored.stored_head()
    assert stored.example_sum(stub, WORDS[0]) == "status 2, usage: abides"


def test_a_wrong_byte_of_the_output_is_noticed(program, tmp_path):
    """One more byte behind a whole output."""
    path = tmp_path / "program"
    path.write_text(f"#!/bin/sh\n'{program}' \"$@\" && printf x\n")
    path.chmod(0o755)
    case = next(case for case in stored.cases() if case.name == "whole 0")
    assert stored.faults(program, [case]) == []
    assert len(stored.faults(str(path), [case])) == 1
    assert stored.example_sum(str(path), WORDS[0]) != stored.listed()[WORDS[0]]
