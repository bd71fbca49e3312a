"""The scripts themselves: ./abides and ./prove over tiny checkouts whose program is a shell script.

Nothing here waits for a time: what must come is waited for, for 120 seconds at most.
"""

from __future__ import annotations

import hashlib
import lzma
import os
import re
import shlex
import shutil
import signal
import stat
import subprocess
import tempfile
import time
from collections.abc import Iterator
from contextlib import ExitStack, contextmanager
from pathlib import Path

import pytest
from conftest import ROOT

LONGEST = 120
RUNS = "abides: running the release made from these sources, as its record says (./prove proves and builds it here)\n"
WORDS_OF_HELP = ("run STUDY", "table STUDY", "check STUDY", "rewind STUDY B:E", "cross STUDY B:E SYMBOL FILE",
                 "session STUDY SCRIPT", "audit BUNDLE", "big NUMBER", "explore STUDY", "--workers N", "--places N")
# A program that ends as STUB_STATUS says, or by the signal that STUB_SIGNAL names, or never.
STUB = """#!/bin/sh
[ $# -gt 0 ] || { echo 'usage: abides' >&2; exit 2; }
printf '%s\\n' "$0" "$@"
[ -z "${STUB_STDIN-}" ] || cat
[ -z "${STUB_STATUS-}" ] || echo "note of the program" >&2
[ -z "${STUB_SIGNAL-}" ] || kill -s "$STUB_SIGNAL" $$
[ -z "${STUB_FOREVER-}" ] || { echo "at work as $$" >&2; exec sleep 1000; }
exit "${STUB_STATUS:-0}"
"""
# An rt that says which crates it proved, and builds the program; it waits for RT_WAITS, where that is set.
RT = """#!/bin/sh
[ "$1" = ci ] || { echo rattle-kit-stub; exit; }
echo called >>"$RT_CALLED"
echo "rt: base proved"
[ -z "${RT_WAITS-}" ] || { echo $$ >"$RT_CALLED.process"; read -r _ <"$RT_WAITS"; }
[ -z "${RT_FAILS-}" ] || { printf '== abides_main\nsrc/main.rt:1: error: no\nrt: abides_main NOT PROVED\n'; exit 1; }
mkdir -p crates/abides_main/out
cp crates/abides_main/src/main.rt crates/abides_main/out/abides_main
chmod +x crates/abides_main/out/abides_main
echo "rt: abides_main proved"
"""


# A program that notes which of its three streams are open.
SEES = """#!/bin/sh
[ $# -gt 0 ] || exit 2
open=
for each in 0 1 2; do
    [ ! -e "/proc/$$/fd/$each" ] || open=$open$each
done
echo "$open" >"$SEEN"
exit 7
"""


class Checkout:
    """A tiny checkout, with what a clone of the repository has of scripts, and three crates' worth of sources."""

    def __init__(self, home: Path, room: Path) -> None:
        """`home`: the folder of the checkout; `room`: one for the user's home and the stubs on the path."""
        self.home = home
        self.room = room
        self.out = home / "crates" / "abides_main" / "out"
        self.released = self.out / "abides_release"
        self.built = self.out / "abides_main"
        self.called = room / "rt.called"
        self.env = {"PATH": f"{room}/bin:/usr/bin:/bin", "HOME": str(room / "home"), "RT_CALLED": str(self.called)}

    def script(self, name: str = "abides") -> str:
        """The path of a script of the checkout."""
        return str(self.home / name)

    def call(self, *words: str, script: str | None = None, cwd: Path | None = None,
             **env: str) -> subprocess.CompletedProcess:
        """Runs a script to its end; its output as text."""
        return subprocess.run([script or self.script(), *words], cwd=cwd or self.room, env={**self.env, **env},
                              stdin=subprocess.DEVNULL, capture_output=True, text=True, timeout=LONGEST)

    def in_shell(self, line: str, **env: str) -> subprocess.CompletedProcess:
        """Runs a line of a shell in which ABIDES is the script, for what only a shell can close."""
        return subprocess.run(["/bin/sh", "-c", line], cwd=self.room, env={**self.env, "ABIDES": self.script(), **env},
                              capture_output=True, text=True, timeout=LONGEST)

    @contextmanager
    def started(self, *words: str, script: str | None = None, **env: str) -> Iterator[subprocess.Popen]:
        """Starts a script whose output can be read line by line; what still runs in the end is killed."""
        line = ["env", "--default-signal", script or self.script(), *words]
        process = subprocess.Popen(line, cwd=self.room, env={**self.env, **env}, stdin=subprocess.DEVNULL,
                                   stdout=subprocess.PIPE, stderr=subprocess.PIPE, text=True)
        try:
            yield process
        finally:
            process.kill()
            process.wait()
            for stream in filter(None, (process.stdout, process.stderr)):
                stream.close()

    def stub(self, name: str, text: str) -> None:
        """Puts a script on the path, before the system's."""
        path = self.room / "bin" / name
        path.write_text(text)
        path.chmod(0o755)

    def only(self, *names: str) -> dict[str, str]:
        """A path on which nothing but these names of the system's are."""
        folder = Path(tempfile.mkdtemp(dir=self.room))
        for name in names:
            (folder / name).symlink_to(shutil.which(name, path="/usr/bin:/bin") or "/nonexistent")
        return {"PATH": str(folder)}

    def pack(self, text: str = STUB, sources: str | None = None) -> None:
        """Makes a release of a program; `sources`: the sum that its record has, or that of the sources as they are."""
        release = self.home / "release"
        packed = lzma.compress(text.encode())
        (release / "abides-x86_64-linux.xz").write_bytes(packed)
        (release / "SHA256SUMS").write_text(f"{hashlib.sha256(packed).hexdigest()}  abides-x86_64-linux.xz\n"
                                            f"{hashlib.sha256(text.encode()).hexdigest()}  abides-x86_64-linux\n")
        (release / "SOURCES").write_text((sources or self.sum()) + "\n")
        (release / "KIT").write_text("rattle-kit-stub\n")

    def sum(self) -> str:
        """The sum of the sources, by the repository's own script."""
        return self.call(script=self.script("release/sources-sum")).stdout.strip()

    @property
    def rt_calls(self) -> int:
        """How often rt was started to prove."""
        return len(self.called.read_text().splitlines()) if self.called.exists() else 0


def lay_checkout(home: Path, room: Path) -> Checkout:
    """Makes a tiny checkout with its release."""
    for name in ("abides", "prove", "release/common.sh", "release/sources-sum", "release/check", "release/make",
                 "python/biqsolur/VERSION", "python/biqsolur/help.txt"):
        (home / name).parent.mkdir(parents=True, exist_ok=True)
        shutil.copy(ROOT / name, home / name)
    for folder in (home / "crates/base/src", home / "crates/abides_main/src", room / "bin", room / "home"):
        folder.mkdir(parents=True, exist_ok=True)
    (home / "crates.txt").write_text("# two crates\nbase: plain\nabides_main: base\n")
    (home / "HANDLES").write_text("abides_main\n")
    (home / "crates/base/src/lib.rt").write_text("pub fn one() {}\n")
    (home / "crates/abides_main/src/main.rt").write_text(STUB)
    checkout = Checkout(home, room)
    checkout.stub("rt", RT)
    checkout.pack()
    return checkout


@pytest.fixture
def checkout(tmp_path: Path) -> Checkout:
    """A tiny checkout in which nothing was called yet."""
    return lay_checkout(tmp_path / "check out", tmp_path / "room")


@pytest.fixture(scope="module")
def used(tmp_path_factory: pytest.TempPathFactory) -> Checkout:
    """A tiny checkout whose release is unpacked. No test changes it."""
    folder = tmp_path_factory.mktemp("used")
    checkout = lay_checkout(folder / "clone", folder / "room")
    assert checkout.call("run").stderr == RUNS
    return checkout


def until(condition, what: str) -> None:
    """Waits for a condition, and fails where it doesn't come."""
    last = time.monotonic() + LONGEST
    while not condition():
        assert time.monotonic() < last, f"waited {LONGEST} s for {what}"
        time.sleep(0.01)


def line_of(process: subprocess.Popen, pattern: str) -> re.Match:
    """Reads standard error to a line of this form."""
    assert process.stderr is not None
    for line in process.stderr:
        if match := re.search(pattern, line):
            return match
    raise AssertionError(f"no line {pattern}; status {process.wait()}")


def is_gone(number: int) -> bool:
    """Whether a process has ended, waited for by its parent or not."""
    try:
        return Path(f"/proc/{number}/stat").read_text().rpartition(")")[2].split()[0] in "ZX"
    except OSError:
        return True


# Help and version

@pytest.mark.parametrize("words", [[], ["--help"], ["-h"], ["help"]])
def test_help_lists_commands_options_and_statuses(used: Checkout, words: list[str]) -> None:
    """On standard output, with status 0, and nothing on standard error."""
    answer = used.call(*words)
    assert (answer.returncode, answer.stderr) == (0, "")
    assert all(word in answer.stdout for word in WORDS_OF_HELP)
    assert all(re.search(rf"(^| ) {status}  \S", answer.stdout, re.MULTILINE) for status in range(17))


def test_help_needs_no_program(checkout: Checkout) -> None:
    """Nothing is unpacked or built for it."""
    assert checkout.call("--help").returncode == 0
    assert not checkout.out.exists() and checkout.rt_calls == 0


def test_version_names_kit_and_sources(used: Checkout) -> None:
    """Three lines: the version that stands in its one file, the kit of the release, the sum of the sources."""
    version = (ROOT / "python/biqsolur/VERSION").read_text().strip()
    answer = used.call("--version")
    assert answer.returncode == 0
    assert answer.stdout == f"abides {version}\nkit: rattle-kit-stub\nsources: {used.sum()}\n"


# Which program is run

def test_the_release_is_unpacked_once_and_run(checkout: Checkout) -> None:
    """The first call says so, the second nothing; both give the program's words and output."""
    first, second = checkout.call("run", "a b", "*"), checkout.call("run", "a b", "*")
    assert (first.returncode, first.stderr) == (0, RUNS)
    assert first.stdout == second.stdout == f"{checkout.released}\nrun\na b\n*\n"
    assert (second.returncode, second.stderr) == (0, "")
    assert sorted(path.name for path in checkout.out.iterdir()) == ["abides_release", "abides_release.sum"]


def test_program_prints_the_path_alone(checkout: Checkout) -> None:
    """Unpacked where needed; nothing else on standard output."""
    for said in (RUNS, ""):
        answer = checkout.call("--program")
        assert (answer.returncode, answer.stdout, answer.stderr) == (0, f"{checkout.released}\n", said)


def test_program_builds_nothing(checkout: Checkout) -> None:
    """Where there is none it says so, status 1."""
    (checkout.home / "release/SOURCES").unlink()
    answer = checkout.call("--program")
    assert (answer.returncode, answer.stdout, checkout.rt_calls) == (1, "", 0)
    assert answer.stderr == "abides: there is no release: ./prove proves and builds the program\n"


def test_a_stranger_in_the_programs_place_is_not_run(checkout: Checkout) -> None:
    """An executable without a stamp, or with that of another program or other sources, is passed over."""
    checkout.out.mkdir()
    checkout.built.write_text("#!/bin/sh\necho stranger\n")
    checkout.built.chmod(0o755)
    stamp = checkout.out / "abides_main.sum"
    own = hashlib.sha256(checkout.built.read_bytes()).hexdigest()
    for text in (None, f"program {'0' * 64}\nsources {checkout.sum()}\n", f"program {own}\nsources {'0' * 64}\n"):
        if text is not None:
            stamp.write_text(text)
            os.utime(stamp, (0, 0))
        assert checkout.call("run").stdout == f"{checkout.released}\nrun\n"
    stamp.write_text(f"program {own}\nsources {checkout.sum()}\n")
    assert checkout.call("run").stdout == "stranger\n"


def test_a_changed_source_is_built_anew(checkout: Checkout) -> None:
    """And so is one with an older time, a new one, and one that is gone."""
    assert checkout.call("run").returncode == 0
    source = checkout.home / "crates/base/src/lib.rt"
    source.write_text("pub fn two() {}\n")
    os.utime(source, (0, 0))
    answer = checkout.call("run", "x")
    assert answer.stdout == f"{checkout.built}\nrun\nx\n"
    assert answer.stderr.startswith("abides: the release is of other sources; building from source\n")
    assert "prove: abides_main is proved, 2 of 2, after" in answer.stderr and checkout.rt_calls == 1
    (source.parent / "more.rt").write_text("")
    assert (checkout.call("run").returncode, checkout.rt_calls) == (0, 2)
    source.unlink()
    assert (checkout.call("run").returncode, checkout.rt_calls) == (0, 3)
    assert (checkout.call("run").stderr, checkout.rt_calls) == ("", 3)


@pytest.mark.parametrize("where, said", [
    ("packed", "is damaged: "), ("unpacked sum", "holds another program than release/SHA256SUMS names"),
    ("packed sum", "is damaged: its sum is not the one"), ("gone", "is missing"), ("sources", "is of other sources"),
    ("unstartable", "the release does not start on this machine: ")])
def test_a_wrong_release_is_not_run(checkout: Checkout, where: str, said: str) -> None:
    """Without rt it is two lines that say why, and status 1."""
    release = checkout.home / "release"
    packed, sums = release / "abides-x86_64-linux.xz", release / "SHA256SUMS"
    lines = sums.read_text().splitlines()
    if where == "packed":
        packed.write_bytes(packed.read_bytes()[:-20])
    elif where == "unpacked sum":
        sums.write_text(f"{lines[0]}\n{'0' * 64}{lines[1][64:]}\n")
    elif where == "packed sum":
        sums.write_text(f"{'0' * 64}{lines[0][64:]}\n{lines[1]}\n")
    elif where == "gone":
        packed.unlink()
    elif where == "sources":
        (release / "SOURCES").write_text("0" * 64 + "\n")
    else:
        checkout.pack("#!/nonexistent/shell\n")
    (checkout.room / "bin/rt").unlink()
    answer = checkout.call("run")
    assert (answer.returncode, answer.stdout) == (1, "")
    lines = answer.stderr.splitlines()
    assert len(lines) == 2 and said in lines[0] and lines[0].endswith("; building from source")
    assert lines[1].startswith("prove: there is no rt on the path")
    assert not checkout.out.exists() or not [*checkout.out.iterdir()]


def test_another_program_can_be_named(used: Checkout, tmp_path: Path) -> None:
    """BIQSOLUR_PROGRAM is run, and said; what is no program is an error; the script itself is none."""
    other = tmp_path / "other one"
    other.write_text("#!/bin/sh\necho other\n")
    other.chmod(0o755)
    answer = used.call("run", BIQSOLUR_PROGRAM=str(other))
    assert (answer.returncode, answer.stdout) == (0, "other\n")
    assert answer.stderr == f"abides: running BIQSOLUR_PROGRAM, which nothing ties to these sources: {other}\n"
    assert used.call("--program", BIQSOLUR_PROGRAM="other one", cwd=tmp_path).stdout == f"{other}\n"
    answer = used.call("run", BIQSOLUR_PROGRAM=str(tmp_path))
    assert answer.returncode == 1
    assert answer.stderr == f"abides: BIQSOLUR_PROGRAM names no program that can be started: {tmp_path}\n"
    assert used.call("run", BIQSOLUR_PROGRAM=used.script()).stdout == f"{used.released}\nrun\n"


def test_explore_becomes_the_packages_command(checkout: Checkout) -> None:
    """By the first Python that has the packages, with this checkout's package before others; no program is needed."""
    checkout.stub("python3", '#!/bin/sh\n[ "$1" != -c ] || exit 0\nprintf "%s\\n" "$PYTHONPATH" "$@"\nexit 9\n')
    answer = checkout.call("explore", "a b", "--port", "0", PYTHONPATH="/mine")
    assert (answer.returncode, answer.stderr) == (9, "")
    words = ["-m", "biqsolur", "explore", "a b", "--port", "0"]
    assert answer.stdout.splitlines() == [f"{checkout.home}/python:/mine", *words]
    assert not checkout.out.exists()


# Statuses, signals, streams

FILE_WORDS = ["cross", "--workers", "4", "study", "B:E", "--", "SYM", "orders"]
FILES = {5: "study", 12: "orders --study study", 13: "study", 14: "study",
         15: "B:E --study study", 16: "B:E --study study"}


@pytest.mark.parametrize("status", range(17))
def test_statuses_are_handed_on_and_refusals_are_followed_by_a_line(used: Checkout, status: int) -> None:
    """The line names the file of which more can be said."""
    answer = used.call(*FILE_WORDS, STUB_STATUS=str(status))
    assert answer.returncode == status
    first, *more = answer.stderr.splitlines()
    assert first == "note of the program"
    hint = f"abides: to see why: PYTHONPATH={used.home}/python python3 -m biqsolur why {FILES.get(status)}"
    assert more == ([hint] if status in FILES else [])


@pytest.mark.parametrize("name", ["plain.toml", "two words", "it's", "-dash", "$(date)", "a;b|c&d", "äöü", "*"])
def test_what_is_to_be_typed_can_be_typed(checkout: Checkout, name: str) -> None:
    """Names with blanks, quotes and a leading dash come to Python as they were."""
    line = checkout.call("check", "--", name, STUB_STATUS="5").stderr.splitlines()[-1].split(": ", 2)[2]
    checkout.stub("python3", "#!/bin/sh\nprintf '%s\\n' \"$PYTHONPATH\" \"$@\"\n")
    answer = checkout.in_shell(line)
    file = f"./{name}" if name.startswith("-") else name
    assert answer.stdout.splitlines() == [str(checkout.home / "python"), "-m", "biqsolur", "why", file]


def test_control_characters_of_a_name_are_not_repeated(used: Checkout) -> None:
    """A stranger's name can't write to the terminal by this script's line."""
    answer = used.call("check", "a\x1b[31mb", STUB_STATUS="5")
    assert answer.stderr.splitlines()[-1].endswith("biqsolur why FILE")


@pytest.mark.parametrize("number", [signal.SIGTERM, signal.SIGINT, signal.SIGHUP, signal.SIGQUIT, signal.SIGKILL,
                                    signal.SIGUSR1])
def test_a_signal_ends_script_and_program(used: Checkout, number: signal.Signals) -> None:
    """The caller sees the signal, and the program is gone."""
    with used.started("run", STUB_FOREVER="yes") as process:
        program = int(line_of(process, r"at work as (\d+)")[1])
        process.send_signal(number)
        assert process.wait(LONGEST) == -number
        until(lambda: is_gone(program), "the program's end")


@pytest.mark.parametrize("name", ["TERM", "KILL", "SEGV", "PIPE", "INT", "ABRT"])
def test_a_signal_that_ended_the_program_is_handed_on(used: Checkout, name: str) -> None:
    """And the shell says nothing of it."""
    answer = used.call("run", STUB_SIGNAL=name)
    assert (answer.returncode, answer.stderr) == (-getattr(signal, f"SIG{name}"), "")


def test_the_program_reads_what_the_script_was_given(used: Checkout) -> None:
    """Standard input is the program's."""
    answer = used.in_shell('echo given | "$ABIDES" run', STUB_STDIN="yes")
    assert answer.stdout == f"{used.released}\nrun\ngiven\n"


@pytest.mark.parametrize("streams", ["2>&-", "2>/dev/full", ">&-", "<&-", "<&- >&- 2>&-", ">/dev/full"])
def test_closed_and_full_streams_build_nothing(checkout: Checkout, streams: str) -> None:
    """The first call unpacks and runs, as does the second; the program finds the streams as they were given."""
    checkout.pack(SEES)
    for turn in ("first", "second"):
        seen = checkout.room / turn
        answer = checkout.in_shell(f'"$ABIDES" run {streams}; exit $?', SEEN=str(seen))
        assert answer.returncode == 7
        closed = {number for word, number in (("<&-", "0"), (">&-", "1"), ("2>&-", "2")) if word in streams.split()}
        assert seen.read_text() == "".join(sorted({"0", "1", "2"} - closed)) + "\n"
    assert checkout.rt_calls == 0 and checkout.released.exists()


# Surroundings

def test_through_symbolic_links_from_any_folder(checkout: Checkout) -> None:
    """The link is resolved before anything is read: nothing of the link's own folder is."""
    bin_ = checkout.room / "links"
    (bin_ / "release").mkdir(parents=True)
    (bin_ / "release/common.sh").write_text("echo evil\nexit 0\n")
    (bin_ / "abides").symlink_to(checkout.script())
    (bin_ / "again").symlink_to("abides")
    (checkout.room / "folder").symlink_to(checkout.home)
    for path in (bin_ / "abides", bin_ / "again", checkout.room / "folder/abides"):
        assert checkout.call("run", script=str(path)).stdout == f"{checkout.released}\nrun\n"
    answer = checkout.call("run", script="again", PATH=f"{bin_}:{checkout.env['PATH']}")
    assert answer.stdout == f"{checkout.released}\nrun\n"


def test_a_copy_outside_says_what_it_lacks(checkout: Checkout) -> None:
    """One line, status 1."""
    for name in ("abides", "prove"):
        shutil.copy(checkout.script(name), checkout.room / name)
        answer = checkout.call("run", script=str(checkout.room / name))
        assert (answer.returncode, answer.stdout) == (1, "")
        assert answer.stderr == f"{name}: {checkout.room} has no release/common.sh: run it from a whole checkout\n"


@pytest.mark.parametrize("name", ["with blank", "a'b\"c", "new\nline", "end\n", "\n"])
def test_a_checkout_of_any_name(tmp_path: Path, name: str) -> None:
    """Blanks, quotes and newlines, also at the end."""
    checkout = lay_checkout(tmp_path / name, tmp_path / "room")
    answer = checkout.call("run")
    assert (answer.returncode, answer.stdout, answer.stderr) == (0, f"{checkout.released}\nrun\n", RUNS)


def test_variables_of_git_change_nothing(checkout: Checkout) -> None:
    """A hook's own variables, and a repository of which others can't tell."""
    git = ["git", "-c", "user.name=a", "-c", "user.email=a@b", "-C", str(checkout.home)]
    for words in (["init", "-q"], ["add", "-A"], ["commit", "-qm", "first"]):
        subprocess.run([*git, *words], check=True, env=checkout.env, capture_output=True)
    (checkout.home / "crates/base/notes").write_text("git does not track this\n")
    checkout.pack()
    nowhere = str(checkout.room / "nowhere")
    answer = checkout.call("run", GIT_DIR=nowhere, GIT_INDEX_FILE=nowhere, GIT_WORK_TREE=nowhere, GIT_PREFIX="crates/")
    assert (answer.returncode, answer.stderr, checkout.rt_calls) == (0, RUNS, 0)


def test_settings_of_xz_change_nothing(checkout: Checkout) -> None:
    """XZ_DEFAULTS and XZ_OPT are for the user's own calls."""
    answer = checkout.call("run", XZ_DEFAULTS="--list --nonsense", XZ_OPT="--format=raw")
    assert (answer.returncode, answer.stderr) == (0, RUNS)


TOOLS = ("sh", "readlink", "sha256sum", "cut", "sed", "cat", "mkdir", "mv", "rm", "chmod", "find", "sort", "xargs",
         "uname", "tail", "touch", "setpriv", "env", "wc", "sleep")


@pytest.mark.parametrize("more", [("xz",), ("xz", "awk", "git"), ("dpkg-deb", "tar", "gzip")])
def test_few_tools_suffice(checkout: Checkout, more: tuple[str, ...]) -> None:
    """Neither awk nor git is needed, and Debian's dpkg-deb unpacks in the place of xz."""
    answer = checkout.call("run", **checkout.only(*TOOLS, *more))
    assert (answer.returncode, answer.stdout, answer.stderr) == (0, f"{checkout.released}\nrun\n", RUNS)
    assert len([*checkout.out.iterdir()]) == 2


def test_without_something_that_unpacks_it_builds(checkout: Checkout) -> None:
    """And says which tool is missing."""
    answer = checkout.call("run", **checkout.only(*TOOLS))
    assert answer.returncode == 1
    assert answer.stderr.startswith("abides: there is no xz on the path to unpack the release; building from source\n")


@pytest.mark.parametrize("lacking", ["setpriv", "env"])
def test_without_setpriv_the_program_is_run_all_the_same(used: Checkout, lacking: str) -> None:
    """The script becomes it then, and the second line is left out."""
    answer = used.call("run", STUB_STATUS="5", **used.only(*(set(TOOLS) - {lacking})))
    assert (answer.returncode, answer.stderr) == (5, "note of the program\n")


@pytest.mark.parametrize("name", ["abides_release", "abides_main"])
def test_a_folder_in_the_programs_place_is_said(checkout: Checkout, name: str) -> None:
    """One line, status 1; that of the built program is in the way only where it is built."""
    (checkout.out / name).mkdir(parents=True)
    if name == "abides_main":
        assert checkout.call("run").returncode == 0
        (checkout.home / "release/SOURCES").unlink()
        checkout.released.unlink()
    answer = checkout.call("run")
    assert answer.returncode == 1
    last = answer.stderr.splitlines()[-1]
    assert last.endswith(f"{checkout.out / name} is a folder in the program's place: remove it")


def test_where_nothing_starts_in_the_checkout_the_users_cache_serves(checkout: Checkout) -> None:
    """A mount without leave to execute, here one on which chmod does nothing."""
    checkout.stub("chmod", '#!/bin/sh\ncase $2 in */out/*) exit 0 ;; esac\nexec /bin/chmod "$@"\n')
    kept = checkout.room / "home/.cache/biqsolur/abides_release"
    for said in (RUNS, ""):
        answer = checkout.call("run")
        assert (answer.returncode, answer.stdout, answer.stderr) == (0, f"{kept}\nrun\n", said)
    assert not [*checkout.out.iterdir()]
    answer = checkout.call("run", HOME="")
    assert answer.returncode == 1 and answer.stderr.startswith("abides: no leave to write a program in ")
    (checkout.home / "crates/base/src/lib.rt").write_text("other\n")
    assert checkout.call("--program").returncode == 1


def test_a_stamp_in_the_users_cache_is_of_the_sources_themselves(checkout: Checkout, tmp_path: Path) -> None:
    """Another checkout that takes the first one's place is older than the stamp, and still not mistaken for it."""
    other = lay_checkout(tmp_path / "other", checkout.room)
    (other.home / "crates/base/src/lib.rt").write_text("other\n")
    other.pack(STUB.replace("printf '", "echo other; printf '"))
    checkout.stub("chmod", '#!/bin/sh\ncase $2 in */out/*) exit 0 ;; esac\nexec /bin/chmod "$@"\n')
    assert checkout.call("run").returncode == 0
    checkout.home.rename(tmp_path / "before")
    other.home.rename(checkout.home)
    answer = checkout.call("run")
    assert (answer.returncode, answer.stdout.splitlines()[0], answer.stderr) == (0, "other", RUNS)


@pytest.fixture
def for_others() -> Iterator[Path]:
    """A folder that other users may enter."""
    folder = Path(tempfile.mkdtemp())
    folder.chmod(0o755)
    yield folder
    shutil.rmtree(folder, ignore_errors=True)


def test_a_checkout_without_leave_to_write(for_others: Path) -> None:
    """The program is put into the user's cache; without one it is a line and status 1."""
    checkout = lay_checkout(for_others / "clone", for_others / "room")
    home = checkout.room / "home"
    user = {}
    if os.geteuid() == 0:
        user = {"user": 65534, "group": 65534, "extra_groups": []}
        os.chown(home, 65534, 65534)
    for path in [checkout.home, *checkout.home.rglob("*")]:
        path.chmod(path.stat().st_mode & ~(stat.S_IWUSR | stat.S_IWGRP | stat.S_IWOTH))
    words = [checkout.script(), "run"]
    answer = subprocess.run(words, env=checkout.env, capture_output=True, text=True, cwd="/", **user)
    assert (answer.returncode, answer.stdout) == (0, f"{home}/.cache/biqsolur/abides_release\nrun\n")
    checkout.env["HOME"] = "/nonexistent"
    answer = subprocess.run(words, env=checkout.env, capture_output=True, text=True, cwd="/", **user)
    assert answer.returncode == 1 and answer.stderr.startswith("abides: no leave to write a program in ")
    for path in [checkout.home, *checkout.home.rglob("*")]:
        path.chmod(path.stat().st_mode | stat.S_IWUSR)


def test_ten_at_once(checkout: Checkout) -> None:
    """All in a fresh checkout: each runs, and nothing is left over."""
    with ExitStack() as stack:
        several = [stack.enter_context(checkout.started("run", str(number))) for number in range(10)]
        for number, process in enumerate(several):
            output, said = process.communicate(timeout=LONGEST)
            assert (process.returncode, output) == (0, f"{checkout.released}\nrun\n{number}\n")
            assert said in (RUNS, "")
    assert sorted(path.name for path in checkout.out.iterdir()) == ["abides_release", "abides_release.sum"]


# ./prove

def prove(checkout: Checkout, *words: str, **env: str) -> subprocess.CompletedProcess:
    """Runs ./prove."""
    return checkout.call(*words, script=checkout.script("prove"), **env)


def test_prove_builds_what_abides_then_runs(checkout: Checkout) -> None:
    """A second call has nothing to do, unless it is asked to."""
    answer = prove(checkout)
    assert answer.returncode == 0 and answer.stderr == ""
    assert re.search(r"prove: base is proved, 1 of 2, after 0 min \d+ s\n", answer.stdout)
    assert "prove: the proved program is built" in answer.stdout
    assert checkout.call("run").stdout == f"{checkout.built}\nrun\n"
    assert "is there (./prove --again builds it anew)" in prove(checkout).stdout and checkout.rt_calls == 1
    assert (prove(checkout, "--again").returncode, checkout.rt_calls) == (0, 2)


def test_what_builds_keeps_input_and_output_for_the_program(checkout: Checkout) -> None:
    """What ./prove says comes on standard error."""
    (checkout.home / "release/SOURCES").unlink()
    answer = checkout.in_shell('echo given | "$ABIDES" run', STUB_STDIN="yes", STUB_STATUS="3")
    assert (answer.returncode, answer.stdout) == (3, f"{checkout.built}\nrun\ngiven\n")
    assert answer.stderr.startswith("abides: there is no release; building from source\nprove: proving 2 crates in ")
    assert answer.stderr.endswith("s\nnote of the program\n")


@pytest.mark.parametrize("words", [["--nonsense"], ["--again", "more"], ["run"]])
def test_prove_takes_no_other_words(checkout: Checkout, words: list[str]) -> None:
    """One line, status 1."""
    answer = prove(checkout, *words)
    assert (answer.returncode, answer.stdout, answer.stderr) == (1, "", "prove: usage: ./prove [--again]\n")


def test_a_failed_proof_is_told(checkout: Checkout) -> None:
    """With the first error, where the log is, and status 1; nothing is left in the program's place."""
    answer = prove(checkout, RT_FAILS="yes")
    assert answer.returncode == 1 and not checkout.built.exists()
    assert "prove: abides_main, first error: src/main.rt:1: error: no\n" in answer.stdout
    assert answer.stderr.startswith("prove: not all crates were proved: ")
    assert "src/main.rt:1: error: no" in (checkout.out / "prove.log").read_text()


@pytest.mark.parametrize("lacking, said", [("rt", "there is no rt on the path"),
                                           ("home", "neither XDG_CACHE_HOME nor HOME")])
def test_prove_says_what_it_lacks(checkout: Checkout, lacking: str, said: str) -> None:
    """One line, status 1."""
    (checkout.room / "bin/rt").unlink() if lacking == "rt" else checkout.env.pop("HOME")
    answer = prove(checkout)
    assert (answer.returncode, answer.stdout) == (1, "") and answer.stderr.startswith(f"prove: {said}")
    assert len(answer.stderr.splitlines()) == 1


@pytest.fixture
def waiting(checkout: Checkout) -> Checkout:
    """A checkout whose rt waits until a line comes through a pipe."""
    os.mkfifo(checkout.room / "go")
    checkout.env["RT_WAITS"] = str(checkout.room / "go")
    return checkout


def process_of_rt(checkout: Checkout) -> int:
    """The number of the rt that waits, once it does."""
    path = Path(f"{checkout.called}.process")
    until(lambda: path.exists() and path.read_text().endswith("\n"), "rt's start")
    return int(path.read_text())


def test_prove_says_what_it_is_at(waiting: Checkout) -> None:
    """Again and again, until rt is done; which crates come next is told too."""
    with waiting.started(script=waiting.script("prove"), PROVE_TELLS_EVERY="0.05") as process:
        assert process.stdout is not None
        process_of_rt(waiting)
        told = 0
        for line in process.stdout:
            told += line.endswith("s, 1 of 2 crates done; now or next: abides_main \n") and "at work for" in line
            if told == 3:
                break
        (waiting.room / "go").write_text("go\n")
        process.communicate(timeout=LONGEST)
        assert process.returncode == 0


@pytest.mark.parametrize("number", [signal.SIGTERM, signal.SIGINT, signal.SIGQUIT, signal.SIGHUP, signal.SIGKILL])
@pytest.mark.parametrize("script", ["prove", "abides"])
def test_an_end_while_it_proves_leaves_nothing_behind(waiting: Checkout, script: str, number: signal.Signals) -> None:
    """No rt, and no turn that keeps the next call away; also where ./abides is what builds."""
    (waiting.home / "release/SOURCES").unlink()
    words = ["run"] if script == "abides" else []
    with waiting.started(*words, script=waiting.script(script)) as process:
        rt = process_of_rt(waiting)
        process.send_signal(number)
        _, said = process.communicate(timeout=LONGEST)
        assert process.returncode == (-9 if number == signal.SIGKILL else 1)
        assert ("prove: interrupted after" in said) is (number != signal.SIGKILL)
    until(lambda: is_gone(rt), "rt's end")
    waiting.env.pop("RT_WAITS")
    assert prove(waiting).returncode == 0


def test_two_calls_do_not_prove_at_once(waiting: Checkout) -> None:
    """The second says which process is at work; a turn of a stranger's number, or of an older kind, blocks nothing."""
    with waiting.started(script=waiting.script("prove")) as process:
        process_of_rt(waiting)
        answer = prove(waiting)
        assert answer.returncode == 1
        assert answer.stderr == f"prove: another ./prove is at work on this clone (process {process.pid})\n"
        (waiting.room / "go").write_text("go\n")
        process.communicate(timeout=LONGEST)
        assert process.returncode == 0
    waiting.env.pop("RT_WAITS")
    turn = next((waiting.room / "home/.cache/biqsolur").glob("*/turn"))
    turn.write_text("1\n")
    assert prove(waiting, "--again").returncode == 0
    turn.unlink()
    turn.mkdir()
    (turn / "process").write_text("1\n")
    assert prove(waiting, "--again").returncode == 0


# The gate's half that looks at the release

def test_the_release_is_compared_with_what_was_built(checkout: Checkout) -> None:
    """The same bytes pass, another byte fails, other sources pass and are said."""
    assert prove(checkout).returncode == 0
    check = checkout.script("release/check")
    assert checkout.call(script=check).stdout == "release: it is byte for byte the program that rt ci built\n"
    checkout.pack(STUB + "# another\n")
    answer = checkout.call(script=check)
    assert answer.returncode == 1 and "the packed program is not the one that rt ci built" in answer.stderr
    checkout.pack(sources="0" * 64)
    assert checkout.call(script=check).stdout == "release: of other sources; run release/make\n"


def test_shellcheck_has_nothing_to_say() -> None:
    """Of any script of the repository."""
    if shutil.which("shellcheck") is None:
        pytest.skip("no shellcheck on the path (Debian: shellcheck)")
    scripts = [ROOT / name for name in ("abides", "prove", "test", ".ci/run", "release/common.sh", "release/check",
                                        "release/make", "release/sources-sum")]
    answer = subprocess.run(["shellcheck", "-x", *scripts], capture_output=True, text=True, cwd=ROOT)
    assert (answer.returncode, answer.stdout) == (0, "")


def test_the_line_of_a_refusal_quotes_the_checkouts_path(tmp_path: Path) -> None:
    """A checkout in a folder with a blank."""
    checkout = lay_checkout(tmp_path / "my clone", tmp_path / "room")
    line = checkout.call("check", "s", STUB_STATUS="5").stderr.splitlines()[-1]
    assert f"PYTHONPATH={shlex.quote(str(checkout.home / 'python'))} " in line
