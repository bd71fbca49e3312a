"""docs/tables: what it makes of sources, and that the pages of this repository say nothing that it refuses."""

from __future__ import annotations

import importlib.machinery
import importlib.util
import shutil
import sys
from pathlib import Path
from types import ModuleType

import pytest
from conftest import ROOT

CRATES = """# name: the libraries that its own files cite.

# lists
low: thiserror
middle: low
high: low middle

# tests
low_tests: low
"""
LIB = """//! What all stand on:
//! one list.
//!
//! More of it.

mod inner;
mod far;
mod hidden;
pub mod laws;

pub use inner::{
    Held, weigh,
};

/// What stands on top.
pub struct Top;

impl Top {
    /// Its top.
    pub fn top(&self) -> Result<(u8, u8), Memory>
    {
    }
}
"""
INNER = """//! The list.

use crate::hidden::{
    other,
};

/// A list.
pub struct Held<T: Fn(u8) -> bool>(T);

impl<T: Fn(u8) -> bool> Model for Held<T> {
    ghost view = { λ x. x };
}

impl<T: Fn(u8) -> bool> Held<T> {
    /// Appends `n` | 1 items.
    ///
    /// It never falls.
    ///
    /// # Errors
    /// Want of memory.
    /// The list stands.
    #[inline]
    pub fn push(&mut self, n: u8) -> Result<(), Memory>
        requires { n < 9 }
        requires wide { IsWide (record { one = self.old; two = self.old; three = self.old; four = self.old;
            five = self.old; six = self.old; seven = self.old; eight = self.old; nine = self.old }) }
        ensures pushed { OnOk result (match n {
            1 }) }

        // The list is the one
        // that it was.
        ensures refused { OnErr result (self.new ≡ self.old) }
        ensures empty { IfNone (least self.old) (self.new ≡ self.old) }
    {
        self.other(n)
    }

    fn unseen(&self)
        ensures secret { n ≡ n }
    {
    }

    /// As it is.
    pub fn plain(&self) -> u8 {
        1
    }
}

impl<T: Fn(u8) -> bool> Weighs for Held<T> {
    fn weight(&self) -> u8
        ensures heavy { result ≡ 9 }
    {
        9
    }
}

/// Weighs it.
pub fn weigh(
    of: u8,
) -> u8
    ensures { result ≡ of }
{
    of
}

pub fn unnamed()
    ensures lost { 1 ≡ 1 }
{}
"""
FAR = """//! More of a list.

impl<T: Fn(u8) -> bool> Held<T> {
    /// From afar.
    pub fn far(&self)
        ensures here { 1 ≡ 1 };
}

impl Unheld {
    /// Of a type that nobody reaches.
    pub fn far(&self) {
    }
}
"""
BARE = """use A

abbrev pub seen : ℕ
seen = 1
pub record Two (n : ℕ) where
  pub own : n
"""
LAWS = """//! Laws.

/// One is one.
pub fn one_is_one()
    ensures { 1 ≡ 1 }
{}

pub trait Counts: Drop {
    /// How many.
    fn count(&self) -> u64
        ensures known { result ≡ 1 };
}
"""


def loaded() -> ModuleType:
    """The script as a module."""
    loader = importlib.machinery.SourceFileLoader("docs_tables", str(ROOT / "docs" / "tables"))
    spec = importlib.util.spec_from_loader(loader.name, loader)
    assert spec
    made = importlib.util.module_from_spec(spec)
    sys.modules[loader.name] = made
    sys.dont_write_bytecode, before = True, sys.dont_write_bytecode
    loader.exec_module(made)
    sys.dont_write_bytecode = before
    return made


tables = loaded()


@pytest.fixture
def checkout(tmp_path: Path) -> Path:
    """A small repository with three crates and one of tests."""
    texts = {"crates.txt": CRATES, "README.md": "`push` is [said](docs/PAGE.md#a-page-of-it).\n"}
    texts["docs/PAGE.md"] = "# A page: of `it`\n\n<!-- made by docs/tables: crates -->\n<!-- end -->\n"
    texts["docs/contracts_head.txt"] = "# Contracts\n"
    for name in ("low", "middle", "high", "low_tests"):
        texts[f"crates/{name}/src/lib.rt"] = LIB if name == "low" else f"//! The {name} one.\n"
    texts |= {"crates/low/src/inner.rt": INNER, "crates/low/src/laws.rt": LAWS, "crates/low/src/hidden.rt": "//! No.\n"}
    texts["crates/low/src/far.rt"] = FAR
    texts["crates/low/specs/Lib.antt"] = "pub mod Told\n"
    texts["crates/low/specs/Told.antt"] = "-- What is told.\n-- All of it.\nuse A\n"
    texts["crates/low/specs/Bare.antt"] = BARE
    texts |= {name: "push it\n" for name in ("abides", "prove", "test", "HANDLES", ".ci/run", "docs/tables")}
    for name, text in texts.items():
        (tmp_path / name).parent.mkdir(parents=True, exist_ok=True)
        (tmp_path / name).write_text(text)
    return tmp_path


def write(checkout: Path) -> None:
    """What docs/tables does there."""
    for path, text in tables.wanted(checkout).items():
        path.write_text(text)


def test_the_pages_of_this_repository() -> None:
    """No table is stale, no link leads nowhere, no name in backticks stands nowhere."""
    assert tables.faults(ROOT) == []


def test_each_exported_call_has_a_line(checkout: Path) -> None:
    """Public calls of what `pub use` and `pub mod` hand on, with comment, conditions, clauses and errors; no others."""
    lines = [line for line in tables.contracts_page(checkout).splitlines() if line.startswith("| `")]
    assert lines == [
        "| `Top::top` | Its top. |  |  | `Memory` |",
        "| `Held::push` | Appends `n` \\| 1 items. | `n < 9`, `wide` | `pushed`, "
        "`refused` (The list is the one that it was), `empty` (`self.new ≡ self.old`) "
        "| `Memory`: Want of memory. The list stands. |",
        "| `Held::plain` | As it is. |  |  |  |",
        "| `Held::weight` | As `Weighs::weight`. |  | `heavy` |  |",
        "| `weigh` | Weighs it. |  | `result ≡ of` |  |",
        "| `Held::far` | From afar. |  | `here` |  |",
        "| `laws::one_is_one` | One is one. |  | `1 ≡ 1` |  |",
        "| `laws::Counts::count` | How many. |  | `known` |  |"]


def test_crates_stand_on_the_least(checkout: Path) -> None:
    """A crate that another one's crate stands on is left out, and so are the kit's."""
    assert "| `high` | The high one. | `middle` |" in tables.crates_table(checkout)
    assert "| `low` | What all stand on: one list. | nothing |" in tables.crates_table(checkout)
    assert tables.definitions(checkout).splitlines() == [
        "### low", "", "- [Bare](../crates/low/specs/Bare.antt): `seen`, `Two`",
        "- [Told](../crates/low/specs/Told.antt): What is told. All of it."]


def test_a_stale_table_is_told(checkout: Path) -> None:
    """A clause, a comment or a crate that changed makes its page stale, and writing mends it."""
    write(checkout)
    assert tables.faults(checkout) == []
    source = checkout / "crates/low/src/inner.rt"
    source.write_text(source.read_text().replace("ensures pushed", "ensures joined"))
    assert tables.faults(checkout) == ["CONTRACTS.md: stale, run docs/tables"]
    (checkout / "crates.txt").write_text(CRATES.replace("high: low middle", "high: low"))
    assert tables.faults(checkout) == [f"{name}.md: stale, run docs/tables" for name in ("CONTRACTS", "PAGE")][:2]
    write(checkout)
    assert tables.faults(checkout) == []


@pytest.mark.parametrize(("text", "fault"), [
    ("`Held::pull`", "PAGE.md:1: `Held::pull` stands nowhere in the code"),
    ("\n`gone()` and `push`", "PAGE.md:2: `gone()` stands nowhere in the code"),
    ("`Held::weigh` and `Held::weight`", "PAGE.md:1: `Held::weigh` stands nowhere in the code"),
    ("`secrets`", "PAGE.md:1: `secrets` stands nowhere in the code"),
    ("[there](NOWHERE.md)", "PAGE.md: no file for the link NOWHERE.md"),
    ("[there](#nothing)", "PAGE.md: no heading for the link #nothing"),
    ("[there](../README.md#none)", "PAGE.md: no heading for the link ../README.md#none"),
    ("`noted`", "PAGE.md:1: `noted` stands nowhere in the code"),
    ("# Twice\n\n# Twice\n\n[a](#twice), [b](#twice-1), [c](#twice-2)", "PAGE.md: no heading for the link #twice-2"),
    ("```\n[there](NOWHERE.md)\n# Here\n```\n\n[here](#here)", "PAGE.md: no heading for the link #here"),
    ("`Held::push`, `x_of`, `git push --gone`\n\n    `gone`\n\n[web](https://a.b/c)", None)])
def test_names_and_links(checkout: Path, text: str, fault: str | None) -> None:
    """A name that stands nowhere, or in a comment alone, and a link that leads nowhere are told with their page."""
    (checkout / "README.md").write_text("`push`\n")
    write(checkout)
    (checkout / "docs/PAGE.md").write_text(text + "\n")
    comment = checkout / "crates/low/src/hidden.rt"
    comment.write_text("//! Not `gone`.\n// secrets\n")
    (checkout / "crates/low/specs/Told.antt").write_text("-- What is noted.\nuse A\n")
    assert tables.faults(checkout) == ([fault] if fault else [])


def test_each_page_is_read(checkout: Path) -> None:
    """README's links and names are looked at, and the links of the contracts' page."""
    (checkout / "README.md").write_text("`gone` is [there](NOWHERE.md)\n")
    (checkout / "docs/contracts_head.txt").write_text("[too](NOWHERE.md)\n")
    write(checkout)
    assert tables.faults(checkout) == [
        "README.md: no file for the link NOWHERE.md", "README.md:1: `gone` stands nowhere in the code",
        "CONTRACTS.md: no file for the link NOWHERE.md"]


@pytest.mark.parametrize(("stands", "row", "fault"), [
    ("self.new ≡ self.old", "", False), ("self.new.items ≡ self.old.items", "", True),
    ("self.new.items ≡ self.old.items", "| `Held::push` | `Memory` |", False),
    ("self.new ≡ self.now", "| `Memory` | `Held::push` |", True)])
def test_refusals_are_settled(checkout: Path, stands: str, row: str, fault: bool) -> None:
    """A call that may be refused has a clause that all it may change stands, or a row of RELIABILITY."""
    inner = checkout / "crates/low/src/inner.rt"
    text = inner.read_text()
    inner.write_text(text.replace("ensures refused { OnErr result (self.new ≡ self.old) }",
                                  f"ensures refused {{ OnErr result ({stands}) }}"))
    assert text.count("ensures refused { OnErr result (self.new ≡ self.old) }") == 1
    write(checkout)
    (checkout / "docs/RELIABILITY.md").write_text(
        f"## Open\n\n{row}\n\n## Other\n\n| `Held::push` | no table of refusals |\n".replace("`Memory`", "Memory"))
    told = "RELIABILITY.md: no row for `Held::push`, and no clause says that all stands"
    assert tables.faults(checkout) == ([told] if fault else [])


@pytest.mark.parametrize(("cell", "missing"), [
    ("`Held::push`: `pushed`, `empty`; `one_is_one`", []), ("`push`, `weigh`: `refused`, `Told`", []),
    ("`push`: `wide`", ["`push` has no clause `wide`"]),
    ("`Held`: `here`, `heavy`, `lost`", ["`Held` has no clause `lost`"]),
    ("`far`: `here`; `weigh`: `pushed`, `heavy`", ["`weigh` has no clause `pushed`", "`weigh` has no clause `heavy`"])])
def test_clauses_of_promises(checkout: Path, cell: str, missing: list[str]) -> None:
    """A clause that a row of PROVED names is one of its calls', of a type's, or a definition."""
    write(checkout)
    (checkout / "crates/low/specs/Told.antt").write_text("-- What is told.\npub record Told (n : ℕ) where\n")
    (checkout / "docs/PROVED.md").write_text(f"| Promise | Carried by |\n|---|---|\n| It is | {cell} |\n")
    assert tables.faults(checkout) == [f"PROVED.md:3: {each}" for each in missing]


def test_the_command(capsys: pytest.CaptureFixture[str], monkeypatch: pytest.MonkeyPatch, checkout: Path) -> None:
    """`--check` writes nothing and ends with 1 where something is wrong; without it the pages are written."""
    monkeypatch.setattr(tables, "ROOT", checkout)
    before = shutil.copytree(checkout, checkout.parent / "before")
    assert tables.main(["--check"]) == 1
    assert "CONTRACTS.md: stale" in capsys.readouterr().out
    assert all((checkout / path.relative_to(before)).read_bytes() == path.read_bytes()
               for path in before.rglob("*") if path.is_file())
    assert tables.main([]) == 0
    assert tables.main(["--check"]) == 0
