"""The words of the commands `facts`, `values` and `calibrate`. What they do is loaded once one of them is asked for."""

from __future__ import annotations

import argparse
from typing import Any

Commands = Any      # argparse's own type of a set of subcommands has no public name


def add_commands(commands: Commands) -> None:
    """Adds the three."""
    add_facts(commands)
    add_values(commands)
    add_calibrate(commands)


def add_facts(commands: Commands) -> None:
    """The words of `facts`."""
    words = commands.add_parser("facts", help="twelve stylised facts of a market, held against reported ranges")
    words.add_argument("market", metavar="STUDY|BUNDLE|JSON", nargs="?",
                       help="a study, which runs under many keys, a bundle, or what --json wrote")
    words.add_argument("--lobster", metavar=("MESSAGE", "ORDERBOOK"), nargs=2, action="append", default=[],
                       help="LOBSTER's two files of a day, in place of a market; may be given for each of several days")
    words.add_argument("--keys", metavar="KEYS", default="30", help="30 (the keys 1 to 30), 101-130, or 3,5,8")
    words.add_argument("--branch", metavar="NAME", default="root", help="the branch that is measured, else the root")
    words.add_argument("--symbol", metavar="SYMBOL", help="the stock that is measured, else the first one")
    words.add_argument("--ranges", metavar="FILE", help="the JSON of other facts, whose values are the ranges")
    words.add_argument("--json", metavar="FILE", help="writes each key's numbers to a file that is not there yet")
    words.add_argument("--page", metavar="FILE", help="writes a page of pictures to a file that is not there yet")
    words.add_argument("--processes", metavar="N", type=int, help="runs side by side, else one a processor")
    words.add_argument("--program", metavar="PATH", help="the program, where it is not ./abides of the checkout")
    words.set_defaults(run=run_facts)


def add_values(commands: Commands) -> None:
    """The words of `values`."""
    words = commands.add_parser("values", help="a series file by a random course, for stocks with series = rows")
    words.add_argument("study", metavar="STUDY", help="whose hours and stocks are asked")
    words.add_argument("course", metavar="COURSE",
                       help='such as "gbm(start=100, volatility=0.3)"; also ou, garch, prices')
    words.add_argument("--key", metavar="KEY", help="a number or 64 hexadecimal digits; the study's own where not said")
    words.add_argument("-o", "--output", metavar="FILE", required=True, help="a file that is not there yet")
    words.set_defaults(run=run_values)


def add_calibrate(commands: Commands) -> None:
    """The words of `calibrate`."""
    words = commands.add_parser("calibrate", help="finds the parameters of a study with which moments meet targets")
    words.add_argument("config", metavar="CONFIG", help="what to search, in TOML or YAML (docs/REALISM.md)")
    words.add_argument("--processes", metavar="N", type=int, help="runs side by side, else one a processor")
    words.add_argument("--program", metavar="PATH", help="the program, where it is not ./abides of the checkout")
    words.add_argument("--snakemake", metavar="OPTION", nargs=argparse.REMAINDER,
                       help="points run by Snakemake, which takes all that stands behind this, as --profile slurm; "
                            "--cores all where nothing does")
    words.set_defaults(run=run_calibrate)


def run_facts(words: argparse.Namespace) -> int:
    """The command `facts`."""
    from biqsolur.facts.command import main
    return main(words)


def run_values(words: argparse.Namespace) -> int:
    """The command `values`."""
    from biqsolur import values
    from biqsolur.study import Study
    study = Study.read(words.study)
    key = words.key or study.to_dict()["key"]
    rows = values.series_for(words.course, int(key) if key.isdecimal() and len(key) < 64 else key, study)
    values.write_series(words.output, rows)
    return 0


def run_calibrate(words: argparse.Namespace) -> int:
    """The command `calibrate`."""
    from biqsolur.calibrate.command import main
    return main(words)
