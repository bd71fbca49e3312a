"""The command line: python3 -m biqsolur COMMAND ..."""

from __future__ import annotations

import argparse
import sys

import biqsolur
from biqsolur import figure_words, missing, realism_commands, why


def parser() -> argparse.ArgumentParser:
    """The words of each command."""
    out = argparse.ArgumentParser(prog="python3 -m biqsolur", description="Reads what the program wrote.")
    commands = out.add_subparsers(dest="command", required=True, metavar="COMMAND")
    realism_commands.add_commands(commands)

    report = commands.add_parser("report", help="one HTML page with the pictures and tables of all branches")
    report.add_argument("bundle", metavar="BUNDLE")
    report.add_argument("--study", metavar="STUDY", help="the bundle's study, where no record of it stands beside the bundle")
    report.add_argument("-o", "--output", metavar="FILE", default="report.html", help="a file that is not there yet")
    report.set_defaults(run=run_report)

    figure = commands.add_parser("figure", help="a picture of one measure over time for a paper, as SVG, PDF or PNG")
    figure_words.add_words(figure)
    figure.set_defaults(run=figure_words.main)

    reason = commands.add_parser("why", help="what is wrong with a file that was refused, in a sentence")
    why.add_words(reason)
    reason.set_defaults(run=why.main)

    files = commands.add_parser("csv", help="each data frame of each branch as a file of comma-separated values")
    files.add_argument("bundle", metavar="BUNDLE")
    files.add_argument("-o", "--output", metavar="FOLDER", required=True, help="a folder that is not there yet")
    files.set_defaults(run=run_csv)

    itch = commands.add_parser("itch", help="the feed of a branch as a file of TotalView-ITCH 5.0 messages")
    itch.add_argument("bundle", metavar="BUNDLE")
    itch.add_argument("branch", metavar="BRANCH")
    itch.add_argument("-o", "--output", metavar="FILE", required=True, help="a file that is not there yet")
    itch.set_defaults(run=run_itch)

    capture = commands.add_parser("capture", help="the orders and replies of a branch as a network capture for Wireshark (pcap)")
    capture.add_argument("bundle", metavar="BUNDLE")
    capture.add_argument("branch", metavar="BRANCH")
    capture.add_argument("-o", "--output", metavar="FILE", required=True, help="a file that is not there yet")
    capture.set_defaults(run=run_capture)

    lobster = commands.add_parser("lobster", help="the feed of a branch as LOBSTER's message and orderbook files")
    lobster.add_argument("bundle", metavar="BUNDLE")
    lobster.add_argument("branch", metavar="BRANCH")
    lobster.add_argument("-o", "--output", metavar="FOLDER", required=True, help="a folder that is not there yet")
    lobster.add_argument("--levels", metavar="N", type=int, default=10, help="levels of the book, 10 where nothing is said")
    lobster.set_defaults(run=run_lobster)

    explore = commands.add_parser("explore", help="a study in the browser: a time line to walk along, to look into and to fork")
    explore.add_argument("study", metavar="STUDY")
    explore.add_argument("--port", metavar="N", type=int, default=0, help="of this machine alone; any free one where nothing is said")
    explore.add_argument("--workers", metavar="N", type=int, default=0,
                         help="of the program, 1 to 64; one for each processor where nothing is said")
    explore.add_argument("--program", metavar="PATH", help="the program that is run, where it is not ./abides of the checkout")
    explore.add_argument("--no-browser", dest="browser", action="store_false", help="print the address, and open no browser")
    explore.set_defaults(run=run_explore)

    kept = commands.add_parser("cache", help="the bundles that were run before and are kept: how many, or take them away")
    kept.add_argument("action", choices=("show", "clear"))
    kept.set_defaults(run=run_cache)
    return out


def run_report(arguments: argparse.Namespace) -> int:
    """The command `report`."""
    from biqsolur import report
    return report.main(arguments) or 0


def run_csv(arguments: argparse.Namespace) -> int:
    """The command `csv`."""
    biqsolur.read(arguments.bundle).to_csv(arguments.output)
    return 0


def run_itch(arguments: argparse.Namespace) -> int:
    """The command `itch`."""
    biqsolur.to_itch(arguments.output, biqsolur.read(arguments.bundle).branches[arguments.branch])
    return 0


def run_capture(arguments: argparse.Namespace) -> int:
    """The command `capture`."""
    biqsolur.to_capture(arguments.output, biqsolur.read(arguments.bundle).branches[arguments.branch])
    return 0


def run_lobster(arguments: argparse.Namespace) -> int:
    """The command `lobster`."""
    branch = biqsolur.read(arguments.bundle).branches[arguments.branch]
    biqsolur.to_lobster(arguments.output, branch, arguments.levels)
    return 0


def run_explore(arguments: argparse.Namespace) -> int:
    """The command `explore`."""
    from biqsolur.explore import command
    return command.main(arguments)


def run_cache(arguments: argparse.Namespace) -> int:
    """The command `cache`."""
    from biqsolur import cache
    return cache.main(arguments.action)


def main(words: list[str] | None = None) -> int:
    """Runs a command; what is wrong with what it was given is one line on standard error, status 1, and so is an
    interrupt, status 130."""
    arguments = parser().parse_args(words)
    try:
        return arguments.run(arguments)
    except ModuleNotFoundError as error:
        print(f"biqsolur: {missing.advice(error)}", file=sys.stderr)
        return 1
    except (biqsolur.InputError, OSError) as error:
        print(f"biqsolur: {error}", file=sys.stderr)
        return 1
    except KeyboardInterrupt:
        print("biqsolur: interrupted", file=sys.stderr)
        return 130      # as a shell says it of a command that an interrupt ended


if __name__ == "__main__":
    sys.exit(main())
