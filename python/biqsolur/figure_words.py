"""The words of the command `figure`, apart from what draws, so that the command line begins at once."""

from __future__ import annotations

import argparse


def add_words(parser: argparse.ArgumentParser) -> None:
    """The words of the command."""
    parser.add_argument("bundle", metavar="BUNDLE", help="a bundle, or a study (.toml), which is run")
    parser.add_argument("--measure", default="mid",
                        help="mid, spread, depth, volume or fees; mid where nothing is said")
    parser.add_argument("--branches", metavar="NAME,NAME", help="all where nothing is said")
    parser.add_argument("--stock", metavar="SYMBOL", help="the first where nothing is said")
    parser.add_argument("--from", dest="begin", metavar="TIME", help="a time of day such as 9:30:30")
    parser.add_argument("--to", dest="end", metavar="TIME")
    parser.add_argument("--study", metavar="STUDY",
                        help="the bundle's study, where no record of it stands beside the bundle")
    parser.add_argument("-o", "--output", metavar="FILE", required=True,
                        help="a file that is not there yet: .svg, .pdf or .png")


def main(arguments: argparse.Namespace) -> int:
    """Draws the picture."""
    from biqsolur.figures import write_figure
    branches = arguments.branches.split(",") if arguments.branches else None
    write_figure(arguments.bundle, arguments.output, arguments.measure, branches, stock=arguments.stock,
                 begin=arguments.begin, end=arguments.end, study=arguments.study)
    return 0
