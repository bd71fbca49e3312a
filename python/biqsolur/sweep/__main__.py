"""python3 -m biqsolur.sweep WORD ...: what the Snakefile calls. Plans are files that it wrote."""

from __future__ import annotations

import argparse
import signal
import sys

from biqsolur.errors import InputError, SweepError
from biqsolur.sweep.plan import read_plan


def parser() -> argparse.ArgumentParser:
    """The words."""
    out = argparse.ArgumentParser(prog="python3 -m biqsolur.sweep", description="A part of a sweep's work.")
    words = out.add_subparsers(required=True, metavar="WORD", dest="word")
    run = words.add_parser("run", help="runs some points under some keys, each as first-last")
    run.add_argument("plan")
    run.add_argument("points")
    run.add_argument("keys")
    run.add_argument("--digest", required=True, help="what the rows are to come from")
    run.add_argument("-o", "--output", required=True)
    page = words.add_parser("page", help="the page of a point under a key")
    page.add_argument("plan")
    page.add_argument("point", type=int)
    page.add_argument("key", type=int)
    page.add_argument("-o", "--output", required=True)
    for name, text in (("gather", "one table of all rows"), ("summary", "what the keys say together")):
        words.add_parser(name, help=text).add_argument("plan")
    return out


def carry_out(arguments: argparse.Namespace) -> None:
    """Does what the words say."""
    plan = read_plan(arguments.plan)
    if arguments.word == "run":
        from biqsolur.sweep.run import run_job
        if plan.digest(arguments.points, arguments.keys) != arguments.digest:
            raise SweepError(f"{arguments.plan} is of another sweep than this job: two sweeps have one output; give "
                             "each its own")
        run_job(plan, arguments.points, arguments.keys, arguments.output)
    elif arguments.word == "page":
        from biqsolur.sweep.run import write_page
        write_page(plan, arguments.point, arguments.key, arguments.output)
    elif arguments.word == "gather":
        from biqsolur.sweep.summary import gather
        gather(plan.tables(), f"{plan.output}/points.csv")
    else:
        from biqsolur.sweep.summary import summarise
        summarise(plan)


def main(words: list[str] | None = None) -> int:
    """The status: that of the program where a run failed, 1 for anything else that is wrong."""
    # An exit, so that the program that is waited for ends too.
    signal.signal(signal.SIGTERM, lambda number, frame: sys.exit(128 + number))
    try:
        carry_out(parser().parse_args(words))
    except (InputError, OSError) as fault:
        print(f"sweep: {fault}", file=sys.stderr)
        status = getattr(fault, "status", 1)
        return status if 0 < status < 126 else 1
    return 0


if __name__ == "__main__":
    sys.exit(main())
