"""Reads a plan text on standard input, fetches its table page by page, has its ground counted once, and prints what the report program prints.

    PYTHONPATH=python python3 python/examples/report.py < examples/forecourt.plan
"""

import sys

from overlay import Cause, Plan, Refused

INPUT_BYTES = 65_536
TABLE_CELLS = 12_288


def report(text: bytes) -> str:
    """The report of a plan text."""
    if len(text) > INPUT_BYTES:
        raise Refused(Cause.INPUT)
    plan = Plan.from_text(text)
    run = plan.run(TABLE_CELLS // plan.k)
    lines, trials = [], 0
    for page in plan.pages(budget=100, rows=20):
        trials += page.trials
        for places in page.rows:
            row = plan.row(places)
            lines.append(("ROW", row.layer, *places, row.area, plan.common(places).kind))
    lines.append(("TOTAL", len(lines), trials, run.ground))
    return "".join("\t".join(map(str, line)) + "\n" for line in lines)


def main() -> None:
    """Prints the report, or what refuses it."""
    try:
        print(report(sys.stdin.buffer.read(INPUT_BYTES + 1)), end="")
    except Refused as refused:
        print(f"REFUSED\t{refused.cause.value}")
        print(refused, file=sys.stderr)


if __name__ == "__main__":
    main()
