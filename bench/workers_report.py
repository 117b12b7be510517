"""What bench/workers found, as texts: the tables of bench/README.md, the short one of docs/MANUAL.md, and figures for README.md."""
import re
from typing import NamedTuple

import report
from report import PROGRAM, quartiles, ratio, rounded

WORKERS = (1, 2, 4, 8, 16)
BUSY = (0, 500, 2000, 8000)
PICTURE = "![Throughput over workers, by their other work; beside busy processes; with a worker that is held up](workers.svg)"


class Work(NamedTuple):
    """What is done: `busy`, with so many nanoseconds of other work before each transfer; `crowded`, the same beside busy processes; `held`, over so many
    accounts, with a worker that is held up now and then; or `waiting` for the disk."""

    kind: str
    amount: int


ALL = [Work(kind, busy) for kind in ("busy", "crowded") for busy in BUSY] + [Work("held", 64), Work("held", 4096), Work("waiting", 0)]


def name_of(work):
    other = f"{work.amount:,} ns" if work.amount else "none"
    return {"busy": other, "crowded": f"{other}, crowded", "held": f"held up, {work.amount:,} accounts", "waiting": "each waits"}[work.kind]


# The tables.


def thousands(speeds):
    """Three digits that count."""
    return [f"{speed / 1000:.2f}" if speed < 10000 else f"{speed / 1000:.1f}" if speed < 100000 else rounded(speed / 1000) for speed in speeds]


def speed_rows(results):
    for work in ALL:
        for program in results[work, 1]:
            cells = []
            for workers in WORKERS:
                low, median, high = thousands(quartiles(results[work, workers][program]))
                cells.append(f"{median} ({low} to {high})")
            yield row([name_of(work), program, *cells])


def ratios(ours, theirs):
    return quartiles([one / other for one, other in zip(ours, theirs)])


def ratio_rows(results):
    for work in ALL:
        rivals = [name for name in results[work, 1] if name != PROGRAM]
        for rival in rivals:
            yield row([name_of(work), rival, *(ratio(by_rival(results, work, workers, rival)) for workers in WORKERS)])
        alone = results[work, 1][PROGRAM]
        yield row([name_of(work), "its one worker", "1", *(ratio(ratios(results[work, workers][PROGRAM], alone)) for workers in WORKERS[1:])])


def by_rival(results, work, workers, rival):
    speeds = results[work, workers]
    return ratios(speeds[PROGRAM], speeds[rival])


def row(cells):
    return f"| {' | '.join(cells)} |"


def head_rows(*first):
    """The heading of a table with a column for each number of workers."""
    return [row([*first, *(f"{count} worker{'s' * (count > 1)}" for count in WORKERS)]), "|---" * (len(first) + len(WORKERS)) + "|"]


def text(head, results):
    lines = [PICTURE, "", head, "", "Thousand transfers a second (quartiles):", "", *head_rows("other work", "program"), *speed_rows(results)]
    lines += ["", "The program's speed by another's of the same round (quartiles):", "", *head_rows("other work", "by"), *ratio_rows(results)]
    return "\n".join(lines) + "\n"


# What users read.


def short_table(results):
    """The program's speeds alone, as far as a user is to choose by them."""
    named = {Work("busy", busy): f"`demo` in memory, {busy:,} ns of other work before each transfer" if busy else "`demo` in memory" for busy in BUSY}
    named[Work("waiting", 0)] = "`run --wait` on a file"
    lines = ["", *head_rows("work")]
    lines += [row([name, *(roughly(results[work, workers][PROGRAM]) for workers in WORKERS)]) for work, name in named.items()]
    return "\n".join(lines) + "\n\n"


def roughly(speeds):
    """Two digits that count."""
    median = round(quartiles(speeds).median)
    return f"{round(median, 2 - len(str(median))):,}"


def with_sentence(document, results):
    """README with the ratios to a mutex where there is some other work, for as many workers as it names."""
    busy = BUSY[2]
    found = ", ".join(f"{by_rival(results, Work('busy', busy), workers, 'mutex').median:.2f}" for workers in report.README_WORKERS)
    said = f"; with {busy // 1000} microseconds of other work a transfer {found}"
    return re.sub(r"(Beside a mutex it has [\d., ]*\d)", rf"\1{said}", report.OTHER_WORK.sub("", document))
