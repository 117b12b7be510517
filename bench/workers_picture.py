"""The picture of what bench/workers found: throughput over workers, a line for each amount of other work; and a line for each program where a worker is
held up, or each waits for the disk."""
import math

import picture, report
from picture import COLORS, TOP_HEIGHT, Panel, linear, logarithmic
from workers_report import BUSY, WORKERS, Work, name_of

BUSY_COLORS = dict(zip(BUSY, ("#1d2b38", "#7a4a9e", "#b03060", "#d98c00")))
PROGRAMS = {"aether": "aether, proved", "steps": "steps", "mutex": "mutex"}
LEFTS, PANEL_WIDTH = (60, 350, 640), 240
ROW_HEIGHT, FIRST_TOP = TOP_HEIGHT + 62, 62


def over_workers(left, top, y_of):
    return Panel(left, top, PANEL_WIDTH, TOP_HEIGHT, logarithmic(0.8, WORKERS[-1] * 1.25, left, PANEL_WIDTH), y_of)


def speeds_of(results, work, name):
    return {workers: results[work, workers][name] for workers in WORKERS}


def all_speeds(results, works):
    """Quartiles, in millions."""
    return [report.quartiles(found) for work in works for workers in WORKERS for found in results[work, workers].values()]


def workers_below(panel):
    return [part for count in WORKERS for part in panel.mark_x(count, str(count) if count > 1 else "1 worker")]


def other_work_panel(results, kind, name, heading, left, top):
    """One program, with a line for each amount of other work. All of them have the same scale."""
    found = all_speeds(results, [Work(which, busy) for which in ("busy", "crowded") for busy in BUSY])
    low, high = 0.8 * min(it.low for it in found) / 1e6, 1.25 * max(it.high for it in found) / 1e6
    panel = over_workers(left, top, logarithmic(low, high, top + TOP_HEIGHT, -TOP_HEIGHT))
    drawn = workers_below(panel)
    for number in (0.02, 0.05, 0.1, 0.2, 0.5, 1, 2, 5, 10, 20):
        if low <= number <= high:
            drawn += panel.mark_y(number, f"{number:g}")
    for busy in BUSY:
        drawn += picture.throughput_curve(panel, speeds_of(results, Work(kind, busy), name), BUSY_COLORS[busy])
    return drawn + panel.frame(heading)


def programs_panel(results, work, heading, left, top):
    """One kind of work, with a line for each program."""
    most = 1.1 * max(it.high for it in all_speeds(results, [work])) / 1e6
    panel = over_workers(left, top, linear(0, most, top + TOP_HEIGHT, -TOP_HEIGHT))
    drawn, step = workers_below(panel), picture.step_below(most)
    for count in range(math.floor(most / step) + 1):
        drawn += panel.mark_y(count * step, f"{count * step:.3g}")
    for name in reversed(PROGRAMS):
        drawn += picture.throughput_curve(panel, speeds_of(results, work, name), COLORS[name])
    return drawn + panel.frame(heading)


def drawn(results):
    tops = [FIRST_TOP + ROW_HEIGHT * place + extra for place, extra in ((0, 0), (1, 0), (2, 30))]
    busy = ((color, f"{amount:,} ns of other work" if amount else "no other work") for amount, color in BUSY_COLORS.items())
    parts = picture.legend(busy, 24) + picture.legend(((COLORS[name], words) for name, words in PROGRAMS.items()), tops[2] - 36)
    for left, name in zip(LEFTS, PROGRAMS):
        parts += other_work_panel(results, "busy", name, f"{name}: million transfers a second", left, tops[0])
        parts += other_work_panel(results, "crowded", name, f"{name}, beside four busy processes", left, tops[1])
    for left, work in zip(LEFTS, (Work("held", 64), Work("held", 4096), Work("waiting", 0))):
        parts += programs_panel(results, work, name_of(work).capitalize(), left, tops[2])
    title = "Throughput over workers, by their other work; beside busy processes; with a worker that is held up"
    return picture.document(title, tops[2] + TOP_HEIGHT + 40, parts)
