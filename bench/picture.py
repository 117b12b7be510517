"""The picture of what bench/measure found: throughput over workers, speed relative to the rivals, recovery time over log size."""
import math
from typing import Callable, NamedTuple

import report

WIDTH, TOP_HEIGHT, ROW_HEIGHT = 900, 210, 21
INK, GRID, FRAME = "#1d2b38", "#d9dee3", "#8a98a5"
COLORS = {"aether": "#1f5fa8", "steps": "#c2571a", "mutex": "#3c7d3f", "SQLite": "#7a4a9e", "LMDB": "#7d6608", "one pass": "#b03060"}
LEGEND = (("aether", "aether, proved"), ("steps", "steps"), ("mutex", "mutex"), ("SQLite", "SQLite"), ("LMDB", "LMDB"))
STORAGE = {"memory": "in memory", "file": "on a file"}


# The parts of a picture.


def text(x, y, words, anchor="start", **more):
    extra = "".join(f' {name.replace("_", "-")}="{value}"' for name, value in more.items())
    return f'<text x="{x:.1f}" y="{y:.1f}" text-anchor="{anchor}"{extra}>{words}</text>'


def line(x1, y1, x2, y2, color=GRID, width=1.0):
    return f'<path d="M{x1:.1f} {y1:.1f}L{x2:.1f} {y2:.1f}" stroke="{color}" stroke-width="{width}"/>'


def dot(x, y, color):
    return f'<circle cx="{x:.1f}" cy="{y:.1f}" r="3.5" fill="{color}"/>'


def curve(points, color):
    road = "L".join(f"{x:.1f} {y:.1f}" for x, y in points)
    return f'<path d="M{road}" fill="none" stroke="{color}" stroke-width="2"/>'


class Panel(NamedTuple):
    """A frame with a heading. `x_of` and `y_of` lead from numbers to places in the picture."""

    left: float
    top: float
    width: float
    height: float
    x_of: Callable[[float], float]
    y_of: Callable[[float], float]

    def frame(self, heading):
        box = f'<rect x="{self.left}" y="{self.top}" width="{self.width}" height="{self.height}" fill="none" stroke="{FRAME}"/>'
        return [box, text(self.left, self.top - 10, heading, font_weight="bold")]

    def mark_x(self, number, words):
        x = self.x_of(number)
        return [line(x, self.top, x, self.top + self.height), text(x, self.top + self.height + 16, words, "middle")]

    def mark_y(self, number, words):
        y = self.y_of(number)
        return [line(self.left, y, self.left + self.width, y), text(self.left - 6, y + 4, words, "end")]


def linear(low, high, start, length):
    return lambda number: start + (number - low) / (high - low) * length


def logarithmic(low, high, start, length):
    place = linear(math.log10(low), math.log10(high), start, length)
    return lambda number: place(math.log10(number))


# Throughput over workers.


def step_below(number):
    """A round number of which a few reach up to this one."""
    unit = 10 ** math.floor(math.log10(number))
    return unit if number / unit >= 4 else unit / 2 if number / unit >= 2 else unit / 5


def throughput_panel(results, heading, left, top, width):
    """`results` are those of one storage, one for each number of workers."""
    most = 1.1 * max(report.quartiles(speeds).high for result in results for speeds in result.speeds.values()) / 1e6
    workers = [result.workers for result in results]
    x_of = linear(min(workers) - 0.3, max(workers) + 0.3, left, width)
    panel = Panel(left, top, width, TOP_HEIGHT, x_of, linear(0, most, top + TOP_HEIGHT, -TOP_HEIGHT))
    drawn, step = [], step_below(most)
    for count in range(int(most / step) + 1):
        drawn += panel.mark_y(count * step, f"{count * step:.4g}")
    for number in workers:
        drawn += panel.mark_x(number, f"{number} worker{'s' * (number > 1)}")
    for name in ("mutex", "steps", "aether"):
        drawn += throughput_curve(panel, {result.workers: result.speeds[name] for result in results}, COLORS[name])
    return drawn + panel.frame(heading)


def throughput_curve(panel, speeds, color):
    """By the number of workers: medians, with a bar from quartile to quartile."""
    drawn, points = [], []
    for workers, found in speeds.items():
        speed = report.quartiles(found)
        x, y = panel.x_of(workers), panel.y_of(speed.median / 1e6)
        drawn += [line(x, panel.y_of(speed.low / 1e6), x, panel.y_of(speed.high / 1e6), color, 2), dot(x, y, color)]
        points.append((x, y))
    return [curve(points, color)] + drawn


# Speed relative to the rivals.


def ratio_label(result, rival):
    waits = "each waits, " if result.work == "wait" else ""
    return f"{waits}{result.storage}, {result.workers}: {rival}"


def ratio_panel(results, left, top, width):
    rows = [(result, rival, result.ratios(rival)) for result in results for rival in result.rivals()]
    height = ROW_HEIGHT * len(rows) + 8
    low = min(0.5, 0.8 * min(values.low for _, _, values in rows))
    high = max(2.0, 1.25 * max(values.high for _, _, values in rows))
    panel = Panel(left, top, width, height, logarithmic(low, high, left, width), linear(0, 1, top + 14, ROW_HEIGHT))
    drawn = []
    for number in (0.1, 0.2, 0.5, 1, 2, 5, 10, 100, 1000, 10000):
        if low <= number <= high and not (high > 50 and number in (2, 5)):
            drawn += panel.mark_x(number, f"{number:g}")
    drawn.append(line(panel.x_of(1), top, panel.x_of(1), top + height, INK, 1.5))
    for place, (result, rival, values) in enumerate(rows):
        y, color = panel.y_of(place), COLORS[rival]
        drawn += [text(left - 8, y + 4, ratio_label(result, rival), "end")]
        drawn += [line(panel.x_of(values.low), y, panel.x_of(values.high), y, color, 3), dot(panel.x_of(values.median), y, color)]
    return drawn + panel.frame("aether's speed by the rival's"), height


# Recovery time over log size.


def recovery_time(result, name):
    """How many records there were, and the seconds that they took."""
    return result.amount, result.amount / report.quartiles(result.speeds[name]).median


def recovery_panel(results, left, top, width):
    times = {name: [recovery_time(result, name) for result in results] for name in results[0].speeds}
    seconds = [time for points in times.values() for _, time in points]
    amounts = [result.amount for result in results]
    x_of = logarithmic(min(amounts) / 1.5, max(amounts) * 1.5, left, width)
    panel = Panel(left, top, width, TOP_HEIGHT, x_of, logarithmic(min(seconds) / 2, max(seconds) * 2, top + TOP_HEIGHT, -TOP_HEIGHT))
    drawn = []
    for milliseconds in (1, 2, 5, 10, 20, 50, 100, 200, 500, 1000, 2000, 5000):
        if min(seconds) / 2 <= milliseconds / 1000 <= max(seconds) * 2:
            drawn += panel.mark_y(milliseconds / 1000, f"{milliseconds}")
    for amount in amounts:
        drawn += panel.mark_x(amount, f"{amount:,}")
    for name, side in (("aether", -12), ("one pass", 24)):
        places = [(panel.x_of(amount), panel.y_of(time)) for amount, time in times[name]]
        drawn += [curve(places, COLORS[name])] + [dot(x, y, COLORS[name]) for x, y in places]
        drawn.append(text(left + width - 6, places[-1][1] + side, name, "end", fill=COLORS[name]))
    return drawn + panel.frame("recover: milliseconds over records")


def legend(entries, top=34):
    """`entries` are pairs of a color and words."""
    drawn, x = [], 60
    for color, words in entries:
        drawn += [line(x, top, x + 24, top, color, 3), text(x + 30, top + 4, words)]
        x += 60 + 7 * len(words)
    return drawn


def drawn(results):
    transfers = [result for result in results if result.work != "recover"]
    storages = [storage for storage in STORAGE if any(result.storage == storage for result in transfers)]
    there = {name for result in transfers for name in result.speeds}
    parts = legend([(COLORS[name], words) for name, words in LEGEND if name in there])
    for place, storage in enumerate(storages):
        of_storage = [result for result in transfers if (result.work, result.storage) == ("demo", storage)]
        parts += throughput_panel(of_storage, f"demo {STORAGE[storage]}: million transfers a second", 60 + 440 * place, 86, 370)
    ratios, height = ratio_panel(transfers, 190, 370, 290)
    parts += ratios + recovery_panel([result for result in results if result.work == "recover"], 560, 370, 310)
    height = 370 + max(height, TOP_HEIGHT) + 40
    return document("Throughput over workers, speed relative to the rivals, recovery time over log size", height, parts)


def document(title, height, parts):
    font = 'font-family="Helvetica, Arial, sans-serif" font-size="12"'
    head = f'<svg xmlns="http://www.w3.org/2000/svg" viewBox="0 0 {WIDTH} {height}" {font} role="img">'
    title = f"<title>{title}</title>"
    ground = f'<rect width="{WIDTH}" height="{height}" rx="8" fill="#ffffff" stroke="#bbbbbb"/>'
    return "\n".join([head, title, ground, f'<g fill="{INK}">', *parts, "</g>", "</svg>"]) + "\n"
