"""What bench/measure found, as a text: the machine, and a table of medians and quartiles."""
import datetime, os, platform, re, statistics, subprocess
from typing import Dict, List, NamedTuple

from running import NAME, TOP

END = "<!-- to here -->"
PROGRAM = "aether"
# As many workers README's figures are of.
README_WORKERS = (1, 2, 4)
PICTURE = "![Throughput over workers, speed relative to the rivals, recovery time over log size](results.svg)"


class Quartiles(NamedTuple):
    low: float
    median: float
    high: float


class Result(NamedTuple):
    """Of programs that do the same: how many transfers, or records, a second each made in each round. `amount` is how many the first
    of them made in a run."""

    work: str
    storage: str
    workers: int
    amount: int
    speeds: Dict[str, List[float]]

    def rivals(self):
        return [name for name in self.speeds if name != PROGRAM]

    def ratios(self, rival):
        """The program's speed by the rival's, of each round."""
        return quartiles([ours / theirs for ours, theirs in zip(self.speeds[PROGRAM], self.speeds[rival])])


def quartiles(values):
    return Quartiles(*statistics.quantiles(values, n=4, method="inclusive"))


# The machine.


def first_line(words):
    try:
        return subprocess.run(words, capture_output=True, text=True).stdout.splitlines()[0]
    except (OSError, IndexError):
        return "unknown"


def processor():
    try:
        with open("/proc/cpuinfo") as told:
            return next(line.split(":")[1].strip() for line in told if line.startswith("model name"))
    except (OSError, StopIteration):
        return platform.machine()


def file_system(folder):
    """The kind of the file system that the folder lies on: of the mounts above it the lowest."""
    with open("/proc/mounts") as told:
        mounts = [line.split()[1:3] for line in told]
    above = [(len(point), kind) for point, kind in mounts if (folder + "/").startswith(point.rstrip("/") + "/")]
    return max(above)[1]


def stores(programs):
    sqlite = first_line([programs.sqlite]) if programs.sqlite else "SQLite isn't installed"
    lmdb = first_line([programs.lmdb]) if programs.lmdb else "LMDB isn't installed"
    return f"{sqlite}; {lmdb}"


def head(words, rounds, compiler, folder):
    """When, on what and by which command."""
    now = datetime.datetime.now(datetime.timezone.utc)
    commit = first_line(["git", "-C", TOP, "rev-parse", "--short", "HEAD"])
    command = " ".join([f"bench/{NAME}"] + words)
    return (
        f"Measured on {now:%Y-%m-%d} at {now:%H:%M} UTC by `{command}` at commit {commit}, in {rounds} rounds: {processor()}, "
        f"{os.cpu_count()} processors, {platform.system()} {platform.release()}, load {os.getloadavg()[0]:.1f} in the minute before. "
        f"The file lies on {file_system(os.path.realpath(folder))}. "
        f"The plain programs are made by {first_line([compiler, '--version'])}, -O2."
    )


# The table.


def rounded(number):
    """Three digits that count."""
    places = max(0, len(str(int(number))) - 3)
    return f"{int(round(number, -places)):,}"


def ratio(values):
    return f"{values.median:.2f} ({values.low:.2f} to {values.high:.2f})"


def speed(speeds):
    return rounded(quartiles(speeds).median)


WORK = {"demo": "`demo`", "wait": "`run --wait`"}


def transfer_rows(results):
    for result in results:
        for rival in result.rivals():
            ours, theirs = speed(result.speeds[PROGRAM]), speed(result.speeds[rival])
            what = f"{WORK[result.work]} | {result.storage} | {result.workers}"
            yield f"| {what} | {ours} | {rival} | {theirs} | {ratio(result.ratios(rival))} |"


def milliseconds(result, name):
    return f"{1000 * result.amount / quartiles(result.speeds[name]).median:.1f}"


def recovery_rows(results):
    for result in results:
        for rival in result.rivals():
            ours, theirs = milliseconds(result, PROGRAM), milliseconds(result, rival)
            yield f"| {result.amount:,} | {ours} | {theirs} | {ratio(result.ratios(rival))} |"


def text(head, results):
    transfers = [result for result in results if result.work in WORK]
    recoveries = [result for result in results if result.work == "recover"]
    lines = [PICTURE, "", head, "", "Transfers a second, and the program's speed by the rival's:", ""]
    lines += ["| work | where | workers | program | rival | rival's | ratio (quartiles) |", "|---|---|---|---|---|---|---|"]
    lines += transfer_rows(transfers)
    lines += ["", "Milliseconds of `recover`, and its speed by that of one plain pass:", ""]
    lines += ["| records | program | one pass | ratio (quartiles) |", "|---|---|---|---|"]
    lines += recovery_rows(recoveries)
    return "\n".join(lines) + "\n"


def between_marks(document, text, script):
    """The document with this text between its two marks, of which the first names the script."""
    begin = f"<!-- {script} writes from here -->"
    front, _, rest = document.partition(begin)
    return f"{front}{begin}\n{text}{END}{rest.partition(END)[2]}"


# Figures for the project's README.


QUESTION = "**How fast is it?**"

# What bench/workers says of a mutex, behind what bench/measure does.
OTHER_WORK = re.compile(r"; with [^.;]* of other work a transfer [\d., ]*\d")


def figures(results, other_work):
    demos = [result for result in results if result.work == "demo" and result.storage == results[0].storage]
    recovery = max((result for result in results if result.work == "recover"), key=lambda result: result.amount)
    workers = ", ".join(str(demo.workers) for demo in demos)
    by = lambda rival: ", ".join(f"{demo.ratios(rival).median:.2f}" for demo in demos)
    return (
        f"`demo` in {demos[0].storage}, with {workers} workers, has {by('steps')} of the speed of an unproved program of the same steps. Beside a "
        f"mutex it has {by('mutex')}{other_work}. `recover` reads {recovery.amount:,} records in {milliseconds(recovery, PROGRAM)} milliseconds "
        "([how](bench/README.md))."
    )


def with_figures(document, results):
    """The document with these figures, and the picture, in the paragraph that asks how fast it is."""
    front, _, rest = document.partition(QUESTION)
    picture = PICTURE.replace("results.svg", "bench/results.svg")
    found = OTHER_WORK.search(document)
    return f"{front}{QUESTION} {figures(results, found.group() if found else '')}\n{picture}\n\n{rest.partition(chr(10) * 2)[2]}"
