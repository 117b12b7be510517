"""How bench/measure and bench/workers run programs that do the same, and time them, in rounds of random order."""
import contextlib, os, random, shutil, subprocess, sys, tempfile, time
from typing import Callable, ContextManager, Dict, List, NamedTuple, Optional, Tuple

BENCH = os.path.dirname(os.path.realpath(__file__))
TOP = os.path.dirname(BENCH)
NAME = os.path.basename(sys.argv[0])
SEED = "7"


class Contestant(NamedTuple):
    """A program, and how many transfers or records a run of it has. `words` is told the folder that it works in, `source` is its
    standard input, and `start` a log that is copied into the folder first. `accepts` says whether it printed what it should, and
    `leaves` is what `recover` should print of the log that it leaves."""

    name: str
    amount: int
    words: Callable[[str], List[str]]
    accepts: Callable[[str], bool]
    source: str = os.devnull
    start: Optional[str] = None
    leaves: Optional[str] = None


class Group(NamedTuple):
    """Programs that do the same work, in this folder: the first of them is the one that is measured. `beside` makes what goes on beside."""

    work: object
    storage: str
    workers: int
    room: str
    contestants: List[Contestant]
    beside: Callable[[], ContextManager] = contextlib.nullcontext


# How many transfers or records a second a program made in each round.
Speeds = Dict[str, List[float]]


def fail(text):
    sys.exit(f"{NAME}: {text}")


def say(text):
    print(f"{NAME}: {text}", file=sys.stderr, flush=True)


def output_of(words, source=os.devnull):
    with open(source, "rb") as given:
        done = subprocess.run(words, stdin=given, stdout=subprocess.PIPE)
    if done.returncode != 0:
        fail(f"{' '.join(words)}: status {done.returncode}")
    return done.stdout.decode()


def script_of(dump):
    """The transfers of a log with one worker, from its dump, as a script."""
    updates = [line.split() for line in dump.splitlines() if " update " in line]
    return "".join(f"pay {payer[3]} {payee[3]} {payee[4]}\n" for payer, payee in zip(updates[::2], updates[1::2]))


# The rounds.


def make_ready(contestant, room):
    """An empty folder but for the log to begin with, all of it on the disk."""
    shutil.rmtree(room, ignore_errors=True)
    os.mkdir(room)
    if contestant.start:
        shutil.copyfile(contestant.start, f"{room}/log")
        sync(f"{room}/log")
    sync(room)


def sync(name):
    opened = os.open(name, os.O_RDONLY)
    os.fsync(opened)
    os.close(opened)


def seconds_of(contestant, room, printed):
    """Seconds by the clock, from the program's start to its end."""
    make_ready(contestant, room)
    words = contestant.words(room)
    streams = [
        (os.POSIX_SPAWN_OPEN, 0, contestant.source, os.O_RDONLY, 0),
        (os.POSIX_SPAWN_OPEN, 1, printed, os.O_WRONLY | os.O_CREAT | os.O_TRUNC, 0o600),
    ]
    begun = time.perf_counter()
    _, status = os.waitpid(os.posix_spawn(words[0], words, os.environ, file_actions=streams), 0)
    seconds = time.perf_counter() - begun
    with open(printed) as text:
        if status != 0 or not contestant.accepts(text.read()):
            fail(f"{' '.join(words)}: status {status}, or not the text that is wanted")
    return seconds


def try_once(aether, groups, folder):
    """Runs each once: so that files are in memory, and each log that a plain program leaves is read by `recover`."""
    for group in groups:
        for contestant in group.contestants:
            seconds_of(contestant, group.room, f"{folder}/printed")
            if contestant.leaves and contestant.leaves != output_of([*aether, "recover"], f"{group.room}/log"):
                fail(f"recover reads something else than {contestant.name} left")


def measured(groups, rounds, folder) -> List[Tuple[Group, Speeds]]:
    """Each group, and how fast its programs were, by their names. In a round each runs once, in random order."""
    speeds = [{contestant.name: [] for contestant in group.contestants} for group in groups]
    for number in range(rounds):
        say(f"round {number + 1} of {rounds}")
        for place in random.sample(range(len(groups)), len(groups)):
            group = groups[place]
            with group.beside():
                for contestant in random.sample(group.contestants, len(group.contestants)):
                    seconds = seconds_of(contestant, group.room, f"{folder}/printed")
                    speeds[place][contestant.name].append(contestant.amount / seconds)
    return list(zip(groups, speeds))


# Folders and files.


def places(stack):
    """A folder for logs on each storage, and one for what is made before the rounds."""
    os.makedirs(f"{BENCH}/out", exist_ok=True)
    rooms, prefix = {}, f"{NAME}-"
    if os.access("/dev/shm", os.W_OK):
        rooms["memory"] = stack.enter_context(tempfile.TemporaryDirectory(prefix=prefix, dir="/dev/shm")) + "/logs"
    else:
        say("there is no /dev/shm, so nothing is measured in memory")
    rooms["file"] = stack.enter_context(tempfile.TemporaryDirectory(prefix=prefix, dir=f"{BENCH}/out")) + "/logs"
    return rooms, stack.enter_context(tempfile.TemporaryDirectory(prefix=prefix))


def write(folder, name, text):
    os.makedirs(folder, exist_ok=True)
    with open(f"{folder}/{name}", "w", encoding="utf-8") as made:
        made.write(text)
    say(f"wrote {os.path.relpath(folder)}/{name}")


def read(name):
    with open(name, encoding="utf-8") as there:
        return there.read()
