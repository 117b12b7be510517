#!/usr/bin/env python3
"""What `recover` costs on a log whose transaction numbers somebody chose: makes logs of Shorts, each of a transaction of its own, and times
the built program on them. A log made by a stranger is to cost no more than three times one of numbers at random.

usage: bench/hostile_log.py [--rounds N] [--size N].. [PROGRAM..]

  PROGRAM      a built program; where none is named, those in crates/aether_cli/out, as each of the two compilers builds it
  --rounds N   how often each log is recovered (11): the median counts
  --size N     how many transactions a log has (9000, 36000, 144000), once for each size; a kind of which there aren't so many is left out

The kinds of numbers:

  dense        1, 2, 3 ..
  random       anywhere in the range, each once
  far          one after another, from 2000000000 on
  colliding    in one place of the kit's HashMap, whose seed is no secret (bench/colliding.c finds them)
  deep         in groups of 16 that agree in all bits but their first four, in no order: in `txn_tables` the ways to such a group's
               numbers part at the 13th node

It prints the processor time of `recover` in milliseconds, the system's included, and its ratio to that of numbers at random. Programs, kinds and rounds
are taken in turn, so that what else the machine does falls on all of them. The status is 1 where a log of chosen numbers costs more than
three times one of numbers at random."""
import argparse, os, random, resource, shutil, statistics, subprocess, sys, tempfile

TOP = os.path.dirname(os.path.dirname(os.path.realpath(__file__)))
MOST_RATIO = 3
GROUP_BITS = 4
LAST_NUMBER = 2**32 - 1
MOST_UNITS = 1048576


def colliding(count, room):
    """Numbers that a table of the kit with `count` entries, nine to a group, begins to look for in one group; None where there aren't so many."""
    compiler = shutil.which("cc") or shutil.which("gcc") or shutil.which("clang")
    if compiler is None:
        print("hostile_log: no compiler for bench/colliding.c, nothing of colliding numbers", file=sys.stderr)
        return None
    finder = f"{room}/colliding"
    subprocess.run([compiler, "-O2", "-o", finder, f"{TOP}/bench/colliding.c"], check=True)
    bits = 0
    while 9 << bits < count:
        bits += 1
    found = subprocess.run([finder, str(count), str(bits)], capture_output=True, text=True)
    return [int(line) for line in found.stdout.split()] if found.returncode == 0 else None


def deep(count, chance):
    group = 1 << GROUP_BITS
    last_bits = chance.sample(range(1, 1 << 32 - GROUP_BITS), count // group + 1)
    numbers = [bits | first_bits << 32 - GROUP_BITS for bits in last_bits for first_bits in range(group)][:count]
    chance.shuffle(numbers)
    return numbers


def kinds(count, room):
    chance = random.Random(1)
    return {
        "dense": list(range(1, count + 1)),
        "random": chance.sample(range(1, LAST_NUMBER + 1), count),
        "far": [2000000000 + k for k in range(count)],
        "colliding": colliding(count, room),
        "deep": deep(count, chance),
    }


def log(numbers):
    """Two accounts, and a Short of its first leg for each number."""
    units = [0x0102000000000000, 100, 0x0102000100000000, 0] + [0x0401000100000000 + number for number in numbers]
    parts = [b"AETHER1"]
    for first in range(0, len(units), MOST_UNITS):
        batch = units[first : first + MOST_UNITS]
        parts.append(len(batch).to_bytes(4, "big") + b"".join(unit.to_bytes(8, "big") for unit in batch))
    return b"\x4f" + parts[0] + b"\x4f".join(parts[1:]) + b"\x00"


def time(program, name):
    """Milliseconds of the processor."""
    before = resource.getrusage(resource.RUSAGE_CHILDREN)
    with open(name, "rb") as source:
        done = subprocess.run([program, "recover"], stdin=source, capture_output=True)
    after = resource.getrusage(resource.RUSAGE_CHILDREN)
    if done.returncode != 0:
        sys.exit(f"hostile_log: {program}: status {done.returncode}: {done.stderr.decode()}")
    return 1000 * (after.ru_utime + after.ru_stime - before.ru_utime - before.ru_stime)


def main():
    words = argparse.ArgumentParser(description=__doc__, formatter_class=argparse.RawDescriptionHelpFormatter)
    words.add_argument("--rounds", type=int, default=11)
    words.add_argument("--size", type=int, action="append")
    words.add_argument("program", nargs="*")
    words = words.parse_args()
    built = [f"{TOP}/crates/aether_cli/out/aether_cli", f"{TOP}/crates/aether_cli/out/aether_cli.by-rattle"]
    programs = words.program or [name for name in built if os.access(name, os.X_OK)]
    if not programs:
        sys.exit("hostile_log: no program is built")
    slow = False
    print(f"{'program':28} {'numbers':>8} {'kind':10} {'ms':>8} {'of random':>9}")
    with tempfile.TemporaryDirectory(prefix="hostile-") as room:
        for count in words.size or [9000, 36000, 144000]:
            names = {}
            for kind, numbers in kinds(count, room).items():
                if numbers is not None:
                    names[kind] = f"{room}/{kind}"
                    with open(names[kind], "wb") as made:
                        made.write(log(numbers))
            times = {(program, kind): [] for program in programs for kind in names}
            for _ in range(words.rounds):
                for program, kind in times:
                    times[program, kind].append(time(program, names[kind]))
            for program, kind in times:
                median = statistics.median(times[program, kind])
                ratio = median / statistics.median(times[program, "random"])
                slow |= ratio > MOST_RATIO
                print(f"{os.path.basename(program):28} {count:8} {kind:10} {median:8.1f} {ratio:9.2f}", flush=True)
    sys.exit(1 if slow else 0)


main()
