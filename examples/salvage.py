#!/usr/bin/env python3
"""Of a log with `bad record at lsn N` or `unlawful record at lsn N`, in either format, what can be kept: salvage.py LOG N.

It prints the place in the file where the whole batches end that end at N or before, the LSN there, and what is lost behind that place: how many batches
and bytes, and the records that can still be read in these batches, as `aether dump` shows them. The first so many bytes (`head -c`) are then a log, if
all before N is lawful. The status is 1 where no such front is a log, 7 where the bytes are none."""
import os, sys

sys.dont_write_bytecode = True
sys.path.insert(0, os.path.dirname(os.path.realpath(__file__)))
from read_log import Fault, MOST_LSN, batch_end, is_open, opening_of, records_of, units_in


def batches_of(data, begin, gate, at):
    """Of each batch, up to the first bad one, the LSN at which it begins, its units and its end in the file."""
    while is_open(data, gate):
        end = batch_end(data, at, MOST_LSN - begin)
        if end is None:
            return
        units = units_in(data, at, end)
        yield begin, units, end
        begin, gate, at = begin + len(units), end, end + 1


def main():
    if len(sys.argv) != 3 or not sys.argv[2].isdecimal():
        sys.exit("usage: salvage.py LOG LSN")
    with open(sys.argv[1], "rb") as log:
        data = log.read()
    try:
        lsn, _, place, at = opening_of(data)
    except Fault as fault:
        print(f"aether: {fault}", file=sys.stderr)
        sys.exit(7)
    lost = []
    for begin, units, end in batches_of(data, lsn, place, at):
        if begin + len(units) <= int(sys.argv[2]):
            lsn, place = begin + len(units), end
        else:
            lost.append((begin, units))
    if place == 0:
        sys.exit(f"salvage: no batch ends at lsn {sys.argv[2]} or before")
    print(f"place {place}")
    print(f"lsn {lsn}")
    print(f"lost: {len(lost)} batches, {len(data) - place} bytes")
    for begin, units in lost:
        for start, words in records_of(units)[0]:
            print(f"{begin + start} {words}")


main()
