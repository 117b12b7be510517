#!/usr/bin/env python3
"""Prints the records of a log of either format, as `aether dump` does: read_log.py < LOG. Written from docs/FORMAT.md alone, as a reader in any other
language would be. Where the bytes are no log it says what is wrong, and ends with status 7."""
import sys

OPEN, MOST_UNITS, MOST_LSN, MOST_ACCOUNTS, MOST_BALANCE = 0x4F, 1048576, 4294967295, 4096, 4611686018427387903


class Fault(Exception):
    pass


def is_open(data, at):
    return at + 1 < len(data) and data[at] == OPEN


def number(data, at, size):
    return int.from_bytes(data[at:at + size], "big")


def head_of(data):
    """Of a file of the second format: where its list begins, the lines that the dump has of its head, and where the head ends."""
    begin, txn, count = (number(data, at, 4) for at in (8, 12, 16))
    end = 20 + 12 * count
    if len(data) < 20 or not 1 <= count <= MOST_ACCOUNTS or len(data) < end:
        raise Fault("bad snapshot")
    rows = [(number(data, at, 8), number(data, at + 8, 4)) for at in range(20, end, 12)]
    if any(balance > MOST_BALANCE or mark > begin for balance, mark in rows):
        raise Fault("bad snapshot")
    lines = [f"account {account} {balance} {mark}\n" for account, (balance, mark) in enumerate(rows)]
    return begin, [f"snapshot {begin} {txn}\n", *lines], end


def opening_of(data):
    """Where the list begins, the lines that the dump has of a head, and the places of the first batch's gate and of its count."""
    if not is_open(data, 0) or data[1:8] not in (b"AETHER1", b"AETHER2"):
        raise Fault("not a log")
    if data[7:8] == b"1":
        return 0, [], 0, 8
    begin, lines, end = head_of(data)
    return begin, lines, end, end + 1


def batch_end(data, at, room):
    """Where the batch ends whose count stands here; None where it isn't whole, or has more units than there is room for."""
    count = number(data, at, 4)
    end = at + 4 + 8 * count
    return end if at + 4 <= len(data) and 1 <= count <= min(MOST_UNITS, room) and end <= len(data) else None


def units_in(data, at, end):
    """The units of the batch whose count stands here, and that ends there."""
    return [number(data, place, 8) for place in range(at + 4, end, 8)]


def units_of(data, begin, gate, at):
    """The units of all batches, joined, and the place of the last gate: the first gate stands here, and what is behind it there."""
    units = []
    while is_open(data, gate):
        end = batch_end(data, at, MOST_LSN - begin - len(units))
        if end is None:
            raise Fault(f"bad batch at byte {gate}")
        units += units_in(data, at, end)
        gate, at = end, end + 1
    return units, gate


def record_at(units, place):
    """How many units the record there has, and the words that the dump has of it; None where there is no record."""
    kind, size, field, txn = units[place] >> 56, units[place] >> 48 & 255, units[place] >> 32 & 65535, units[place] & 4294967295
    rest = units[place + 1:place + size]
    if size == 0 or len(rest) != size - 1 or (kind == 1) != (txn == 0):
        return None
    if kind == 1 and size == 2 and field < MOST_ACCOUNTS and rest[0] <= MOST_BALANCE:
        return size, f"genesis {field} {rest[0]}"
    if kind == 2 and size == 2 and field < MOST_ACCOUNTS:
        delta, prev = rest[0] >> 32, rest[0] & 4294967295
        if delta not in (0, 2147483648):
            return size, f"update {txn} {field} {delta - 4294967296 if delta > 2147483648 else delta} {prev}"
    if kind in (3, 4, 5) and size == 1 and 1 <= field <= 8:
        return size, f"{('commit', 'short', 'over')[kind - 3]} {txn} {field}"
    if kind == 6 and 1 <= field <= 200 and size == 1 + (field + 7) // 8:
        text = b"".join(unit.to_bytes(8, "big") for unit in rest)
        if all(0x20 <= byte <= 0x7E for byte in text[:field]) and not any(text[field:]):
            return size, f"note {txn} {text[:field].decode()}"
    return None


def records_of(units):
    """Of each record where it starts and its words, up to the first unit where none starts, and the place of that unit or the end."""
    records, place = [], 0
    while place < len(units):
        found = record_at(units, place)
        if found is None:
            break
        records.append((place, found[1]))
        place += found[0]
    return records, place


def log_of(data):
    """The lines of the dump but for its last, the LSN at which the list ends, and the place of the last gate."""
    begin, lines, gate, at = opening_of(data)
    units, gate = units_of(data, begin, gate, at)
    records, place = records_of(units)
    if place < len(units):
        raise Fault(f"bad record at lsn {begin + place}")
    return lines + [f"{begin + start} {words}\n" for start, words in records], begin + place, gate


def main():
    try:
        lines, end, _ = log_of(sys.stdin.buffer.read())
    except Fault as fault:
        print(f"aether: {fault}", file=sys.stderr)
        sys.exit(7)
    sys.stdout.write("".join([*lines, f"lsn {end}\n"]))


if __name__ == "__main__":
    main()
