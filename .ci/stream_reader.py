#!/usr/bin/env python3
"""A plain reader of logs, and of the streams between them, written from docs/FORMAT.md and docs/MANUAL.md alone: what `ship`, `follow`, `asof` and
`statement` must answer. It runs them on what it made, and prints each answer that differs.

usage: .ci/stream_reader.py [--env NAME=VALUE].. PROGRAM GROUP..

  --env    the program runs with this in its environment
  GROUP    bits: each bit of a stream flipped, and each front of it; hostile: streams that a stranger might make; lots: streams changed by lot;
           demos: `ship` of demo logs, and `follow` of fronts of that; logs: `ship` and `asof` at each LSN, and `statement` of each account, of the examples
           and of logs made by lot
"""
import argparse, os, random, struct, subprocess, sys, tempfile
from collections import namedtuple

TOP = os.path.dirname(os.path.dirname(os.path.realpath(__file__)))
OPEN, MOST_UNITS, MOST_LSN, MOST_ACCOUNTS, MOST_BALANCE = 0x4F, 1048576, 4294967295, 4096, 4611686018427387903
MAGIC, MOST_OF_FRAME, SHIPPED_UNITS = b"AESHIP1", 65536, 512

# What a call answers, and what LOG holds then.
Answer = namedtuple("Answer", "status out err log")
# A record: its kind, the field and the transaction of its header, its further units, and how many units it has.
Rec = namedtuple("Rec", "kind field txn rest size")
# A list: where it begins, its snapshot (None, or the number and the rows), its units, its records with their starts, its end, and the place of the
# gate behind its last batch.
Log = namedtuple("Log", "begin head units records end gate")


class Fault(Exception):
    def __init__(self, status, text):
        super().__init__(text)
        self.status = status


def number(data, at, size):
    return int.from_bytes(data[at:at + size], "big")


def is_open(data, at):
    return at + 1 < len(data) and data[at] == OPEN


def record_at(units, place):
    """The record that the units from here on begin with, or None."""
    header = units[place]
    kind, size, field, txn = header >> 56, header >> 48 & 255, header >> 32 & 65535, header & 4294967295
    rest = units[place + 1:place + size]
    if size == 0 or len(rest) != size - 1 or (kind == 1) != (txn == 0):
        return None
    fine = False
    if kind == 1:
        fine = size == 2 and field < MOST_ACCOUNTS and rest[0] <= MOST_BALANCE
    elif kind == 2:
        fine = size == 2 and field < MOST_ACCOUNTS and rest[0] >> 32 not in (0, 1 << 31)
    elif kind in (3, 4, 5):
        fine = size == 1 and 1 <= field <= 8
    elif kind == 6 and 1 <= field <= 200 and size == 1 + (field + 7) // 8:
        text = struct.pack(f">{len(rest)}Q", *rest)
        fine = all(0x20 <= byte <= 0x7E for byte in text[:field]) and not any(text[field:])
    return Rec(kind, field, txn, rest, size) if fine else None


def spelled(units):
    """The records that these units spell, each behind the place where it starts; and the first place that begins with none, or None."""
    found, place = [], 0
    while place < len(units):
        rec = record_at(units, place)
        if rec is None:
            return found, place
        found.append((place, rec))
        place += rec.size
    return found, None


def head_of(data):
    begin, txn, count = (number(data, at, 4) for at in (8, 12, 16))
    end = 20 + 12 * count
    if len(data) < 20 or not 1 <= count <= MOST_ACCOUNTS or len(data) < end:
        raise Fault(7, "bad snapshot")
    rows = [(number(data, at, 8), number(data, at + 8, 4)) for at in range(20, end, 12)]
    if any(balance > MOST_BALANCE or mark > begin for balance, mark in rows):
        raise Fault(7, "bad snapshot")
    return begin, (txn, rows), end


def log_of(data):
    """The list of a log, lawful or not."""
    if not is_open(data, 0) or data[1:8] not in (b"AETHER1", b"AETHER2"):
        raise Fault(7, "not a log")
    begin, head, gate, at = 0, None, 0, 8
    if data[7:8] == b"2":
        begin, head, gate = head_of(data)
        at = gate + 1
    units = []
    while is_open(data, gate):
        count = number(data, at, 4)
        end = at + 4 + 8 * count
        if at + 4 > len(data) or not 1 <= count <= MOST_UNITS or end > len(data) or begin + len(units) + count > MOST_LSN:
            raise Fault(7, f"bad batch at byte {gate}")
        units += struct.unpack(f">{count}Q", data[at + 4:end])
        gate, at = end, end + 1
    found, bad = spelled(units)
    if bad is not None:
        raise Fault(7, f"bad record at lsn {begin + bad}")
    return Log(begin, head, units, [(begin + place, rec) for place, rec in found], begin + len(units), gate)


class Judge:
    """The accounts of a list, and whether its next record is lawful."""

    def __init__(self, log):
        self.head = log.head
        self.most = log.head[0] if log.head else 0
        self.first = [balance for balance, _ in log.head[1]] if log.head else []
        self.balances = list(self.first)
        self.marks = [mark for _, mark in log.head[1]] if log.head else []
        self.open, self.ended, self.begun, self.entries = {}, set(), log.head is not None, {}

    def fault(self, rec):
        """The first test that the record fails, or None."""
        updates = self.open.get(rec.txn, [])
        if rec.kind == 1:
            fine = self.head is None and not self.open and not self.ended and rec.field == len(self.balances) and self.begun in (False, "genesis")
            return None if fine else "genesis"
        if not self.begun:
            return "genesis"
        if rec.kind == 2 and rec.field >= len(self.balances):
            return "account"
        if rec.txn in self.ended or rec.txn <= self.most:
            return "ended"
        if rec.kind == 2:
            return self.update_fault(rec, updates)
        if rec.kind == 3:
            return self.commit_fault(rec, updates)
        if rec.kind in (4, 5) and len(updates) != 2 * (rec.field - 1):
            return "legs"
        return None

    def update_fault(self, rec, updates):
        delta, prev = delta_of(rec), rec.rest[0] & 4294967295
        if len(updates) > 15:
            return "legs"
        if len(updates) % 2 == 0 and delta > 0:
            return "pair"
        if len(updates) % 2 == 1 and (delta != -updates[-1][1] or rec.field == updates[-1][0]):
            return "pair"
        return None if prev == self.marks[rec.field] else "prev"

    def commit_fault(self, rec, updates):
        if len(updates) != 2 * rec.field:
            return "legs"
        if any(prev != self.marks[account] for account, _, prev in updates):
            return "stale"
        return None if all(0 <= self.balances[account] + net <= MOST_BALANCE for account, net in nets_of(updates)) else "balance"

    def take(self, start, rec):
        why = self.fault(rec)
        if why:
            return why
        self.begun = self.begun if self.begun is True else "genesis" if rec.kind == 1 else True
        if rec.kind == 1:
            self.first.append(rec.rest[0])
            self.balances.append(rec.rest[0])
            self.marks.append(0)
        elif rec.kind == 2:
            self.open.setdefault(rec.txn, []).append((rec.field, delta_of(rec), rec.rest[0] & 4294967295))
        elif rec.kind != 6:
            updates = self.open.pop(rec.txn, [])
            self.ended.add(rec.txn)
            for account, net in nets_of(updates) if rec.kind == 3 else []:
                self.balances[account] += net
                self.marks[account] = start + 1
                self.entries.setdefault(account, []).append((start + 1, rec.txn, net, self.balances[account]))
        return None


def delta_of(rec):
    high = rec.rest[0] >> 32
    return high - (1 << 32) if high >> 31 else high


def nets_of(updates):
    """What a transaction adds to each of its accounts, in the order in which it names them."""
    nets = {}
    for account, delta, _ in updates:
        nets[account] = nets.get(account, 0) + delta
    return list(nets.items())


def judged(data, upto=None):
    """The log of these bytes and its judge; with an LSN also the judge of the records up to that one, None where it is no boundary."""
    log = log_of(data)
    judge, front = Judge(log), None
    for start, rec in log.records:
        if start == upto:
            front = (start, list(judge.balances))
        why = judge.take(start, rec)
        if why:
            raise Fault(7, f"unlawful record at lsn {start}: {why}")
    if log.head is None and not judge.begun:
        raise Fault(7, "unlawful record at lsn 0: genesis")
    if log.end == upto:
        front = (log.end, list(judge.balances))
    return log, judge, front


def accounts_text(end, balances):
    return "".join([f"lsn {end}\n", *(f"{account} {balance}\n" for account, balance in enumerate(balances))]).encode()


def recover(data):
    log, judge, _ = judged(data)
    return accounts_text(log.end, judge.balances)


def asof(data, lsn):
    front = judged(data, lsn)[2]
    if front is None:
        raise Fault(13, f"no record boundary at lsn {lsn}")
    return accounts_text(*front)


def statement(data, account):
    log, judge, _ = judged(data)
    if account >= len(judge.first):
        raise Fault(15, f"no account {account}")
    lines = [f"open {judge.first[account]}", *(" ".join(map(str, entry)) for entry in judge.entries.get(account, [])), f"lsn {log.end}", ""]
    return "\n".join(lines).encode()


def ship(data, lsn):
    log = judged(data)[0]
    behind = [(start, rec) for start, rec in log.records if start >= lsn]
    if lsn != log.end and (not behind or behind[0][0] != lsn):
        raise Fault(13, f"no record boundary at lsn {lsn}")
    made, first = MAGIC + struct.pack(">I", lsn), lsn
    ends = [start + rec.size for start, rec in behind]
    for end, after in zip(ends, ends[1:] + [MOST_LSN + 600]):
        if after - first > SHIPPED_UNITS:
            made += frame(log.units[first - log.begin:end - log.begin])
            first = end
    return made + bytes(4)


def frame(units):
    return struct.pack(f">I{len(units)}Q", len(units), *units)


def parts_of(stream):
    """The parts of a stream: its first LSN, the units of each frame with the place of its count, and "end". At a bad part a fault."""
    def bad(at):
        return Fault(11, f"bad stream at byte {at}")
    if len(stream) < 11 or stream[:7] != MAGIC:
        raise bad(0)
    first, at, total = number(stream, 7, 4), 11, 0
    yield first
    while True:
        count = number(stream, at, 4)
        if at + 4 > len(stream):
            raise bad(at)
        if count == 0:
            break
        end = at + 4 + 8 * count
        total += count
        if count > MOST_OF_FRAME or first + total > MOST_LSN or end > len(stream):
            raise bad(at)
        units = struct.unpack(f">{count}Q", stream[at + 4:end])
        found, none = spelled(units)
        if none is not None:
            raise bad(at)
        yield units, found
        at = end
    if len(stream) > at + 4:
        raise bad(at + 4)


def follow(data, stream):
    """What follow answers of a log with these bytes, and what it leaves."""
    left = bytearray(data)
    try:
        log, judge, _ = judged(data)
        if log.gate >= len(left) - 1 and left[log.gate:] in (b"", b"O"):
            left[log.gate:] = b"\0"
        gate, end = log.gate, log.end
        parts = parts_of(stream)
        first = next(parts)
        if first != end:
            raise Fault(12, f"stream from lsn {first}, log ends at {end}")
        for units, found in parts:
            for place, rec in found:
                why = judge.take(end + place, rec)
                if why:
                    raise Fault(14, f"unlawful stream record at lsn {end + place}: {why}")
            body = frame(units) + b"\0"
            left[gate:gate + 1 + len(body)] = b"O" + body
            gate += len(body)
            end += len(units)
    except Fault as fault:
        return Answer(fault.status, b"", f"aether: {fault}\n".encode(), bytes(left))
    return Answer(0, accounts_text(end, judge.balances), b"", bytes(left))


def answered(make, *given):
    try:
        return Answer(0, make(*given), b"", None)
    except Fault as fault:
        return Answer(fault.status, b"", f"aether: {fault}\n".encode(), None)


class Trial:
    """A program, and how many of its answers were right and wrong."""

    def __init__(self, program, env, folder):
        self.program, self.env, self.log = program, dict(os.environ, **env), f"{folder}/log"
        self.right = self.wrong = 0

    def call(self, words, given):
        ran = subprocess.run([self.program, *words], input=given, capture_output=True, timeout=600, env=self.env)
        return ran.returncode, ran.stdout, ran.stderr

    def compare(self, name, want, found):
        if want == found:
            self.right += 1
        else:
            self.wrong += 1
            print(f"{self.program}: {name}: {shown(found)}, wanted {shown(want)}")

    def followed(self, name, log, stream):
        with open(self.log, "wb") as file:
            file.write(log)
        status, out, err = self.call(["follow", self.log], stream)
        with open(self.log, "rb") as file:
            self.compare(f"follow: {name}", follow(log, stream), Answer(status, out, err, file.read()))

    def reported(self, name, log, word, make, value):
        self.compare(f"{word} {value}: {name}", answered(make, log, value), Answer(*self.call([word, str(value)], log), None))


def shown(answer):
    return f"status {answer.status}, {answer.out[-200:]!r} {answer.err!r} {(answer.log or b'')[-80:].hex()} of {len(answer.log or b'')}"


def example(name):
    with open(f"{TOP}/examples/{name}.log", "rb") as file:
        return file.read()


def flipped(data, bit):
    changed = bytearray(data)
    changed[bit // 8] ^= 128 >> bit % 8
    return bytes(changed)


def bits(trial):
    genesis, upgraded = example("genesis"), example("upgraded")[:44] + b"\0"
    stream = ship(example("one_transfer"), 4)
    for bit in range(8 * len(stream)):
        trial.followed(f"bit {bit} flipped", genesis, flipped(stream, bit))
    for length in range(len(stream) + 1):
        trial.followed(f"the first {length} bytes", genesis, stream[:length])
        trial.followed(f"the first {length} bytes, onto the second format", upgraded, stream[:length])


UNITS = {"take": (0x0202000000000001, 0xFFFFFFE200000000), "give": (0x0202000100000001, 0x0000001E00000000), "commit": (0x0301000100000001,),
    "short": (0x0401000100000002,), "note": (0x0602000200000003, 0x6869000000000000), "genesis": (0x0102000200000000, 5), "none": (0,),
    "begun": (0x0202000000000002,), "stray": (0x0202000000000002, 0xFFFFFFE200000000), "again": (0x0301000100000001,)}
LAST = b"".join((b"\x4fAETHER2", struct.pack(">III QI QI", MOST_LSN - 6, 0, 2, 100, 0, 0, 0), b"\0"))


def units_of(text):
    return [unit for word in text.split() for unit in UNITS[word]]


def stream_from(first, *frames, end=bytes(4)):
    return MAGIC + struct.pack(">I", first) + b"".join(frame(units_of(it)) for it in frames) + end


def hostile(trial):
    genesis = example("genesis")
    transfer = "take give commit"
    rows = {
        "a transfer in three frames": stream_from(4, "take", "give", "commit"),
        "count 0 first": stream_from(4, end=bytes(4) + frame(units_of(transfer)) + bytes(4)),
        "count 65537": stream_from(4, end=struct.pack(">I", 65537) + bytes(8 * 65537 + 4)),
        "count 65537, cut": stream_from(4, end=struct.pack(">I", 65537)),
        "count 65537 behind a frame": stream_from(4, transfer, end=struct.pack(">I", 65537) + bytes(64)),
        "the greatest count": stream_from(4, end=struct.pack(">I", MOST_LSN)),
        "a frame of 65536 units": stream_from(4, " ".join([transfer] + ["note"] * 32765 + ["short"])),
        "65536 units that end within a record": stream_from(4, " ".join([transfer] + ["note"] * 32765 + ["begun"])),
        "ends within a record": stream_from(4, transfer + " begun"),
        "ends within a record that the next frame ends": stream_from(4, "take give", end=frame(units_of("begun")) + frame([0xFFFFFFE200000000]) + bytes(4)),
        "an unlawful record behind lawful ones": stream_from(4, transfer + " short again"),
        "an unlawful record in the second frame": stream_from(4, transfer, "short short"),
        "an unlawful record before units that are no record": stream_from(4, transfer + " again none"),
        "an unlawful record before a frame that is no record": stream_from(4, transfer + " again", "none"),
        "an unlawful record before bytes behind the end": stream_from(4, "again", end=bytes(5)),
        "lawful frames before one that is no record": stream_from(4, "take", "give", "none"),
        "a wrong predecessor": stream_from(4, transfer, "stray"),
        "Genesis in a stream": stream_from(4, "genesis"),
        "bytes behind the end": stream_from(4, transfer, end=bytes(5)),
        "a stream behind a stream": stream_from(4, transfer) + stream_from(9),
        "no frame": stream_from(4),
        "no frame from elsewhere": stream_from(5),
        "a gap before a bad frame": stream_from(5, "none"),
        "a gap before nothing": stream_from(5, end=b""),
        "from 0": stream_from(0, transfer),
        "from the last LSN": stream_from(MOST_LSN, "short"),
        "nothing": b"",
        "a log": example("one_transfer"),
        "another magic word": b"AESHIP2" + stream_from(4, transfer)[7:],
    }
    for name, stream in rows.items():
        trial.followed(name, genesis, stream)
        trial.followed(f"{name}, onto another log", example("upgraded"), stream)
    for frames in (("short short",), (transfer + " short",), (transfer, "short"), (transfer, "short note"), ("note note note",)):
        frames = [units_of(it) for it in frames]
        first = MAGIC + struct.pack(">I", MOST_LSN - 6)
        trial.followed(f"to the last LSN, {frames}", LAST, first + b"".join(map(frame, frames)) + bytes(4))
    ends_of_logs(trial, stream_from(4, transfer))


def ends_of_logs(trial, stream):
    """What may stand at the end of a log that follows."""
    genesis = example("genesis")
    head = LAST[:8] + struct.pack(">III QI QI", 4, 0, 2, 100, 0, 0, 0)
    for front in (genesis[:44], head):
        ends = {"no gate": b"", "a last byte 4F": b"O", "a closed gate": b"\0", "bytes behind": b"\0\xff\xffO" + bytes(99), "a torn batch": b"\0" + b"O" * 400}
        for name, end in ends.items():
            for given in (stream, stream_from(4), stream[:30], b""):
                trial.followed(f"{name}, {len(front)} bytes before it, {len(given)} bytes of stream", front + end, given)
    for name in ("unfinished_transfer", "greatest_transaction", "wrong_predecessor", "cut"):
        trial.followed(f"onto {name}", example(name), stream_from(9, "take give commit"))
        trial.followed(f"nothing onto {name}", example(name), stream_from(log_of(example(name)).end))


def bank(seed, transfers, accounts=5):
    """The bytes of a log of transfers by lot: of several legs, with notes, unfinished, refused, and between one another; of every third seed up to the
    greatest balance."""
    lot = random.Random(seed)
    least = MOST_BALANCE - 199 if seed % 3 == 2 else 0
    units = [unit for account in range(accounts) for unit in (0x0102000000000000 + (account << 32), least + lot.randrange(40, 200))]
    judge = Judge(Log(0, None, [], [], 0, 0))
    for start, rec in spelled(units)[0]:
        judge.take(start, rec)
    place = len(units)

    def put(*more):
        nonlocal place
        rec = record_at(more, 0)
        if judge.fault(rec) is None:
            judge.take(place, rec)
            units.extend(more)
            place += len(more)
            return True
        return False

    for txn in range(1, transfers + 1):
        if lot.random() < 0.3:
            text = bytes(lot.randrange(0x20, 0x7F) for _ in range(lot.choice((1, 7, 8, 9, 200))))
            padded = text + bytes(-len(text) % 8)
            put(0x0600000000000000 + (1 + len(padded) // 8 << 48) + (len(text) << 32) + txn, *struct.unpack(f">{len(padded) // 8}Q", padded))
        legs = lot.choice((1, 1, 1, 2, 3, 8))
        for _ in range(legs):
            payer, payee = lot.sample(range(accounts), 2)
            amount = lot.randrange(1, 60)
            put(0x0202000000000000 + (payer << 32) + txn, ((1 << 32) - amount << 32) + judge.marks[payer])
            put(0x0202000000000000 + (payee << 32) + txn, (amount << 32) + judge.marks[payee])
        if lot.random() < 0.9 and not put(0x0301000000000000 + (legs << 32) + txn) and legs < 8:
            put((0x0501000000000000 if least else 0x0401000000000000) + (legs + 1 << 32) + txn)
    return log_with(units, lot)


def log_with(units, lot=None):
    """A log of the first format with these units, in batches of lengths by lot."""
    made, at = b"\x4fAETHER1", 0
    while at < len(units):
        count = min(len(units) - at, lot.randrange(1, 300) if lot else MOST_UNITS)
        made += (b"O" if at else b"") + frame(units[at:at + count])
        at += count
    return made + b"\0"


def front_of(data, lsn):
    """The log of the list up to this boundary."""
    return log_with(log_of(data).units[:lsn])


def lots(trial):
    lot = random.Random(32)
    for seed in range(12):
        whole = bank(seed, 60)
        starts = [start for start, _ in log_of(whole).records if start >= 10]
        at = lot.choice(starts)
        front, stream = front_of(whole, at), ship(whole, at)
        trial.followed(f"bank {seed} from {at}", front, stream)
        for number_ in range(20):
            changed = flipped(stream, lot.randrange(8 * len(stream)))
            trial.followed(f"bank {seed} from {at}, a bit changed, {number_}", front, changed)
            length = lot.randrange(len(stream))
            trial.followed(f"bank {seed} from {at}, {length} bytes", front, stream[:length])


def demo(trial, transfers):
    """The bytes of a demo log, which the program makes."""
    log = f"{trial.log}.demo"
    if os.path.exists(log):
        os.remove(log)
    status, _, err = trial.call(["demo", log, str(transfers), "32", "--workers", "1"], b"")
    if status != 0:
        sys.exit(f"demo: status {status}, {err}")
    with open(log, "rb") as file:
        return file.read()


def demos(trial):
    lot = random.Random(33)
    front, whole = demo(trial, 0), demo(trial, 1500)
    end = log_of(front).end
    stream = ship(whole, end)
    starts = [start for start, _ in log_of(whole).records if start >= end]
    for lsn in [end, *lot.sample(starts, 20)]:
        trial.reported("a demo log", whole, "ship", ship, lsn)
    for length in [len(stream), *(lot.randrange(len(stream)) for _ in range(20))]:
        trial.followed(f"a demo log, {length} bytes", front, stream[:length])


def logs(trial):
    names = ("genesis", "one_transfer", "unfinished_transfer", "wrong_predecessor", "greatest_transaction", "cut", "upgraded", "wide_balances")
    made = {name: example(name) for name in names}
    made.update({f"bank {seed}": bank(seed, 20) for seed in range(3)})
    for name, log in made.items():
        end = log_of(log).end
        for lsn in [*range(end + 3), MOST_LSN]:
            trial.reported(name, log, "ship", ship, lsn)
            trial.reported(name, log, "asof", asof, lsn)
        for account in (*range(7), 4095):
            trial.reported(name, log, "statement", statement, account)
    for length in range(91):
        for word, make, value in (("ship", ship, 4), ("asof", asof, 4), ("statement", statement, 1)):
            trial.reported(f"the first {length} bytes of a log", example("one_transfer")[:length], word, make, value)
            trial.reported(f"the first {length} bytes of an upgraded log", example("upgraded")[:length], word, make, value)


GROUPS = {"bits": bits, "hostile": hostile, "lots": lots, "demos": demos, "logs": logs}


def main():
    words = argparse.ArgumentParser(description=__doc__, formatter_class=argparse.RawDescriptionHelpFormatter)
    words.add_argument("program")
    words.add_argument("groups", nargs="+", choices=sorted(GROUPS))
    words.add_argument("--env", action="append", default=[])
    given = words.parse_args()
    with tempfile.TemporaryDirectory() as folder:
        trial = Trial(os.path.realpath(given.program), dict(it.split("=", 1) for it in given.env), folder)
        for group in given.groups:
            GROUPS[group](trial)
        print(trial.right, trial.wrong)
    return 1 if trial.wrong else 0


if __name__ == "__main__":
    sys.exit(main())
