#!/usr/bin/env python3
"""Makes the transfers of a bank again, one alone after the other, in the order in which their records end in a dump, and prints the accounts as `recover`
does. What the dump has otherwise than that is printed as well. Balances go up to 2^62 - 1: awk would count in doubles, which hold each number up to 2^53.

usage: replay.py JOBS DUMP

JOBS has a line TXN pay FROM TO AMOUNT for each transfer of one leg that was asked for."""
import sys
from collections import Counter

MOST_BALANCE = 4611686018427387903
balances, updates, ended = {}, Counter(), set()


def answer(payer, payee, amount):
    """How a transfer ends on these balances."""
    if balances[payer] < amount:
        return "short"
    return "over" if balances[payee] + amount > MOST_BALANCE else "commit"


def is_asked(job, txn, account, delta):
    """Whether this Update is the next of its transfer."""
    updates[txn] += 1
    payer, payee, amount = job
    return (updates[txn], account, delta) in ((1, payer, -amount), (2, payee, amount))


def end(job, txn, kind, leg):
    """Ends a transfer, and says whether it ends so."""
    want, is_first = answer(*job), txn not in ended
    ended.add(txn)
    if kind == "commit":
        balances[job[0]] -= job[2]
        balances[job[1]] += job[2]
    return is_first and kind == want and leg == 1 and updates[txn] == (2 if want == "commit" else 0)


def is_fine(jobs, words):
    """Takes a line of the dump, and says whether it is what was asked for."""
    if words[0] == "account":
        balances[int(words[1])] = int(words[2])
    if not words[0].isdigit() or words[1] == "note":
        return True
    kind, numbers = words[1], list(map(int, words[2:]))
    if kind == "genesis":
        balances[numbers[0]] = numbers[1]
        return True
    job = jobs.get(numbers[0])
    if job is None:
        return False
    return is_asked(job, *numbers[:3]) if kind == "update" else end(job, numbers[0], kind, numbers[1])


def main():
    with open(sys.argv[1]) as file:
        lines = [line.split() for line in file]
    jobs = {int(txn): (int(payer), int(payee), int(amount)) for txn, _, payer, payee, amount in lines}
    last = "lsn"
    with open(sys.argv[2]) as dump:
        for line in dump:
            last = line
            if not is_fine(jobs, line.split()):
                print(f"not what was asked for: {line}", end="")
    print(last, end="")
    print("".join(f"{account} {balance}\n" for account, balance in sorted(balances.items())), end="")


main()
