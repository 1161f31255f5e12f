#!/usr/bin/env python3
"""Says of a recording and a text whether it is that of a verdict that holds of the recording, or else the first line at fault.

With a program and a number, whether the program says the same of the verdicts of this many random recordings, and of each with one thing changed.
Usage: crates/cases/verifications.py RECORDING VERDICT, or crates/cases/verifications.py PROGRAM N [SEED]
"""
import json
import random
import re
import subprocess
import sys
import tempfile
from pathlib import Path

sys.dont_write_bytecode = True
from reductions import answer, events_of, made, reason_of

HOLDS, ENDS_EARLY = "holds", "ends early"
NUMBER = rb"(0|[1-9][0-9]*)"


class Fault(Exception):
    """The number of the line at fault."""


class Lines:
    """The lines of a text, in turn."""

    def __init__(self, text):
        self.text, self.start, self.at, self.number = text, 0, 0, 0

    def next(self, pattern):
        """The numbers of the next line, which has to be as the pattern says and to end; they are below 2 to the 16."""
        self.number, self.start = self.number + 1, self.at
        end = self.text.find(b"\n", self.at)
        line = re.fullmatch(pattern, self.text[self.at : end]) if end >= 0 else None
        numbers = [int(it) for it in line.groups()] if line and all(len(it) < 6 for it in line.groups()) else None
        if numbers is None or max(numbers, default=0) >= 2**16:
            raise Fault(self.number)
        self.at = end + 1
        return numbers

    def are_at_end(self):
        """Whether nothing is left."""
        return self.at == len(self.text)


def values(count):
    """The pattern of this many numbers, a space before each."""
    return b"".join([b" " + NUMBER] * count)


def kept(events, e, f):
    """Whether e before f is a pair of one core that memory order keeps."""
    return e < f and events[e]["core"] == events[f]["core"] and not (events[e]["k"] == "S" and events[f]["k"] == "L")


def writes(event, address):
    return event["k"] in "SR" and event["a"] == address


def last_visible(events, order, place, read):
    """The last write in memory order that a read sees: one before it in memory order, or before it on its core."""
    it = events[read]
    seen = [w for w in order if w != read and writes(events[w], it["a"])]
    seen = [w for w in seen if place[w] < place[read] or (w < read and events[w]["core"] == it["core"])]
    return seen[-1] if seen else None


def is_tso_order(recording, order):
    """Whether a list is a memory order that TSO allows."""
    events = events_of(recording)
    if sorted(order) != list(range(len(events))):
        return False
    place = {e: i for i, e in enumerate(order)}
    if any(kept(events, order[j], order[i]) for i in range(len(order)) for j in range(i + 1, len(order))):
        return False
    if any(place[e] > place[f] for list_ in recording["writes"] for e, f in zip(list_, list_[1:])):
        return False
    reads = [e for e, it in enumerate(events) if it["k"] in "LRC"]
    return all(last_visible(events, order, place, e) == events[e].get("s") for e in reads)


def is_overlook(recording, load, store):
    """Whether a read has an older source than a write to its address before it on its core."""
    events = events_of(recording)
    if not store < load < len(events) or events[load]["core"] != events[store]["core"]:
        return False
    if events[load]["k"] not in "LRC" or not writes(events[store], events[load]["a"]):
        return False
    list_, source = recording["writes"][events[load]["a"]], events[load].get("s")
    return source is None or list_.index(source) < list_.index(store)


def is_row(before, after, length, event, row):
    """Whether labels show that no cycle through the event is shorter than the length."""
    grows = all(row[f] <= row[e] + 1 for e in range(len(row)) for f in after[e])
    return row[event] == 0 and grows and all(length <= row[e] + 1 for e in before[event])


def check_order(recording, lines):
    order = lines.next(b"ordered:" + values(len(events_of(recording))))
    if not is_tso_order(recording, order):
        raise Fault(lines.number)


def check_overlook(recording, lines):
    load, store = lines.next(b"overlook: load " + NUMBER + b" store " + NUMBER)
    if not is_overlook(recording, load, store):
        raise Fault(lines.number)


def check_pairs(recording, lines, length):
    """Each line is a forced pair with its first reason; it begins where the one before ends, the first where the last ends."""
    count, first, last = len(events_of(recording)), None, None
    for i in range(length):
        e, f = lines.next(NUMBER + b" -> " + NUMBER + b" (?:Po|Wo|Rf|Fr)")
        reason = lines.text[lines.start : lines.at].split()[-1].decode()
        first, is_next = (e, True) if i == 0 else (first, e == last)
        last = f
        if not is_next or max(e, f) >= count or reason_of(recording, e, f) != reason or (i == length - 1 and f != first):
            raise Fault(lines.number)


def check_cycle(recording, lines):
    count = len(events_of(recording))
    length = lines.next(b"cycle of " + NUMBER)[0]
    if not 1 <= length <= count:
        raise Fault(lines.number)
    check_pairs(recording, lines, length)
    after = [[f for f in range(count) if reason_of(recording, e, f)] for e in range(count)]
    before = [[e for e in range(count) if f in after[e]] for f in range(count)]
    for event in range(count):
        row = lines.next(b"labels " + str(event).encode() + b":" + values(count))
        if not is_row(before, after, length, event, row):
            raise Fault(lines.number)


def finding(recording, text):
    """What is found of the bytes of a text: that it holds, the number of the first line at fault, or that it ends early."""
    lines = Lines(text)
    kinds = {b"ordered:": check_order, b"overlook: load ": check_overlook, b"cycle of ": check_cycle}
    check = next((it for head, it in kinds.items() if text.startswith(head)), None)
    try:
        if check is None:
            raise Fault(1)
        check(recording, lines)
        if not lines.are_at_end():
            raise Fault(lines.number + 1)
    except Fault as fault:
        return ENDS_EARLY if lines.start == len(text) else fault.args[0]
    return HOLDS


def printed(found):
    """The status of a finding, and what is printed of it."""
    line = "" if found in (HOLDS, ENDS_EARLY) else f": line {found}"
    return (0, b"holds\n", b"") if found == HOLDS else (2, f"does not hold{line}\n".encode(), b"")


def spoiled(text, dice):
    """Texts that differ from one in one thing: a digit, a line, the order of two lines, a reason, a label, the end."""
    lines = text.splitlines(keepends=True)
    at, other = dice.randrange(len(lines)), dice.randrange(len(lines))
    digits = [it.start() for it in re.finditer(rb"[0-9]", text)]
    if digits:
        i = dice.choice(digits)
        yield text[:i] + str((int(text[i : i + 1]) + dice.randrange(1, 10)) % 10).encode() + text[i + 1 :]
    yield b"".join(lines[:at] + lines[at + 1 :])
    swapped = lines[:]
    swapped[at], swapped[other] = swapped[other], swapped[at]
    yield b"".join(swapped)
    reasons = [it.start() for it in re.finditer(rb"(Po|Wo|Rf|Fr)\n", text)]
    if reasons:
        i = dice.choice(reasons)
        yield text[:i] + dice.choice([b"Po", b"Wo", b"Rf", b"Fr"]) + text[i + 2 :]
    labels = [it for it in re.finditer(rb"(?<= )[0-9]+", text) if text.rfind(b"labels", 0, it.start()) > text.rfind(b"\n", 0, it.start())]
    for by in (-1, 1):
        if labels:
            it = dice.choice(labels)
            yield text[: it.start()] + str(max(0, int(it[0]) + by)).encode() + text[it.end() :]
    yield text[: dice.randrange(len(text))]
    yield text + b"\n"


def verified(program, recording, text):
    """What a program says of a recording and a text."""
    with tempfile.NamedTemporaryFile() as file:
        file.write(text)
        file.flush()
        ran = subprocess.run([program, "verify", "-", file.name], input=recording, stdout=subprocess.PIPE, stderr=subprocess.PIPE, timeout=60)
    return ran.returncode, ran.stdout, ran.stderr


def is_verified(program, recording, text, dice):
    """Whether a program says of a verdict and of what is spoiled of it what is said here."""
    found = finding(json.loads(recording), text)
    return found == HOLDS and all(
        verified(program, recording, it) == printed(finding(json.loads(recording), it)) for it in (text, *spoiled(text, dice))
    )


def of_recordings(program, seed, count):
    """How many of this many verdicts on random recordings are verified as here."""
    dice, same = random.Random(seed), 0
    for _ in range(count):
        recording = json.dumps(made(dice))
        _, verdict = answer(program, ["judge", "-"], recording)
        same += is_verified(program, recording.encode(), verdict.encode(), dice)
    return same


def main():
    if sys.argv[2].isdecimal():
        count, seed = int(sys.argv[2]), int(sys.argv[3]) if len(sys.argv) > 3 else 1
        same = of_recordings(str(Path(sys.argv[1]).resolve()), seed, count)
        print(f"{same} of {count} verdicts on random recordings are verified as here")
        raise SystemExit(same != count)
    recording, text = (Path(it).read_bytes() for it in sys.argv[1:3])
    print(finding(json.loads(recording), text))


if __name__ == "__main__":
    main()
