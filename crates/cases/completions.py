#!/usr/bin/env python3
"""Whether a program completes this many random values, and only those that TSO allows, as trying all orders of their events shows;
of the others it shows a part that TSO does not allow, and does allow without any one event.

Usage: crates/cases/completions.py PROGRAM N [SEED]
"""
import json
import random
import subprocess
import sys

sys.dont_write_bytecode = True

READS, WRITES = "LRC", "SR"


def text_of(values):
    return json.dumps(values, separators=(",", ":"), sort_keys=True) + "\n"


def numbered(values):
    """The events with their cores, in the order of their numbers."""
    return [(core, event) for core, events in enumerate(values["cores"]) for event in events]


def final_of(recording):
    """The value that each address ends with."""
    events, init = numbered(recording), recording.get("init", [0] * len(recording["writes"]))
    return [events[writes[-1]][1]["w"] if writes else first for writes, first in zip(recording["writes"], init)]


def values_of(recording, keeps=lambda event: False):
    """The values of a recording, with the sources of the reads that are kept, and without final values."""
    cores = [[{key: event[key] for key in event if key != "s" or keeps(event)} for event in events] for events in recording["cores"]]
    return {"cores": cores, "init": recording.get("init", [0] * len(recording["writes"])), "version": 3}


def kept_before(events, f):
    """The events that are before one on its core, but for plain stores before a plain load."""
    kept = lambda e: events[e][0] == events[f][0] and not (events[e][1]["k"] == "S" and events[f][1]["k"] == "L")
    return [e for e in range(f) if kept(e)]


def orders(events):
    """All orders of the events that keep each pair of one core but a plain store and a later plain load."""
    before = [kept_before(events, f) for f in range(len(events))]

    def extended(order, left):
        if not left:
            yield order
        for e in left:
            if all(it in order for it in before[e]):
                yield from extended([*order, e], [it for it in left if it != e])

    yield from extended([], list(range(len(events))))


def source_in(events, order, e):
    """The last write to the address of a read that is before it in an order, or before it on its core; none is the initial value."""
    place, (core, event) = {e: i for i, e in enumerate(order)}, events[e]
    seen = [w for w, (its, other) in enumerate(events) if w != e and other["k"] in WRITES and other["a"] == event["a"]
            and (place[w] < place[e] or (its == core and w < e))]
    return max(seen, key=place.get) if seen else None


def value_by(values, events, e, source):
    """The value that a read has of its source."""
    return values["init"][events[e][1]["a"]] if source is None else events[source][1]["w"]


def is_lawful(values, events, order):
    """Whether in an order each read has the value of its source, which is the known one, and memory ends with the final values."""
    last = list(values["init"])
    for e in order:
        event = events[e][1]
        if event["k"] in READS:
            source = source_in(events, order, e)
            if value_by(values, events, e, source) != event["r"] or ("s" in event and event["s"] != source):
                return False
        if event["k"] in WRITES:
            last[event["a"]] = event["w"]
    return all(want in (None, got) for want, got in zip(values.get("final", last), last))


def is_allowed(values):
    """Whether TSO allows the values."""
    events = numbered(values)
    return any(is_lawful(values, events, order) for order in orders(events))


def ran(program, words, text):
    done = subprocess.run([program, *words], input=text.encode(), stdout=subprocess.PIPE, stderr=subprocess.PIPE, timeout=60)
    return done.returncode, done.stdout.decode()


def completes(program, values, text):
    """Whether a text is a recording that completes the values, and which the judge allows."""
    recording = json.loads(text)
    same = values_of(recording, lambda event: True)
    for ours, theirs in zip(numbered(same), numbered(values)):
        if "s" in ours[1] and "s" not in theirs[1]:
            del ours[1]["s"]
    final = zip(values.get("final", []), final_of(recording))
    is_same = {**values, "final": None} == {**same, "final": None} and all(want in (None, got) for want, got in final)
    status, verdict = ran(program, ["judge", "-"], text)
    return is_same and status == 0 and verdict.startswith("ordered:")


class Rules:
    """Which events come before which in whatever completes some values, by rules of the events alone."""

    def __init__(self, values):
        self.values, self.events = values, numbered(values)
        self.numbers = range(len(self.events))
        self.sources = {e: self.source(e) for e in self.numbers if self.events[e][1]["k"] in READS}
        self.pairs = {(e, f) for e in self.numbers for f in self.numbers if self.is_kept(e, f)}
        while more := {*self.joined(), *self.ruled()} - self.pairs:
            self.pairs |= more

    def writes(self, w, address):
        event = self.events[w][1]
        return event["k"] in WRITES and event["a"] == address

    def is_own(self, e, f):
        return e < f and self.events[e][0] == self.events[f][0]

    def is_kept(self, e, f):
        return self.is_own(e, f) and not (self.events[e][1]["k"] == "S" and self.events[f][1]["k"] == "L")

    def source(self, e):
        """All that a read may have as its source; none is the initial value. It is the first write that is too late, where no other has the value."""
        event = self.events[e][1]
        if "s" in event:
            return [event["s"]]
        match = [w for w in self.numbers if self.writes(w, event["a"]) and self.events[w][1]["w"] == event["r"] and w != e]
        may = [w for w in match if not self.is_own(e, w)]
        if self.values["init"][event["a"]] == event["r"]:
            return [*may, None]
        return may or match[:1] or [None]

    def is_only(self, e, w):
        """Whether a read can have this source alone."""
        return self.sources.get(e) == [w]

    def sees(self, w, e):
        return self.is_own(w, e) or (w, e) in self.pairs

    def is_read_from(self, w, e):
        return self.is_only(e, w) and not self.is_own(w, e)

    def is_older(self, z, w, e):
        """Whether a read that can read from w alone sees z, another write to the address."""
        return w is not None and self.is_only(e, w) and z not in (w, e) and self.writes(z, self.events[e][1]["a"]) and self.sees(z, e)

    def is_newer(self, e, z, w):
        """Whether a read can read from w alone, after which z writes the address."""
        return w is not None and self.is_only(e, w) and z != e and self.writes(z, self.events[e][1]["a"]) and (w, z) in self.pairs

    def is_first(self, e, z):
        """Whether a read can read the initial value alone, and z is another write to the address; or its core wrote it before."""
        first = lambda f: self.is_only(e, None) and f != e and self.writes(f, self.events[e][1]["a"])
        return first(z) or (e == z and any(first(f) and self.is_own(f, e) for f in self.numbers))

    def joined(self):
        """The pairs that two pairs give."""
        return {(e, g) for e, f in self.pairs for h, g in self.pairs if f == h}

    def ruled(self):
        """The pairs that the rules of sources give."""
        for e in self.sources:
            for z in self.numbers:
                w = self.sources[e][0]
                if self.is_read_from(z, e):
                    yield z, e
                if self.is_older(z, w, e):
                    yield z, w
                if self.is_newer(e, z, w) or self.is_first(e, z):
                    yield e, z

    def holds(self, e, f, cause, numbers):
        """Whether the cause of a line holds."""
        if cause == "Po":
            return not numbers and self.is_kept(e, f)
        if cause == "Rf":
            return not numbers and self.is_read_from(e, f)
        if cause == "Wo":
            return numbers[0] == e and self.is_older(e, f, numbers[1])
        return self.is_newer(e, f, numbers[0]) and numbers[1] == f if numbers else self.is_first(e, f)

    def is_circle(self, lines):
        """Whether lines are a circle of pairs with their causes."""
        words = [line.split(" ") for line in lines]
        links = [(int(e), int(f), cause, [int(n) for n in numbers]) for e, _, f, cause, *numbers in words]
        round_trip = all(links[i - 1][1] == links[i][0] for i in range(len(links)))
        return round_trip and all(self.holds(*link) for link in links)

    def has_circle(self):
        return any(e == f for e, f in self.pairs)


def is_shown(values, text):
    """Whether a text calls values impossible, with a circle exactly where rules show one."""
    rules, lines = Rules(values), text.splitlines()
    circle = lines[1:lines.index("")] if "" in lines else lines[1:]
    return lines[0] == "impossible" and bool(circle) == rules.has_circle() and rules.is_circle(circle)


def sources_of(values, events, e):
    """What may have given a read its value, as far as its source is not known; none is the initial value."""
    event = events[e][1]
    if event["k"] not in READS:
        return []
    fits = [w for w, (_, it) in enumerate(events) if w != e and it["k"] in WRITES and it["a"] == event["a"] and it["w"] == event["r"]]
    fits += [None] if values["init"][event["a"]] == event["r"] else []
    return [s for s in fits if "s" not in event or s == event["s"]]


def fed_among(values, events, kept):
    """The most of these events among which each read has something that may have fed it, if anything may."""
    may = {e: sources_of(values, events, e) for e in kept}
    left = [e for e in kept if not may[e] or any(s is None or s in kept for s in may[e])]
    return left if left == kept else fed_among(values, events, left)


def restricted(values, events, kept):
    """The values with these events alone, numbered anew; a final value stays known if one of them writes it, or none of all does."""
    def numbered_anew(event):
        return {**event, "s": kept.index(event["s"])} if event.get("s") is not None else event

    def stays(address, n):
        writes = [e for e, (_, it) in enumerate(events) if it["k"] in WRITES and it["a"] == address and it["w"] == n]
        return not writes or any(e in kept for e in writes)

    cores = [[numbered_anew(events[e][1]) for e in kept if events[e][0] == core] for core in range(len(values["cores"]))]
    final = [n if n is not None and stays(address, n) else None for address, n in enumerate(values.get("final", []))]
    return {"cores": cores, "init": values["init"], "version": 3, **({"final": final} if any(n is not None for n in final) else {})}


def is_part(values, kept, part):
    """Whether some events with their values are a part that TSO does not allow, and of which each is needed."""
    events = numbered(values)
    without = lambda e: restricted(values, events, fed_among(values, events, [it for it in kept if it != e]))
    return (kept == sorted({*kept} & {*range(len(events))}) and kept == fed_among(values, events, kept)
            and part == restricted(values, events, kept) and not is_allowed(part) and all(is_allowed(without(e)) for e in kept))


def only_recording(values):
    """The recording of values of which each read has one source at most, not itself, and each address has one write at most."""
    events, addresses = numbered(values), range(len(values["init"]))
    may = {e: [w for w in [*range(len(events)), None] if gives(values, events, e, w)] for e, (_, it) in enumerate(events) if it["k"] in READS}
    writes = [[w for w, (_, it) in enumerate(events) if it["k"] in WRITES and it["a"] == address] for address in addresses]
    ends = [events[its[0]][1]["w"] if its else first for its, first in zip(writes, values["init"])]
    if any(len(its) != 1 or e in its for e, its in may.items()) or any(len(its) > 1 for its in writes):
        return None
    if any(want not in (None, got) for want, got in zip(values.get("final", ends), ends)):
        return None
    number = iter(range(len(events)))
    sourced = lambda e, event: {**event, "s": may[e][0]} if e in may else event
    cores = [[sourced(next(number), event) for event in core] for core in values["cores"]]
    is_first = all(value == 0 for value in values["init"]) and all(event["k"] != "C" for _, event in events)
    return {"cores": cores, "writes": writes, **({"version": 1} if is_first else {"init": values["init"], "version": 2})}


def gives(values, events, e, w):
    """Whether a read may have this source in some recording; none is the initial value."""
    event = events[e][1]
    fits = w is None or (events[w][1]["k"] in WRITES and events[w][1]["a"] == event["a"])
    return fits and value_by(values, events, e, w) == event["r"] and event.get("s", w) == w


def shows_part(values, text):
    """Whether a text ends with an empty line, the line of a part's events, the line of its values, and the only recording of these."""
    lines = text.splitlines()
    begin = max(i for i, line in enumerate(lines) if line.startswith("events:"))
    (word, *kept), part = lines[begin].split(" "), json.loads(lines[begin + 1])
    recording = only_recording(part)
    shown = [] if recording is None else ["", json.dumps(recording, separators=(",", ":"), sort_keys=True)]
    return lines[begin - 1] == "" and word == "events:" and is_part(values, [int(e) for e in kept], part) and lines[begin + 2:] == shown


def is_right(program, values):
    """Whether the program completes values that TSO allows, and calls others impossible, with a circle where rules show one, and with a part of which each
    event is needed."""
    status, text = ran(program, ["complete", "-"], text_of(values))
    if is_allowed(values):
        return status == 0 and completes(program, values, text)
    return status == 2 and is_shown(values, text) and shows_part(values, text)


def any_event(dice, addresses):
    event = {"k": dice.choice("LLLSSSRCF")}
    if event["k"] != "F":
        event["a"] = dice.randrange(addresses)
    if event["k"] in READS:
        event["r"] = dice.randrange(3)
    if event["k"] in WRITES:
        event["w"] = dice.randrange(3)
    return event


def read_in_order(dice, values, events):
    """Has each event read what it does in some order."""
    order = next(orders(events))
    for found in orders(events):
        order = found
        if dice.random() < 0.1:
            break
    for e in order:
        if events[e][1]["k"] in READS:
            events[e][1]["r"] = value_by(values, events, e, source_in(events, order, e))


def any_values(dice):
    """Values of up to six events, of which some have a source, and some addresses a final value."""
    addresses = dice.choice((1, 2, 2))
    cores = [[] for _ in range(dice.choice((1, 2, 2, 3)))]
    for _ in range(dice.randrange(1, 7)):
        dice.choice(cores).append(any_event(dice, addresses))
    values = {"cores": cores, "init": [dice.choice((0, 0, 1)) for _ in range(addresses)], "version": 3}
    events = numbered(values)
    if dice.random() < 0.5:
        read_in_order(dice, values, events)
    for e, (_, event) in enumerate(events):
        if event["k"] in READS and dice.random() < 0.2:
            fits = [w for w, (_, it) in enumerate(events) if w != e and it["k"] in WRITES and it["a"] == event["a"] and it["w"] == event["r"]]
            fits += [None] if values["init"][event["a"]] == event["r"] else []
            if fits:
                event["s"] = dice.choice(fits)
    if dice.random() < 0.5:
        values["final"] = [dice.choice((None, 0, 1, 2)) for _ in range(addresses)]
    return values


def order_at_random(dice, events):
    """One of all orders."""
    order, left = [], list(range(len(events)))
    while left:
        order.append(dice.choice([e for e in left if not any(it in left for it in kept_before(events, e))]))
        left.remove(order[-1])
    return order


def changed_values(dice):
    """Values of some eighteen events, read in some order, but for one read that has another value; each write has its own."""
    values = {"cores": [[any_event(dice, 2) for _ in range(dice.randrange(4, 9))] for _ in range(3)], "init": [0, 0], "version": 3}
    events = numbered(values)
    for e, (_, event) in enumerate(events):
        if event["k"] in WRITES:
            event["w"] = e + 1
    order = order_at_random(dice, events)
    reads = [e for e in order if events[e][1]["k"] in READS]
    for e in reads:
        events[e][1]["r"] = value_by(values, events, e, source_in(events, order, e))
    for e in reads[:1] and [dice.choice(reads)]:
        address = events[e][1]["a"]
        events[e][1]["r"] = dice.choice([0, *(it["w"] for _, it in events if it["k"] in WRITES and it["a"] == address)])
    return values


def is_changed_right(program, values):
    """Whether values are completed, or called impossible, with a circle where rules show one. Too many orders would have to be tried for more."""
    status, text = ran(program, ["complete", "-"], text_of(values))
    if status == 0:
        return completes(program, values, text) and not Rules(values).has_circle()
    return status == 2 and is_shown(values, text)


def of_changed_values(program, seed, count):
    """Of how many values with a changed read what the program answers agrees with the rules and the judge."""
    dice, right = random.Random(seed), 0
    for _ in range(count):
        values = changed_values(dice)
        if is_changed_right(program, values):
            right += 1
        else:
            print(f"completions: {text_of(values)}", end="")
    return right


def of_values(program, seed, count):
    """Of how many random values the program answers what trying all orders shows."""
    dice, right = random.Random(seed), 0
    for _ in range(count):
        values = any_values(dice)
        if is_right(program, values):
            right += 1
        else:
            print(f"completions: {text_of(values)}", end="")
    return right


def is_classic_right(program, file):
    """Whether the values of a classic test are answered as trying all orders shows: with what memory ends with and without, and with all sources."""
    recording = json.loads(file.read_text())
    alone = values_of(recording)
    ended = {**alone, "final": final_of(recording)}
    sourced = {**values_of(recording, lambda event: True), "final": final_of(recording)}
    return all(is_right(program, it) for it in (alone, ended, sourced))


def main():
    program, count, seed = sys.argv[1], int(sys.argv[2]), int(sys.argv[3]) if len(sys.argv) > 3 else 2026
    right, agreed = of_values(program, seed, count), of_changed_values(program, seed, count)
    print(f"{right} of {count} values answered as all orders show, {agreed} of {count} with a changed read as rules and the judge do")
    return 0 if right == agreed == count else 1


if __name__ == "__main__":
    sys.exit(main())
