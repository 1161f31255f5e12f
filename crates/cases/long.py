"""Recordings of any length that a plain machine makes, and a plain check of what commands answer to them with --long."""
import heapq
import json
import random
import re
import subprocess
import sys
import tempfile

from explanations import is_explanation
from reductions import events_of, is_violation, named_by, program_text, restricted

PAIR = re.compile(r"(\d+) -> (\d+) (Po|Wo|Rf|Fr)")


def made(dice, cores, events, addresses):
    """A recording of a run with store buffers: each core takes steps at random, and each store drains later."""
    programs, buffers, memory, writes = [[] for _ in range(cores)], [[] for _ in range(cores)], {}, [[] for _ in range(addresses)]

    def drain(core):
        store = buffers[core].pop(0)
        memory[store["a"]] = store
        writes[store["a"]].append(store)

    def read(core, address):
        own = [it for it in buffers[core] if it["a"] == address]
        source = own[-1] if own else memory.get(address)
        return {"r": source["w"] if source else 0, "s": source}

    for value in range(1, events + 1):
        core, address, kind = dice.randrange(cores), dice.randrange(addresses), dice.choice("LLLLSSSSRF" if events < 99 else "LLLLLLLLSSSSSSSSRC")
        while buffers[core] and (kind in "RCF" or dice.random() < 0.5):
            drain(core)
        if kind == "F":
            event = {"k": "F"}
        elif kind == "S":
            event = {"a": address, "k": "S", "w": value}
            buffers[core].append(event)
        elif kind == "R":
            event = {"a": address, "k": "R", **read(core, address), "w": value}
            memory[address] = event
            writes[address].append(event)
        else:
            event = {"a": address, "k": kind, **read(core, address)}
        programs[core].append(event)
    for core in range(cores):
        while buffers[core]:
            drain(core)
    number = {id(it): i for i, it in enumerate(it for program in programs for it in program)}
    for program in programs:
        for event in program:
            if "s" in event:
                event["s"] = None if event["s"] is None else number[id(event["s"])]
    return {"cores": programs, "init": [0] * addresses, "version": 2, "writes": [[number[id(it)] for it in list_] for list_ in writes]}


def changed(dice, recording):
    """The same where two neighbours of a write list are exchanged, or a read has the source before its own."""
    lists = [it for it in recording["writes"] if len(it) > 1]
    events = [it for core in recording["cores"] for it in core]
    if lists and dice.random() < 0.5:
        list_ = dice.choice(lists)
        at = dice.randrange(len(list_) - 1)
        list_[at : at + 2] = list_[at + 1], list_[at]
        return recording
    reads = [it for it in events if it.get("s") is not None]
    if reads:
        read = dice.choice(reads)
        list_ = recording["writes"][read["a"]]
        place = list_.index(read["s"])
        read["s"] = list_[place - 1] if place else None
        read["r"] = events[read["s"]]["w"] if place else 0
    return recording


class Plain:
    """The rules of TSO for a recording, as plain as they are said."""

    def __init__(self, recording):
        self.events = [it for core in recording["cores"] for it in core]
        self.core = [i for i, core in enumerate(recording["cores"]) for _ in core]
        self.writes = recording["writes"]
        self.place = {w: i for list_ in self.writes for i, w in enumerate(list_)}

    def kind(self, e):
        return self.events[e]["k"]

    def reads(self, e):
        return self.kind(e) in "LRC"

    def older(self, e, w):
        """Whether the source of a read stands before a write of its address."""
        source = self.events[e]["s"]
        return source is None or self.place[source] < self.place[w]

    def reason(self, e, f):
        """The first reason why each order has one event before another, if there is one."""
        before = self.core[e] == self.core[f] and e < f
        if before and not (self.kind(e) == "S" and self.kind(f) == "L"):
            return "Po"
        same = self.events[e].get("a") == self.events[f].get("a") is not None
        if same and e in self.place and f in self.place and self.place[e] < self.place[f]:
            return "Wo"
        if self.reads(f) and self.events[f]["s"] == e and not before:
            return "Rf"
        after = self.core[e] == self.core[f] and f < e
        if same and self.reads(e) and f in self.place and f != e and not after and self.older(e, f):
            return "Fr"
        return None

    def overlook(self):
        """The first read that a store of its own core comes before and its source does not, and the first such store."""
        own = {}
        for e, event in enumerate(self.events):
            stores = own.setdefault((self.core[e], event.get("a")), [])
            if self.reads(e):
                for store in stores:
                    if self.older(e, store):
                        return e, store
            if e in self.place:
                stores.append(e)
        return None

    def is_order(self, order):
        """Whether an order meets each rule of TSO."""
        if sorted(order) != list(range(len(self.events))):
            return False
        at = {e: i for i, e in enumerate(order)}
        most = {}
        for e in range(len(self.events)):
            loads, others = most.get(self.core[e], (-1, -1))
            if at[e] < loads or self.kind(e) != "L" and at[e] < others:
                return False
            most[self.core[e]] = (max(loads, at[e]) if self.kind(e) != "S" else loads, max(others, at[e]))
        if any(at[d] > at[e] for list_ in self.writes for d, e in zip(list_, list_[1:])):
            return False
        own, last = {}, {}
        newest = [None] * len(self.events)
        for e, event in enumerate(self.events):
            newest[e] = own.get((self.core[e], event.get("a")))
            if e in self.place:
                own[self.core[e], event["a"]] = e
        for e in order:
            event = self.events[e]
            if self.reads(e):
                seen = [it for it in (last.get(event["a"]), newest[e]) if it is not None]
                if (max(seen, key=at.get) if seen else None) != event["s"]:
                    return False
            if e in self.place:
                last[event["a"]] = e
        return True

    def first_order(self):
        """The first order in dictionary order, by the pairs from which all follow; none where they have a cycle."""
        after, waits = [[] for _ in self.events], [0] * len(self.events)

        def forced(e, f):
            if e is not None and self.reason(e, f):
                after[e].append(f)
                waits[f] += 1

        lasts = {}
        for e, event in enumerate(self.events):
            for kind in "LS":
                forced(lasts.get((self.core[e], kind)), e)
                if event["k"] != kind:
                    lasts[self.core[e], kind] = e
            if e in self.place and self.place[e]:
                forced(self.writes[event["a"]][self.place[e] - 1], e)
            if self.reads(e):
                forced(event["s"], e)
                newer = self.writes[event["a"]][0 if event["s"] is None else self.place[event["s"]] + 1 :][:1]
                forced(e, newer[0]) if newer else None
        free = [e for e in range(len(self.events)) if not waits[e]]
        order = []
        while free:
            e = heapq.heappop(free)
            order.append(e)
            for f in after[e]:
                waits[f] -= 1
                if not waits[f]:
                    heapq.heappush(free, f)
        return order if len(order) == len(self.events) else None

    def is_cycle(self, lines):
        """Whether these lines are a cycle of which no event comes before another than its next, each for its first reason."""
        pairs = [PAIR.fullmatch(it) for it in lines]
        if not pairs or not all(pairs):
            return False
        cycle = [int(it[1]) for it in pairs]
        if [int(it[2]) for it in pairs] != [*cycle[1:], cycle[0]] or len(set(cycle)) != len(cycle):
            return False
        wanted = {(e, f): it[3] for e, f, it in zip(cycle, [*cycle[1:], cycle[0]], pairs)}
        return all(self.reason(e, f) == wanted.get((e, f)) for e in cycle for f in cycle)


def is_right(recording, status, text):
    """Whether an answer to a recording is right."""
    plain = Plain(recording)
    overlook = plain.overlook()
    if text.startswith("overlook: "):
        return status == 2 and overlook is not None and text == "overlook: load {} store {}\n".format(*overlook)
    if overlook is not None:
        return False
    if text.startswith("cycle of "):
        head, *lines = text.splitlines()
        return status == 2 and head == f"cycle of {len(lines)}" and text.endswith("\n") and plain.is_cycle(lines)
    order = plain.first_order()
    return status == 0 and order is not None and text == "".join(["ordered:", *(f" {e}" for e in order), "\n"]) and plain.is_order(order)


def answer(program, recording, command, *words):
    """The status and the text that a command of the program answers to a recording."""
    ran = subprocess.run([program, command, "-", *words], input=json.dumps(recording).encode(), capture_output=True, check=False)
    return ran.returncode, ran.stdout.decode()


def judged(program, recording, *words):
    """The status and the text that the program judges a recording with."""
    return answer(program, recording, "judge", *words)


def verified(program, recording, text):
    """What the program answers to a text that is to hold of a recording with --long."""
    with tempfile.NamedTemporaryFile("w", suffix=".verdict") as file:
        file.write(text)
        file.flush()
        return answer(program, recording, "verify", file.name, "--long")


def is_verified(program, recording, text):
    """Whether a right text holds, and the same text with a number that no event has in the place of its last one doesn't."""
    other = re.sub(r"\d+(\D*)$", rf"{len(events_of(recording))}\1", text)
    fails = other == text or verified(program, recording, other)[0] == 2
    return fails and verified(program, recording, text) == (0, "holds\n")


def part_of(recording, named):
    """The events of an answer with the source of each, and the recording of these alone, each of which that is none of the answer writes alone."""
    events = events_of(recording)
    kept = sorted({*named, *(events[it]["s"] for it in named if events[it].get("s") is not None)})
    number, cores = 0, []
    for core in recording["cores"]:
        cores.append([])
        for event in core:
            is_store = event["k"] == "R" and number not in named
            cores[-1].append({"a": event["a"], "k": "S", "w": event["w"]} if is_store else event)
            number += 1
    return kept, {**recording, "cores": cores}


def cut(program, recording, verdict):
    """What `reduce --long` prints of a recording to which this was answered."""
    if not is_violation(verdict):
        return verdict
    kept, whole = part_of(recording, named_by(verdict))
    part = restricted(whole, kept)
    line = json.dumps(part, sort_keys=True, separators=(",", ":"))
    is_short = len(part["cores"]) <= 16 and len(kept) <= 512 and len(part["writes"]) <= 16
    text = "events " + " ".join(map(str, kept)) + "\n\n" + (program_text(whole, kept, None) + "\n" if is_short else "") + line + "\n"
    return text + judged(program, part, *([] if is_short else ["--long"]))[1]


def is_told(program, recording, status, verdict):
    """Whether explain and reduce tell what was answered with --long; an explanation of many events in order is not read."""
    if answer(program, recording, "reduce", "--long") != (status, cut(program, recording, verdict)):
        return False
    told, text = answer(program, recording, "explain", "--long")
    is_read = is_violation(verdict) or len(verdict) < 10_000
    return told == status and (not is_read or is_explanation(text, recording, verdict))


def is_judged_twice(program, recording):
    """Whether --long answers right, and says the same as without it, but of a cycle that it is no shorter and has no labels."""
    status, text = judged(program, recording, "--long")
    again, other = judged(program, recording)
    if not is_right(recording, status, text) or status != again or not is_told(program, recording, status, text):
        return False
    if not is_verified(program, recording, text):
        return False
    if text.startswith("cycle of "):
        return other.startswith("cycle of ") and int(text.split()[2]) >= int(other.split()[2])
    return text == other


def of_small(program, seed, count):
    """Small recordings, each with whether it is judged right with --long and without."""
    dice = random.Random(seed)
    for i in range(count):
        recording = made(dice, dice.randrange(1, 5), dice.randrange(1, 24), dice.randrange(1, 4))
        yield f"small recording {i}", is_judged_twice(program, changed(dice, recording) if dice.random() < 0.7 else recording)


def is_large_right(program, recording):
    """Whether a large recording is judged right with --long, is told, and its text holds."""
    status, text = judged(program, recording, "--long")
    return is_right(recording, status, text) and is_told(program, recording, status, text) and is_verified(program, recording, text)


def of_large(program, seed, events):
    """Large recordings, each with whether it is judged right: of few cores and many, as the machine made them and changed."""
    dice = random.Random(seed)
    for cores, addresses in ((16, 64), (1024, 4096)):
        recording = made(dice, cores, events, addresses)
        yield f"{events} events of {cores} cores", is_large_right(program, recording)
        for i in range(3):
            recording = changed(dice, recording)
            yield f"{events} events of {cores} cores, changed {i + 1} times", is_large_right(program, recording)


def ring(cores):
    """A recording of as many cores as addresses, in which each core reads what the one before it writes later: its only cycle goes through all events."""
    load = lambda core: {"a": core, "k": "L", "r": 1, "s": (2 * core - 1) % (2 * cores)}
    store = lambda core: {"a": (core + 1) % cores, "k": "S", "w": 1}
    writes = [[(2 * address - 1) % (2 * cores)] for address in range(cores)]
    return {"cores": [[load(core), store(core)] for core in range(cores)], "version": 1, "writes": writes}


def of_rings(program):
    """Rings that are as large as a program, and larger ones, each with whether it is judged right, and told."""
    for cores in (2, 16, 17, 300):
        yield f"a ring of {cores} cores", is_large_right(program, ring(cores))


def main():
    """Judges recordings of a size by a program, and says what differs."""
    program, seed, events = sys.argv[1], int(sys.argv[2]), int(sys.argv[3])
    differ = [name for name, holds in (*of_small(program, seed, 1000), *of_large(program, seed, events), *of_rings(program)) if not holds]
    for name in differ:
        print(f"long: differs: {name}")
    return len(differ) > 0


if __name__ == "__main__":
    sys.exit(main())
