#!/usr/bin/env python3
"""Takes recordings of the program's own machine apart, records their events by the recorders in another order, and wants the same bytes
back: of the recorder in C, by examples/log/from_log.c, and of the one in Python.

Usage: recordings_test.py PROGRAM FROM_LOG [RECORDINGS]
"""
import json
import random
import subprocess
import sys
from itertools import count
from pathlib import Path

sys.dont_write_bytecode = True
sys.path.insert(0, str(Path(__file__).resolve().parent.parent / "python"))
import tsotest

FAULTS = ["none", "no-bypass", "youngest-first", "open-fence", "stale-share", "early-rmw"]
KINDS = {"L": "ld", "S": "st", "R": "rmw", "C": "cas", "F": "fence"}


def printed(program, k, rng):
    """The line of a recording that `trials` shows, or none where the run is unfinished."""
    shape = ["--cores", rng.randint(1, 16), "--ops", rng.randint(1, 24), "--addresses", rng.randint(1, 16)]
    words = [program, "trials", *shape, "--seed", k, "--show", 0, "--fault", rng.choice(FAULTS), "--quiet"]
    shown = subprocess.run([*map(str, words)], capture_output=True, text=True).stdout
    return next((line + "\n" for line in shown.splitlines() if line.startswith('{"cores"')), None)


def changed(text, rng):
    """The recording with initial values and a failed compare-and-swap: version 2, by its definition."""
    it = json.loads(text)
    initial = [rng.choice([0, 7, 4294967295]) for _ in it["writes"]]
    for core in it["cores"]:
        for event in core:
            if event["k"] in "LR" and event["s"] is None:
                event["r"] = initial[event["a"]]
            if event["k"] == "L" and rng.random() < 0.2:
                event["k"] = "C"
    if not any(initial) and all(event["k"] != "C" for core in it["cores"] for event in core):
        return text
    it["init"], it["version"] = initial, 2
    return json.dumps(it, sort_keys=True, separators=(",", ":")) + "\n"


def widened(recording, rng):
    """The recording with values of which some are above 2^32 - 1, and its text, in which these are numbered by first use: each has the
    least number from 1 on that is neither a value nor in use."""
    events = [it for core in recording["cores"] for it in core]
    known = {it[key] for it in events for key in "rw" if key in it} | set(recording.get("init", [0] * len(recording["writes"])))
    wide = {it: rng.choice([it + (1 << 32), it + (rng.randint(1, 1 << 31) << 32), (1 << 64) - 1 - it]) for it in known if it and rng.random() < 0.5}
    wide = {it: value for it, value in wide.items() if value >= 1 << 32 and list(wide.values()).count(value) == 1}
    free = (it for it in count(1) if it not in known - set(wide))
    numbers = {}

    def number_of(value):
        if value in wide and value not in numbers:
            numbers[value] = next(free)
        return numbers.get(value, value)

    def with_values(of):
        cores = [[{**it, **{key: of(it[key]) for key in "rw" if key in it}} for it in core] for core in recording["cores"]]
        return {**recording, "cores": cores, **({"init": [of(it) for it in recording["init"]]} if "init" in recording else {})}

    text = json.dumps(with_values(number_of), sort_keys=True, separators=(",", ":")) + "\n"
    return with_values(lambda it: wide.get(it, it)), text


def taken_apart(recording, rng):
    """Its events and commits, cores and write lists interleaved: ("event", E) and ("commit", E) by its own numbers."""
    queues, first = [], 0
    for core in recording["cores"]:
        queues.append([("event", first + i) for i in range(len(core))])
        first += len(core)
    queues += [[("commit", it) for it in writes] for writes in recording["writes"]]
    order = []
    while queues := [it for it in queues if it]:
        order.append(rng.choice(queues).pop(0))
    return order


def is_unique(events, initial):
    """Whether a value says which write is meant."""
    written = [(it["a"], it["w"]) for it in events if "w" in it] + list(enumerate(initial))
    return len(set(written)) == len(written)


class Log:
    """The calls of a recorder as the lines of a log."""

    def __init__(self, cores):
        self.lines, self.numbers = [f"cores {cores}"], count()

    def event(self, kind, core, address, *values):
        place = [] if address is None else [hex(address)]
        self.lines.append(" ".join(map(str, [KINDS[kind], core, *place, *values])))
        return next(self.numbers)

    def initial(self, address, value):
        self.lines.append(f"init {hex(address)} {value}")

    def commit(self, core, address, value):
        self.lines.append(f"commit {core} {hex(address)} {value}")

    def commit_event(self, event):
        self.lines.append(f"commit {event}")

    def source(self, event, write):
        self.lines.append(f"source {event} {'init' if write is None else write}")


class Python(tsotest.Recorder):
    """The recorder in Python, by the same calls."""

    def event(self, kind, core, address, *values):
        if kind == "F":
            return self.fence(core)
        return {"L": self.load, "S": self.store, "R": self.rmw, "C": self.failed_cas}[kind](core, address, *values)


def recorded(recorder, recording, order, by_value):
    """A recorder with what was taken apart; where values don't say which sources and commits are meant, these are given by events."""
    events = [it for core in recording["cores"] for it in core]
    core_of = [c for c, core in enumerate(recording["cores"]) for _ in core]
    numbers = {}
    for address, value in enumerate(recording.get("init", [])):
        if value:
            recorder.initial(0x1000 + 4 * address, value)
    for what, number in order:
        it, core = events[number], core_of[number]
        address = 0x1000 + 4 * it["a"] if "a" in it else None
        if what == "event":
            numbers[number] = recorder.event(it["k"], core, address, *(it[key] for key in "rw" if key in it))
        elif by_value:
            recorder.commit(core, address, it["w"])
    if not by_value:
        for what, number in order:
            if what == "commit":
                recorder.commit_event(numbers[number])
        for number, it in enumerate(events):
            if "s" in it:
                recorder.source(numbers[number], None if it["s"] is None else numbers[it["s"]])
    return recorder


def alone(text, has_sources):
    """The values alone of the text of a recording, with all of its sources or none."""
    recording = json.loads(text)
    cores = [[{key: value for key, value in it.items() if has_sources or key != "s"} for it in core] for core in recording["cores"]]
    values = {"cores": cores, "init": recording.get("init", [0] * len(recording["writes"])), "version": 3}
    return json.dumps(values, sort_keys=True, separators=(",", ":")) + "\n"


def long_recording(rng, cores, count, addresses):
    """A recording of cores with store buffers over one memory, all in order, and its text: each write has a value of its own."""
    events, order, memory = [[] for _ in range(cores)], [[] for _ in range(addresses)], [(0, None)] * addresses
    buffers, value = [[] for _ in range(cores)], 0
    for _ in range(count):
        core, a = rng.randrange(cores), rng.randrange(addresses)
        kind = rng.choice("LLLSSSRF")
        while buffers[core] and (kind in "RF" or rng.random() < 0.3):
            address, event = buffers[core].pop(0)
            order[address].append(event)
            memory[address] = event["w"], event
        it = {"k": kind} if kind == "F" else {"a": a, "k": kind}
        if kind in "LR":
            it["r"], it["s"] = next(((event["w"], event) for address, event in reversed(buffers[core]) if address == a), memory[a])
        if kind in "SR":
            value += 1
            it["w"] = value
        if kind == "S":
            buffers[core].append((a, it))
        if kind == "R":
            order[a].append(it)
            memory[a] = value, it
        events[core].append(it)
    for address, event in (it for buffer in buffers for it in buffer):
        order[address].append(event)
    numbers = {id(it): number for number, it in enumerate(it for core in events for it in core)}
    names = {}
    for it in (it for core in events for it in core if "a" in it):
        it["a"] = names.setdefault(it["a"], len(names))
    for it in (it for core in events for it in core if "s" in it):
        it["s"] = None if it["s"] is None else numbers[id(it["s"])]
    recording = {"cores": events, "version": 1, "writes": [[numbers[id(it)] for it in order[a]] for a in names]}
    return recording, json.dumps(recording, sort_keys=True, separators=(",", ":")) + "\n"


def check_long(filter_):
    """A long recording comes back from both recorders, and TSO allows it."""
    rng = random.Random(1)
    recording, text = long_recording(rng, 40, 20000, 100)
    order = taken_apart(recording, rng)
    log = recorded(Log(40), recording, order, True)
    python = recorded(Python(40), recording, order, True)
    made = from_log(filter_, log.lines, "--events", "20000")
    if made.stdout != text or python.recording() != text:
        sys.exit(f"a long recording: {made.stderr}")
    if python.judge().status != tsotest.Status.ALLOWED or not python.judge().text.startswith("ordered: "):
        sys.exit(f"a long recording: {python.judge().text[:80]}")
    for words, said in ((["--events", "19999"], "more than 19999 events"), ([], "a recording has 16 at most"), (["--events", "0"], "no room for 0 events")):
        made = from_log(filter_, log.lines, *words)
        if made.returncode != 1 or made.stdout or said not in made.stderr:
            sys.exit(f"a long recording with {words}: {made.stderr}")


def from_log(filter_, lines, *options):
    return subprocess.run([filter_, *options], input="\n".join(lines) + "\n", capture_output=True, text=True)


def main():
    program, filter_ = sys.argv[1:3]
    wanted = int(sys.argv[3]) if len(sys.argv) > 3 else 200
    same = by_values = wide = stray = 0
    check_long(filter_)
    for k in count():
        if same == wanted:
            break
        rng = random.Random(k)
        text = printed(program, k, rng)
        if text is None:
            continue
        text = changed(text, rng) if rng.random() < 0.3 else text
        recording = json.loads(text)
        is_wide = rng.random() < 0.3
        if is_wide:
            recording, text = widened(recording, rng)
        events = [it for core in recording["cores"] for it in core]
        order = taken_apart(recording, rng)
        by_value = is_unique(events, recording.get("init", [0] * len(recording["writes"]))) and rng.random() < 0.7
        log = recorded(Log(len(recording["cores"])), recording, order, by_value)
        python = recorded(Python(len(recording["cores"])), recording, order, by_value)
        made = from_log(filter_, log.lines)
        if made.stdout != text or python.recording() != text:
            sys.exit(f"recording {k}: {made.stderr}\nwant   {text}C      {made.stdout}Python {python.recording()}")
        unseen = [line for line in log.lines if not line.startswith("commit")]
        made = from_log(filter_, unseen, "--values").stdout
        if made != alone(text, not by_value) or python.values_alone() != made:
            sys.exit(f"recording {k}\nwant   {alone(text, not by_value)}C      {made}Python {python.values_alone()}")
        made = from_log(filter_, [line for line in unseen if not line.startswith("source")], "--values").stdout
        if made != alone(text, False):
            sys.exit(f"recording {k} without sources\nwant   {alone(text, False)}C      {made}")
        if tsotest.judge(text).status == tsotest.Status.REFUSED:
            sys.exit(f"recording {k} is refused: {text}")
        if tsotest.explain(text, python.program()).status == tsotest.Status.REFUSED:
            sys.exit(f"recording {k} is none of its program: {text}{python.program()}")
        same += 1
        by_values += by_value
        wide += is_wide
        reads = [i for i, line in enumerate(log.lines) if line.startswith("ld ")]
        if by_value and reads:
            i = rng.choice(reads)
            log.lines[i] = log.lines[i].rsplit(" ", 1)[0] + " 4000000000000000000"
            bad = from_log(filter_, log.lines)
            if bad.returncode != 1 or bad.stdout or "nobody wrote" not in bad.stderr:
                sys.exit(f"recording {k}: a stray value gives {bad}")
            stray += 1
    print(f"{same} recordings came back to the byte from both recorders, {by_values} by values, {wide} with values above 2^32 - 1, and so did their values alone; {stray} stray values were reported")


if __name__ == "__main__":
    main()
