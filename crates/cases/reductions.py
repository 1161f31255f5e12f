#!/usr/bin/env python3
"""Makes the text of a reduction again, from a recording, the text of its verdict and its program.

Usage: crates/cases/reductions.py [PROGRAM [N]] compares what the built program prints of N violations of random recordings and of
N of random trials.
"""
import json
import random
import subprocess
import sys
import tempfile
from concurrent.futures import ThreadPoolExecutor
from pathlib import Path

FAULTS = ["no-bypass", "youngest-first", "open-fence", "stale-share", "early-rmw"]


def events_of(recording):
    """The events in the order of their numbers, each with its core."""
    return [{**event, "core": core} for core, events in enumerate(recording["cores"]) for event in events]


def is_violation(verdict):
    return not verdict.startswith("ordered:")


def named_by(verdict):
    """The events of an overlook or of a cycle, in its order."""
    lines = verdict.split("\n")
    words = lines[0].split()
    if words[0] == "overlook:":
        return [int(words[2]), int(words[4])]
    return [int(it.split()[0]) for it in lines[1 : 1 + int(words[2])]]


def needed(recording, verdict):
    """The events that a violation needs: its own, and with each read its source."""
    events, kept, left = events_of(recording), set(), named_by(verdict)
    while left:
        it = left.pop()
        if it not in kept:
            kept.add(it)
            left += [events[it]["s"]] if events[it].get("s") is not None else []
    return sorted(kept)


def addresses_in(recording, kept):
    """The addresses of these events, in order of first use."""
    events = events_of(recording)
    return list(dict.fromkeys(events[it]["a"] for it in kept if "a" in events[it]))


def restricted(recording, kept):
    """The recording of these events alone."""
    events, addresses = events_of(recording), addresses_in(recording, kept)
    number = {it: i for i, it in enumerate(kept)}
    cores = {}
    for it in kept:
        event = dict(events[it])
        cores.setdefault(event.pop("core"), []).append(event)
        if "a" in event:
            event["a"] = addresses.index(event["a"])
        if event.get("s") is not None:
            event["s"] = number[event["s"]]
    init = recording.get("init") or [0] * len(recording["writes"])
    rest = {"cores": list(cores.values()), "version": 1}
    rest["writes"] = [[number[it] for it in recording["writes"][a] if it in number] for a in addresses]
    if any(init[a] for a in addresses) or any(events[it]["k"] == "C" for it in kept):
        rest |= {"init": [init[a] for a in addresses], "version": 2}
    return rest


def reason_of(recording, first, second):
    """Why every memory order has an event before another: the first reason, or none."""
    events, writes = events_of(recording), recording["writes"]
    before, after = events[first], events[second]
    own = before["core"] == after["core"]
    if own and first < second and not (before["k"] == "S" and after["k"] == "L"):
        return "Po"
    for it in writes:
        if first in it and second in it and it.index(first) < it.index(second):
            return "Wo"
    if after.get("s") == first and not (own and first < second):
        return "Rf"
    if before["k"] in "LRC" and after["k"] in "SR" and before["a"] == after["a"] and first != second and not (own and second < first):
        list_ = writes[before["a"]]
        if before["s"] is None or list_.index(before["s"]) < list_.index(second):
            return "Fr"
    return None


def verdict_text(recording, named, is_overlook):
    """The text of an overlook or of a cycle of these events."""
    if is_overlook:
        return f"overlook: load {named[0]} store {named[1]}\n"
    count, length = len(events_of(recording)), len(named)
    after = [[it for it in range(count) if reason_of(recording, e, it)] for e in range(count)]
    lines = [f"cycle of {length}"]
    lines += [f"{e} -> {f} {reason_of(recording, e, f)}" for e, f in zip(named, [*named[1:], named[0]])]
    for start in range(count):
        label, level = {start: 0}, [start]
        for far in range(1, length):
            level = [it for it in dict.fromkeys(f for e in level for f in after[e]) if it not in label]
            label.update((it, far) for it in level)
        lines.append(f"labels {start}: {' '.join(str(label.get(it, length)) for it in range(count))}")
    return "\n".join(lines) + "\n"


def operation(event):
    """The words of the operation that an event came from, with the number of its address."""
    if event["k"] == "F":
        return ["fence"]
    kind = {"L": "ld", "S": "st", "R": "swap", "C": "cas"}[event["k"]]
    values = {"L": [], "S": [event.get("w")], "R": [event.get("w")], "C": [(event.get("r", 0) + 1) % 2**32, 0]}[event["k"]]
    return [kind, event["a"], *values]


def program_text(recording, kept, program):
    """The program of these events: its operations where it is given, else those that the events came from."""
    events, addresses = events_of(recording), addresses_in(recording, kept)
    init = recording.get("init") or [0] * len(recording["writes"])
    if program is None:
        operations = [operation(it) for it in events]
        names = {a: f"a{i}" for i, a in enumerate(addresses)}
        operations = [[it[0], names[it[1]], *it[2:]] if len(it) > 1 and it[1] in names else it for it in operations]
    else:
        lines = [it.split() for it in program.splitlines()]
        operations = [it for it in lines if it[0] not in ("core", "init")]
        used = list(dict.fromkeys(it[1] for it in operations if it[0] != "fence"))
        names = {a: used[a] for a in addresses}
    text, core = "", None
    for it in kept:
        text += "core\n" if events[it]["core"] != core else ""
        core = events[it]["core"]
        text += " ".join(map(str, operations[it])) + "\n"
    return text + "".join(f"init {names[a]} {init[a]}\n" for a in addresses if init[a])


def shown(recording, verdict, program=None):
    """What is shown of the reduction of a violation: its program, an empty line, its recording and its verdict."""
    kept = needed(recording, verdict)
    rest = restricted(recording, kept)
    named = [kept.index(it) for it in named_by(verdict)]
    line = json.dumps(rest, sort_keys=True, separators=(",", ":"))
    return program_text(recording, kept, program) + "\n" + line + "\n" + verdict_text(rest, named, verdict.startswith("overlook:"))


def reduction(recording, verdict, program=None):
    """What `reduce` prints of a recording whose verdict has this text."""
    if not is_violation(verdict):
        return verdict
    return "events " + " ".join(map(str, needed(recording, verdict))) + "\n\n" + shown(recording, verdict, program)


def made(dice):
    """A random recording: any sources and any write lists."""
    cores, addresses = dice.randint(1, 8), dice.randint(1, 6)
    count = dice.choice([8, 16, 32, 64, 128])
    init = [dice.choice([0, 0, 7]) for _ in range(addresses)]
    kinds = [dice.choice("LLLLSSSSRCF") for _ in range(count)]
    events = [{"k": kind, **({} if kind == "F" else {"a": dice.randrange(addresses)})} for kind in kinds]
    writes = [[i for i, it in enumerate(events) if it["k"] in "SR" and it["a"] == a] for a in range(addresses)]
    for i, it in enumerate(events):
        if it["k"] in "SR":
            it["w"] = i + 1
    for i, it in enumerate(events):
        if it["k"] in "LRC":
            it["s"] = dice.choice([None, *(w for w in writes[it["a"]] if w != i)])
            it["r"] = init[it["a"]] if it["s"] is None else events[it["s"]]["w"]
    for it in writes:
        if dice.random() < 0.5:
            dice.shuffle(it)
    ends = sorted(dice.randint(0, count) for _ in range(cores - 1))
    parts = [events[first:last] for first, last in zip([0, *ends], [*ends, count])]
    return {"cores": parts, "version": 2, "writes": writes, "init": init}


def answer(program, words, given=""):
    """The status and the text that the program gives."""
    ran = subprocess.run([program, *words], input=given, capture_output=True, text=True, timeout=60)
    return ran.returncode, ran.stdout


def is_reduced(program, recording, verdict, file=None):
    """Whether the program reduces a recording as here, with the names and operations of the program in a file if there is one."""
    line = json.dumps(recording, sort_keys=True, separators=(",", ":"))
    words = ["--program", file] if file else []
    wanted = (2 if is_violation(verdict) else 0, reduction(recording, verdict, file and file.read_text()))
    return answer(program, ["reduce", "-", *words], line) == wanted


def is_reduced_once(program, recording, verdict):
    """Whether what is left of a violation is reduced to itself, is judged as it is told, and is one of the program that is left."""
    text = reduction(recording, verdict)
    source, rest = text.split("\n\n", 2)[1:]
    line, told = rest.split("\n", 1)
    _, again = answer(program, ["reduce", "-"], line)
    with tempfile.NamedTemporaryFile("w") as file:
        file.write(source + "\n")
        file.flush()
        ours = [answer(program, [it, "-", "--program", file.name], line)[0] for it in ("reduce", "explain", "draw")]
    return again.split("\n\n", 1)[1] == text.split("\n\n", 1)[1] and answer(program, ["judge", "-"], line) == (2, told) and ours == [2, 2, 2]


def of_recordings(program, seed, least):
    """How many of this many violations of random recordings are reduced as here."""
    dice, found, same = random.Random(seed), 0, 0
    while found < least:
        recording = made(dice)
        _, verdict = answer(program, ["judge", "-"], json.dumps(recording))
        same += is_reduced(program, recording, verdict) if is_violation(verdict) else 0
        found += is_violation(verdict)
    return same


def of_trials(program, seed, least):
    """How many of this many violations of random trials are shown reduced as here."""
    dice, found, same = random.Random(seed), 0, 0
    while found < least:
        options = f"--cores {dice.randint(2, 6)} --ops {dice.randint(4, 24)} --addresses {dice.randint(1, 4)}"
        options += f" --seed {dice.getrandbits(64)} --fault {dice.choice(FAULTS)} --trials 1 --show 0"
        words = ["trials", *options.split()]
        status, text = answer(program, words)
        if status == 2:
            source, rest = text.split("\n\n", 1)
            line, verdict = rest.split("\n", 1)
            wanted = (2, shown(json.loads(line), verdict, source + "\n"))
            same += answer(program, [*words, "--reduce"]) == wanted
            found += 1
    return same


def main():
    program = Path(sys.argv[1] if len(sys.argv) > 1 else Path(__file__).parent.parent / "tsotest/out/tsotest").resolve()
    count, parts = int(sys.argv[2]) if len(sys.argv) > 2 else 10_000, 8
    with ThreadPoolExecutor(parts) as pool:
        for name, of in (("recordings", of_recordings), ("trials", of_trials)):
            same = sum(pool.map(lambda seed: of(program, seed, count // parts), range(parts)))
            print(f"{name}: {same} of {count // parts * parts} violations are reduced as here")


if __name__ == "__main__":
    main()
