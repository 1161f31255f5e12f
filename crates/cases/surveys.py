#!/usr/bin/env python3
"""Says what `survey` prints of recordings, by what `judge` prints of each.

With a program and a number, whether the program says so of this many random recordings, of which some are refused, by 1, 2, 8 and 32 workers.
Usage: crates/cases/surveys.py PROGRAM N [SEED]
"""
import json
import random
import subprocess
import sys
from concurrent.futures import ThreadPoolExecutor

sys.dont_write_bytecode = True
from reductions import made

REFUSED = [b"{}", b"core", b'{"cores":[],"version":3,"writes":[]}', b'{"cores":[[{"a":0,"k":"S","w":1}]],"version":1,"writes":[[]]}']


def in_turn(dice):
    """A recording of cores that take turns, each load of the last store; where one load is of another store, it may be a violation."""
    cores, last, writes = [[] for _ in range(dice.randint(1, 4))], {}, [[] for _ in range(3)]
    events = [(dice.randrange(len(cores)), dice.choice("LLSSF"), dice.randrange(3)) for _ in range(dice.choice([4, 8, 16, 32]))]
    numbers = {at: n for n, at in enumerate(sorted(range(len(events)), key=lambda it: (events[it][0], it)))}
    wrong = dice.randrange(len(events)) if dice.random() < 0.3 else None
    for at, (core, kind, a) in enumerate(events):
        source = last.get(a) if at != wrong else dice.choice([None, *writes[a]])
        cores[core].append({"k": "F"} if kind == "F" else {"k": "S", "a": a, "w": at + 1} if kind == "S" else {"k": "L", "a": a, "s": source, "r": 0})
        if kind == "S":
            last[a] = numbers[at]
            writes[a].append(numbers[at])
    whole = [it for core in cores for it in core]
    for it in whole:
        if it["k"] == "L" and it["s"] is not None:
            it["r"] = whole[it["s"]]["w"]
    return {"cores": cores, "version": 1, "writes": writes}


def surveyed_lines(seed, count):
    """Lines of random recordings, one of fifty refused."""
    dice = random.Random(seed)
    return [dice.choice(REFUSED) if dice.random() < 0.02 else json.dumps(dice.choice([made, in_turn, in_turn])(dice)).encode() for _ in range(count)]


def found(program, line):
    """What a recording counts as, and what is said of it, by what `judge` prints."""
    ran = subprocess.run([program, "judge", "-"], input=line, stdout=subprocess.PIPE, timeout=60)
    first = ran.stdout.split(b"\n")[0]
    if ran.returncode == 3:
        return b"refused", first
    if ran.returncode == 0:
        return b"ordered", b"ordered"
    return (b"overlook" if first.startswith(b"overlook") else b"cycle " + first.split()[-1] + b":"), first


def found_in(program, lines):
    """The same of each line."""
    with ThreadPoolExecutor() as pool:
        return [*pool.map(lambda it: found(program, it), lines)]


def survey_of(findings):
    """The counts, the status, and the lines with the counts."""
    kinds = [it[0] for it in findings]
    lines = [b"recordings %d" % len(kinds)] + [b"%s %d" % (it, kinds.count(it)) for it in (b"ordered", b"refused", b"overlook")]
    lengths = sorted({int(it.split()[1][:-1]) for it in kinds if it.startswith(b"cycle")})
    lines += [b"cycle %d: %d" % (it, kinds.count(b"cycle %d:" % it)) for it in lengths]
    violations = [i for i, it in enumerate(kinds) if it not in (b"ordered", b"refused")]
    for name, places in (("violation", violations), ("refused", [i for i, it in enumerate(kinds) if it == b"refused"])):
        lines.append(f"first {name}: {f'recording {places[0]}' if places else 'none'}".encode())
    counts = b"".join(it + b"\n" for it in lines)
    each = b"".join(b"%d %s\n" % (i, it[1]) for i, it in enumerate(findings))
    return counts, 2 if violations else 3 if b"refused" in kinds else 0, each + b"\n" + counts


def main(program, count, seed="0"):
    lines = surveyed_lines(int(seed), int(count))
    counts, status, each = survey_of(found_in(program, lines))
    holds = True
    for words, wanted in (([], counts), (["--each"], each)):
        for workers in ("1", "2", "8", "32"):
            ran = subprocess.run([program, "survey", "-", "--workers", workers, *words], input=b"\n".join(lines), stdout=subprocess.PIPE)
            holds = holds and (ran.returncode, ran.stdout) == (status, wanted)
    print(counts.decode() + f"survey {'holds' if holds else 'differs'}")
    return 0 if holds else 1


if __name__ == "__main__":
    sys.exit(main(*sys.argv[1:]))
