"""Histograms of a program, counted from its runs one by one."""

import json
import re
import subprocess


def names_of(program):
    """The names of a program's addresses, in the order of their first use."""
    names = []
    for line in program.splitlines():
        words = line.split()
        if words[0] not in ("core", "fence", "init") and words[1] not in names:
            names.append(words[1])
    return names


def outcome_of(recording, names):
    """What a recording comes to: the values that decide the order of outcomes, and the text."""
    reads = [[event["r"] for event in core if event["k"] in "LRC"] for core in recording["cores"]]
    written = [event.get("w", 0) for core in recording["cores"] for event in core]
    initial = recording.get("init") or [0] * len(names)
    memory = [written[list_[-1]] if list_ else first for list_, first in zip(recording["writes"], initial)]
    items = [f"{core}:r{k}={value};" for core, values in enumerate(reads) for k, value in enumerate(values)]
    items += [f"[{name}]={value};" for name, value in zip(names, memory)]
    by_event = [event["r"] if event["k"] in "LRC" else 0 for core in recording["cores"] for event in core]
    return (by_event, memory), " ".join(items)


def counted(program, command, path, options, runs, seed):
    """The status and the text of a histogram, by runs of one seed each; of a broken run also that it is one."""
    names = names_of(path.read_text())
    found, unfinished, violations = {}, 0, 0
    for run in range(runs):
        words = [program, command, str(path), *options, "--seed", str((seed + run) % 2**64)]
        done = subprocess.run(words, capture_output=True, timeout=60)
        if done.returncode == 4:
            unfinished += 1
            continue
        key, text = outcome_of(json.loads(done.stdout.splitlines()[0]), names)
        bar = found.setdefault(text, [0, key, run, ":>"])
        bar[0] += 1
        if done.returncode == 2:
            violations += 1
            bar[3] = "*>"
    bars = sorted(found.items(), key=lambda one: (-one[1][0], one[1][1]))
    lines = [f"Histogram ({len(bars)} states)"]
    for text, (count, _key, first, mark) in bars:
        lines.append(f"{count} {mark}{text} # seed {(seed + first) % 2**64}")
    if unfinished:
        lines.append(f"unfinished: {unfinished}")
    return 2 if violations else 4 if unfinished else 0, "".join(f"{line}\n" for line in lines)


def is_histogram(program, path, options, runs, seed):
    """Whether `run --runs` prints what its runs come to one by one."""
    words = [program, "run", str(path), *options, "--runs", str(runs), "--seed", str(seed)]
    done = subprocess.run(words, capture_output=True, timeout=60)
    return (done.returncode, done.stdout.decode()) == counted(program, "run", path, options, runs, seed)


BAR = re.compile(r"(\d+) :>(.*) # run (\d+)\n")


def is_live_histogram(program, path, runs, outcomes):
    """Whether `live --runs` counts as many runs as there are, each with an outcome that TSO allows, the most frequent first."""
    done = subprocess.run([program, "live", str(path), "--runs", str(runs)], capture_output=True, timeout=60)
    head, *lines = done.stdout.decode().splitlines(True)
    bars = [BAR.fullmatch(line) for line in lines]
    if done.returncode != 0 or not all(bars) or head != f"Histogram ({len(bars)} states)\n":
        return False
    counts = [int(bar[1]) for bar in bars]
    firsts = [int(bar[3]) for bar in bars]
    return (
        sum(counts) == runs
        and counts == sorted(counts, reverse=True)
        and 0 in firsts
        and len({*firsts}) == len(bars) == len({bar[2] for bar in bars})
        and all(bar[2] in outcomes for bar in bars)
    )
