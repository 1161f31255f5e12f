#!/usr/bin/env python3
"""Prints every outcome that TSO allows of a litmus program, found by trying all orders of its operations.

With a program and a number, whether the program prints the same of this many random programs, and says the same of random logs and conditions.
Usage: crates/cases/outcomes.py FILE, or crates/cases/outcomes.py PROGRAM N [SEED]
"""
import json
import random
import re
import subprocess
import sys
from pathlib import Path

sys.dont_write_bytecode = True

MODULUS = 2**32
READS = ("ld", "swap", "add", "cas")


class Program:
    """The operations of each core as words, with numbers for names and values, and the names and initial values."""

    def __init__(self, text):
        self.cores, self.names, self.init = [], [], []
        for line in text.splitlines():
            word, *rest = line.split(" ")
            if word == "core":
                self.cores.append([])
            elif word == "init":
                self.init[self.names.index(rest[0])] = int(rest[1])
            else:
                if rest and rest[0] not in self.names:
                    self.names.append(rest[0])
                    self.init.append(0)
                self.cores[-1].append((word, *([self.names.index(rest[0]), *map(int, rest[1:])] if rest else [])))
        self.events = [(core, op) for core, ops in enumerate(self.cores) for op in ops]

    def orders(self):
        """All orders of the events that keep each pair of one core but a plain store and a later plain load."""
        events, count = self.events, len(self.events)
        kept = lambda e, f: events[e][0] == events[f][0] and not (events[e][1][0] == "st" and events[f][1][0] == "ld")
        before = [[e for e in range(f) if kept(e, f)] for f in range(count)]

        def extended(order, left):
            if not left:
                yield order
            for e in left:
                if all(it in order for it in before[e]):
                    yield from extended([*order, e], [it for it in left if it != e])

        yield from extended([], list(range(count)))

    def performed(self, order):
        """What is read in an order, with its source: the last write in it that is before the read in it, or before it on its core; and what is written."""
        place, events = {e: i for i, e in enumerate(order)}, self.events
        written = {e: (op[1], op[2]) for e, (_, op) in enumerate(events) if op[0] == "st"}
        read = {}
        for e in order:
            core, op = events[e]
            if op[0] not in READS:
                continue
            seen = [w for w, (a, _) in written.items() if a == op[1] and w != e and (place[w] < place[e] or (events[w][0] == core and w < e))]
            source = max(seen, key=place.get) if seen else None
            value = self.init[op[1]] if source is None else written[source][1]
            read[e] = value, source
            if op[0] == "swap":
                written[e] = (op[1], op[2])
            elif op[0] == "add":
                written[e] = (op[1], (value + op[2]) % MODULUS)
            elif op[0] == "cas" and value == op[2]:
                written[e] = (op[1], op[3])
        return read, written

    def outcome(self, order):
        """What is read in an order, and the last values."""
        read, written = self.performed(order)
        last = list(self.init)
        for e in order:
            if e in written:
                last[written[e][0]] = written[e][1]
        return tuple(read[e][0] for e in sorted(read)), tuple(last)

    def recording(self, order):
        """The recording that an order makes."""
        read, written = self.performed(order)
        cores = [[] for _ in self.cores]
        for e, (core, op) in enumerate(self.events):
            kind = "F" if op[0] == "fence" else "R" if e in read and e in written else "S" if e in written else "L" if op[0] == "ld" else "C"
            it = {"k": kind} | ({} if kind == "F" else {"a": op[1]})
            it |= {"r": read[e][0], "s": read[e][1]} if e in read else {}
            cores[core].append(it | ({"w": written[e][1]} if e in written else {}))
        writes = [[e for e in order if e in written and written[e][0] == a] for a in range(len(self.names))]
        is_second = any(self.init) or any(it["k"] == "C" for core in cores for it in core)
        return {"cores": cores, "writes": writes} | ({"version": 2, "init": self.init} if is_second else {"version": 1})

    def keys(self):
        """The names of all items of an outcome."""
        reads = [f"{core}:r{k}" for core, ops in enumerate(self.cores) for k in range(sum(op[0] in READS for op in ops))]
        return reads + [f"[{it}]" for it in self.names]

    def outcomes(self):
        """All outcomes, each as its items, in order."""
        found = sorted({self.outcome(order) for order in self.orders()})
        return [dict(zip(self.keys(), (*reads, *last))) for reads, last in found]


def items_text(items):
    return " ".join(f"{key}={value};" for key, value in items.items())


def listed(text):
    """What is printed of a program."""
    found = Program(text).outcomes()
    return f"outcomes: {len(found)}\n" + "".join(items_text(it) + "\n" for it in found)


def asked(recording):
    """The items that a recording shows, of a program with names `a`, `b` and so on by number."""
    recording, items, read, written = json.loads(recording), {}, {}, {}
    number = 0
    for core, events in enumerate(recording["cores"]):
        k = 0
        for it in events:
            if it["k"] in "LRC":
                items[f"{core}:r{k}"] = it["r"]
                k += 1
            if it["k"] in "SR":
                written[number] = it["w"]
            number += 1
    init = recording.get("init", [0] * len(recording["writes"]))
    last = [written[it[-1]] if it else value for it, value in zip(recording["writes"], init)]
    return items, last


class Refused(Exception):
    """The number of the line, or of the item, at fault."""


def said(words, keys, ended):
    """What words say, each once."""
    items = {}
    for number, word in enumerate(words, 1):
        it = re.fullmatch(r"(?:\[([a-z0-9]+)\]|([a-z0-9]+)|([0-9]+:r[0-9]+))=(0|[1-9][0-9]*);" + ("" if ended else "?"), word)
        key = it and (it[3] or f"[{it[1] or it[2]}]")
        if not it or key not in keys or key in items or int(it[4]) >= MODULUS:
            raise Refused(number)
        items[key] = int(it[4])
    return items


def shows(outcome, items):
    return all(outcome[key] == value for key, value in items.items())


def lines_of(log, keys):
    """What the lines of a log say: the count and the items."""
    for number, line in enumerate(log.split("\n"), 1):
        line = line.strip(" \t\r")
        count, rest = re.fullmatch(r"(?:([0-9]+)(?=[ \t\r*:]))?[ \t\r]*(.*)", line, re.S).groups()
        if count and not re.match(r"[ \t\r]|[*:]>", line[len(count) :]):
            count, rest = None, line
        rest = re.sub(r"^[*:]>", "", rest)
        words = re.split(r"[ \t\r]+", rest.strip(" \t\r")) if rest.strip(" \t\r") else []
        if line.startswith("{") or not any("=" in it and ";" in it for it in words):
            continue
        try:
            yield count, said(words, keys, True)
        except Refused:
            raise Refused(number) from None


def reported(text, log, whole):
    """The status and the text of what is answered to a log of a program."""
    program = Program(text)
    found = program.outcomes()
    try:
        lines = list(lines_of(log, program.keys()))
    except Refused as refused:
        return 3, f"refused: O1 line {refused.args[0]}\n"
    out, forbidden = "", 0
    for count, items in lines:
        is_allowed = any(shows(it, items) for it in found)
        forbidden += not is_allowed
        out += ("allowed" if is_allowed else "forbidden") + (f" {count}" if count else "") + " " + items_text(items) + "\n"
    unseen = [it for it in found if not any(shows(it, items) for _, items in lines)]
    out += f"allowed: {len(lines) - forbidden}\nforbidden: {forbidden}\nunseen: {len(unseen)}\n"
    out += "".join(items_text(it) + "\n" for it in unseen if whole)
    return 2 if forbidden else 0, out


def event(op, value):
    """What an operation that read a value does, without its source."""
    if op[0] == "fence":
        return {"k": "F"}
    if op[0] == "st":
        return {"a": op[1], "k": "S", "w": op[2]}
    if op[0] == "ld":
        return {"a": op[1], "k": "L", "r": value}
    if op[0] == "cas" and value != op[2]:
        return {"a": op[1], "k": "C", "r": value}
    return {"a": op[1], "k": "R", "r": value, "w": {"swap": op[2], "add": (value + op[2]) % MODULUS, "cas": op[-1]}[op[0]]}


def values_of(program, items):
    """The values alone of a run that read what items say, and ended with it, where these have all reads."""
    cores = []
    for core, ops in enumerate(program.cores):
        cores.append([])
        reads = 0
        for op in ops:
            key = f"{core}:r{reads}"
            if op[0] in READS and key not in items:
                return None
            cores[-1].append(event(op, items.get(key)))
            reads += op[0] in READS
    final = [items.get(f"[{name}]") for name in program.names]
    return json.dumps({"cores": cores, "final": final, "init": program.init, "version": 3})


def reasons(binary, text, log):
    """What is printed beside the answer to a log by --why: what is answered of the values of the first forbidden line with all reads."""
    program = Program(text)
    found = program.outcomes()
    try:
        lines = [items for _, items in lines_of(log, program.keys()) if not any(shows(it, items) for it in found)]
    except Refused:
        return ""
    values = next((it for it in (values_of(program, items) for items in lines) if it), None)
    if values is None:
        return ""
    return "\n" + subprocess.run([binary, "complete", "-"], input=values.encode(), stdout=subprocess.PIPE, timeout=60).stdout.decode()


def condition_items(program, condition):
    """The items of a condition on a program."""
    return said(re.split(r"[ \t\r]+", condition.replace("/\\", " ").strip(" \t\r")) if condition.strip(" \t\r") else [], program.keys(), False)


def is_shown(program, text, condition):
    """Whether a program shows the first outcome with the items of a condition: a recording that some order with it makes, after its replay."""
    it = Program(text)
    shown = answer(program, ["-", "--show", condition], text)
    try:
        items = condition_items(it, condition)
    except Refused as refused:
        return shown == (3, f"refused: O2 item {refused.args[0]}\n")
    first = next((outcome for outcome in it.outcomes() if shows(outcome, items)), None)
    if first is None:
        return shown == (2, "No\n")
    recording = shown[1].splitlines()[-1] + "\n"
    replay = subprocess.run([program, "replay", "-"], input=recording.encode(), stdout=subprocess.PIPE, timeout=60)
    made = (it.recording(order) for order in it.orders() if dict(zip(it.keys(), sum(it.outcome(order), ()))) == first)
    return shown == (0, replay.stdout.decode() + "\n" + recording) and replay.returncode == 0 and any(x == json.loads(recording) for x in made)


def conditioned(text, condition, wanted):
    """The status and the text of what is answered to a condition on a program; what is wanted is whether some outcome has the items."""
    program = Program(text)
    try:
        items = condition_items(program, condition)
    except Refused as refused:
        return 3, f"refused: O2 item {refused.args[0]}\n"
    holds = any(shows(it, items) for it in program.outcomes()) == wanted
    return (0, "Yes\n") if holds else (2, "No\n")


def made(dice, most=7):
    """The text of a random program."""
    cores = [[] for _ in range(dice.randint(1, 4))]
    names, values = "abc"[: dice.randint(1, 3)], [0, 1, 2, MODULUS - 1]
    for _ in range(dice.randint(1, most)):
        word, name = dice.choice(["st", "st", "ld", "ld", "swap", "add", "cas", "fence"]), dice.choice(names)
        values_ = [str(dice.choice(values)) for _ in range({"ld": 0, "fence": 0, "cas": 2}.get(word, 1))]
        dice.choice(cores).append(" ".join([word, *([] if word == "fence" else [name]), *values_]))
    text = "".join("core\n" + "".join(op + "\n" for op in ops) for ops in cores)
    for name in Program(text).names:
        value = dice.choice([0, 0, 1, 2])
        text += f"init {name} {value}\n" if value else ""
    return text


def made_log(dice, text):
    """A log of a program: titles, lines with and without counts and marks, whole and in part, right and wrong."""
    program = Program(text)
    found, lines = program.outcomes(), []
    for _ in range(dice.randint(0, 6)):
        items = dict(dice.choice(found))
        for key in list(items):
            if dice.random() < 0.2:
                del items[key]
            elif dice.random() < 0.15:
                items[key] = dice.choice([0, 1, 2, 3, MODULUS - 1])
        words = [f"{key.strip('[]') if dice.random() < 0.5 else key}={value};" for key, value in items.items()]
        dice.shuffle(words)
        if dice.random() < 0.08:
            words.append(dice.choice(["9:r0=1;", "q=1;", "a=01;", "a=4294967296;", "0:r0=", "a=1", "x", "[a=1;", "a]=1;", "a=1;;", "=1;", "a=;"]))
        head = dice.choice(["", "", f"{dice.randint(0, 10**12)} ", "    7 ", "12    *>", "3:>", "*>", ":>", "\t5 :>"])
        lines.append(head + dice.choice([" ", "  ", "\t"]).join(words) + dice.choice(["", "", " ", "\r"]))
    for title in ("Test SB Allowed", "Histogram (3 states)", "{x=0; y=0;}", "Ok", "", "Condition exists (0:r0=0 /\\ 1:r0=0) is validated", " P0 | P1 ;", "Hash=7dbd"):
        if dice.random() < 0.3:
            lines.insert(dice.randint(0, len(lines)), title)
    return "\n".join(lines) + dice.choice(["", "\n"])


def made_condition(dice, text):
    """A condition on a program, perhaps with an item that is none of it."""
    items = list(dict(dice.choice(Program(text).outcomes())).items())
    chosen = [(key, value if dice.random() < 0.7 else dice.choice([0, 1, 2])) for key, value in items if dice.random() < 0.6]
    words = [f"{key.strip('[]') if dice.random() < 0.5 else key}={value}" + dice.choice(["", ";"]) for key, value in chosen]
    if dice.random() < 0.1:
        words.append(dice.choice(["9:r0=1", "\\/", "a==1", "a", "a=1 a=1"]))
    return dice.choice([" ", " /\\ ", "/\\", "  "]).join(words)


def answer(program, words, text):
    """The status and the text that a program prints, with nothing on standard error."""
    ran = subprocess.run([program, "outcomes", *words], input=text.encode(), stdout=subprocess.PIPE, stderr=subprocess.PIPE, timeout=60)
    return (ran.returncode, ran.stdout.decode()) if not ran.stderr else None


def is_answered(program, text, dice, folder):
    """Whether a program answers of a litmus program, of a log and of three conditions what is answered here."""
    log, path = made_log(dice, text), Path(folder) / "log"
    path.write_bytes(log.encode())
    whole, condition = dice.random() < 0.5, made_condition(dice, text)
    status, report = reported(text, log, whole)
    return (
        answer(program, ["-"], text) == (0, listed(text))
        and answer(program, ["-", "--observed", str(path), *(["--unseen"] if whole else [])], text) == (status, report)
        and answer(program, ["-", "--why", "--observed", str(path), *(["--unseen"] if whole else [])], text) == (status, report + reasons(program, text, log))
        and answer(program, ["-", "--exists", condition], text) == conditioned(text, condition, True)
        and answer(program, ["-", "--never", condition], text) == conditioned(text, condition, False)
        and is_shown(program, text, condition)
    )


def of_programs(program, seed, count):
    """How many of this many random programs are answered as here."""
    import tempfile

    dice = random.Random(seed)
    with tempfile.TemporaryDirectory() as folder:
        return sum(is_answered(program, made(dice), dice, folder) for _ in range(count))


def is_classic_right(program, file):
    """Whether the outcome of a classic test's recording is allowed, and shown, exactly where its verdict is an order."""
    items, last = asked(file.with_suffix(".json").read_text())
    names = Program(file.read_text()).names
    items |= {f"[{name}]": value for name, value in zip(names, last)}
    is_allowed = file.with_suffix(".verdict").read_text().startswith("ordered:")
    wanted = (0, "Yes\n") if is_allowed else (2, "No\n")
    return answer(program, [str(file), "--exists", items_text(items)], "") == wanted and is_shown(program, file.read_text(), items_text(items))


def main():
    if len(sys.argv) > 2:
        count, seed = int(sys.argv[2]), int(sys.argv[3]) if len(sys.argv) > 3 else 1
        same = of_programs(str(Path(sys.argv[1]).resolve()), seed, count)
        print(f"{same} of {count} random programs are answered as here")
        raise SystemExit(same != count)
    print(listed(Path(sys.argv[1]).read_text()), end="")


if __name__ == "__main__":
    main()
