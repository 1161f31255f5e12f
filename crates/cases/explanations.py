"""Reads explanations again, beside the recording, its verdict and the names of its addresses."""
import re
from pathlib import Path

EVENT = re.compile(r"  ( *)(\d+)  core ( *)(\d+)  (.*)")
SOURCE = r"(?:, from (?P<s>\d+)|(?P<none>, the initial value))"
KINDS = {
    "L": re.compile(rf"ld (?P<a>\w+) = (?P<r>\d+){SOURCE}"),
    "S": re.compile(r"st (?P<a>\w+) (?P<w>\d+)"),
    "R": re.compile(rf"rmw (?P<a>\w+) = (?P<r>\d+){SOURCE}, wrote (?P<w>\d+)"),
    "C": re.compile(rf"cas (?P<a>\w+) = (?P<r>\d+){SOURCE}, wrote nothing"),
    "F": re.compile(r"fence"),
}
REASONS = {
    "Po": r"before {} in program order",
    "Wo": r"before {} in the write list of {}",
    "Rf": r"before {}, which read it",
    "Fr": r"before {}, which wrote a newer value of {}",
}
IMPOSSIBLE = "No memory order explains this recording: "
FORMATS = Path(__file__).resolve().parent.parent.parent / "docs/FORMATS.md"
# The classic tests of docs/FORMATS.md, each with the words of its cycle.
CLASSICS = re.findall(r"^\| (\S+) \| `((?:\w+ ?)+)` \|$", FORMATS.read_text().split("| Test | Words |\n")[1].split("\n\n")[0], re.M)


def is_external(word):
    return word[:2] in ("Rf", "Fr", "Co") and word.endswith("e")


def recording_of(words):
    """A recording whose cycle has these words of diy: a core for each way from one external step to the next, and of each address the initial value
    where nothing else is read."""
    turn = next((i for i, it in enumerate(words) if is_external(it)), len(words) - 1) + 1
    words = words[turn:] + words[:turn]
    apart = sum(it[-3:-2] == "d" for it in words)
    cores, events, address = [[]], [], 0
    for i, word in enumerate(words):
        inside = word[:2] in ("Po", "MF")
        kind = word[-2] if inside else {"Rf": "W", "Fr": "R", "Co": "W"}[word[:2]]
        event = {"a": address % apart if apart else 0, "k": "S" if kind == "W" else "L"}
        events.append(event)
        cores[-1].append(event)
        if word.startswith("MF"):
            cores[-1].append({"k": "F"})
        if is_external(word) and i + 1 < len(words):
            cores.append([])
        address += word[-3:-2] == "d"
    number = {id(it): i for i, it in enumerate(it for core in cores for it in core)}
    writes = [[] for _ in range(max(apart, 1))]
    for event in events:
        if event["k"] == "S":
            event["w"] = number[id(event)] + 1
            writes[event["a"]].append(number[id(event)])
        else:
            event |= {"r": 0, "s": None}
    for first, second, word in zip(events, [*events[1:], events[0]], words):
        if word.startswith("Rf"):
            second |= {"r": first["w"], "s": number[id(first)]}
        if word.startswith("Co"):
            before, after, list_ = number[id(first)], number[id(second)], writes[first["a"]]
            list_.remove(before)
            list_.insert(list_.index(after), before)
    return {"cores": cores, "version": 1, "writes": writes}


def names_of(program):
    """The names of a litmus text, in order of first use."""
    words = [line.split() for line in program.splitlines()]
    return list(dict.fromkeys(it[1] for it in words if it[0] not in ("core", "fence", "init")))


def is_said(text, event, names):
    """Whether a text says what an event did, with the recording's own data."""
    said = KINDS[event["k"]].fullmatch(text)
    if not said:
        return False
    told = said.groupdict()
    told.pop("none", None)
    wanted = {key: event[key] for key in "arsw" if key in event}
    if "a" in wanted:
        wanted["a"] = names[wanted["a"]]
    return told == {key: None if it is None else str(it) for key, it in wanted.items()}


class Reader:
    """A recording with the names of its addresses, and the lines of its explanation."""

    def __init__(self, recording, names):
        self.events = [{**event, "core": core} for core, events in enumerate(recording["cores"]) for event in events]
        self.writes = recording["writes"]
        self.names = names or [f"a{it}" for it in range(len(self.writes))]
        self.width = len(str(max(len(self.events) - 1, 0)))
        self.core_width = len(str(max(len(recording["cores"]) - 1, 0)))

    def name(self, number):
        return self.names[self.events[number]["a"]]

    def word(self, first, second, reason):
        """The word of diy for a step between two loads or stores; without a reason a fence is between them."""
        before, after = self.events[first], self.events[second]
        if reason in ("Po", None):
            letters = "".join({"S": "W", "R": "RA"}.get(it["k"], "R") for it in (before, after))
            return ("Po" if reason else "MFence") + ("s" if before["a"] == after["a"] else "d") + letters
        return {"Wo": "Co"}.get(reason, reason) + ("i" if before["core"] == after["core"] else "e")

    def diy(self, pairs):
        """The line that says a cycle of these pairs in the words of diy, if there is one."""
        if any(self.events[it]["k"] == "C" for it, _, _ in pairs):
            return []
        at = [i for i, (it, _, _) in enumerate(pairs) if self.events[it]["k"] != "F"]
        words = []
        for i, j in zip(at, [*at[1:], at[0]]):
            alone = (i + 1) % len(pairs) == j
            words.append(self.word(pairs[i][0], pairs[j][0], pairs[i][2] if alone else None))
        for i in range(len(words)):
            turned = " ".join(words[i:] + words[:i])
            for name, told in CLASSICS:
                if told == turned:
                    return [f"In diy's words: {told} ({name})"]
        return ["In diy's words: " + " ".join(words)]

    def is_line(self, line, number):
        """Whether a line is that of the event, with the recording's own data."""
        found = EVENT.fullmatch(line)
        event = self.events[number]
        if not found or int(found[2]) != number or int(found[4]) != event["core"]:
            return False
        if len(found[1] + found[2]) != self.width or len(found[3] + found[4]) != self.core_width:
            return False
        return is_said(found[5], event, self.names)

    def is_below(self, line, text):
        """Whether a line says this below an event."""
        return line == " " * (self.width + 4) + text

    def is_cycle(self, lines, pairs):
        """Whether the lines are each event of a cycle once, and the reasons of its pairs, and the words of diy."""
        head = f"{IMPOSSIBLE}these {len(pairs)} events would each come before the next."
        if lines[0] != head or lines[1 + 2 * len(pairs) :] != self.diy(pairs):
            return False
        for i, (first, second, reason) in enumerate(pairs):
            name = self.name(second) if reason in ("Wo", "Fr") else ""
            if not self.is_line(lines[1 + 2 * i], first):
                return False
            if not self.is_below(lines[2 + 2 * i], REASONS[reason].format(second, name)):
                return False
        return True

    def is_overlook(self, lines, load, store):
        """Whether the lines are the store, the load and what the load read, and the words of diy."""
        head = f"{IMPOSSIBLE}event {load} overlooks event {store}, a newer write of its own core."
        source, name = self.events[load]["s"], self.name(store)
        last = self.diy([(store, load, "Po"), (load, store, "Fr")])
        if lines[0] != head or lines[5 if source is None else 6 :] != last:
            return False
        if not (self.is_line(lines[1], store) and self.is_below(lines[2], f"before {load} in program order")):
            return False
        if not self.is_line(lines[3], load):
            return False
        if source is None:
            return self.is_below(lines[4], f"the initial value is older than each write of {name}")
        says = self.is_below(lines[4], f"read it from {source}, which is older in the write list of {name}")
        return says and self.is_line(lines[5], source)

    def reads(self, number, earlier):
        """What is said of a read after these events: the last write of its address, in memory or in its core's buffer."""
        event, name = self.events[number], self.name(number)
        source = event["s"]
        own = [it for it in range(number) if self.is_write(it, event["a"]) and self.events[it]["core"] == event["core"]]
        waiting = [it for it in own if it not in earlier]
        seen = [it for it in earlier if self.is_write(it, event["a"])]
        if waiting and waiting[-1] == source:
            return f"forwarded from its core's store buffer, which {source} leaves later"
        if source is None and not waiting and not seen:
            return f"no write of {name} is before it"
        if not waiting and seen and seen[-1] == source:
            return f"{source} is the last write of {name} before it"
        return "a read that no rule allows"

    def is_write(self, number, address):
        event = self.events[number]
        return event["k"] in "SR" and event["a"] == address

    def writes_after(self, number, earlier):
        """What is said of a write after these events."""
        name = self.name(number)
        seen = [it for it in earlier if self.is_write(it, self.events[number]["a"])]
        return f"the next write of {name} after {seen[-1]}" if seen else f"the first write of {name}"

    def is_order(self, lines, order):
        """Whether the lines are each event of an order, and what makes its place lawful."""
        if lines[0] != "TSO allows this recording. Its events in memory order:":
            return False
        at = 1
        for i, number in enumerate(order):
            kind, earlier = self.events[number]["k"], order[:i]
            below = [self.reads(number, earlier)] if kind in "LRC" else []
            below += [self.writes_after(number, earlier)] if kind in "SR" else []
            below += ["after what its core did before it"] if kind == "F" else []
            if len(lines) < at + 1 + len(below) or not self.is_line(lines[at], number):
                return False
            if not all(self.is_below(line, text) for line, text in zip(lines[at + 1 :], below)):
                return False
            at += 1 + len(below)
        return at == len(lines) and sorted(order) == list(range(len(self.events)))


def is_explanation(text, recording, verdict, program=None):
    """Whether a text explains the recording whose verdict has this text, with the names of the program if there is one."""
    reader = Reader(recording, names_of(program) if program is not None else None)
    if not text.endswith("\n"):
        return False
    lines = text.removesuffix("\n").split("\n")
    words = verdict.split("\n")[0].split()
    if words[0] == "ordered:":
        return reader.is_order(lines, [int(it) for it in words[1:]])
    if words[0] == "overlook:":
        return reader.is_overlook(lines, int(words[2]), int(words[4]))
    pairs = re.findall(r"(\d+) -> (\d+) (\w+)\n", verdict)
    return reader.is_cycle(lines, [(int(first), int(second), reason) for first, second, reason in pairs])
