"""Cycles in the words of diy, beside rules as plain as they are said: which words are a cycle, what `make` makes of them, and which cycles
are critical."""
import itertools
import json
import random
import re
import subprocess

PAIRS = {f"{head}{way}{a}{b}" for head in ("Po", "MFence") for way in "sd" for a in ("R", "W", "RA", "WA") for b in ("R", "W", "RA", "WA")}
SIDES = ("Rfe", "Rfi", "Fre", "Fri", "Coe", "Coi")
NAMES = "xyzabcdefghijklm"


def of_pair(word):
    """Returns whether a word has a fence, whether both addresses are the same, and its letters."""
    head, way, first, second = re.fullmatch("(Po|MFence)([sd])([RW]A?)([RW]A?)", word).groups()
    return head == "MFence", way == "s", first, second


def kinds_by(letter):
    """Returns which events a letter may be: a load, a store or a read-modify-write."""
    return {"R"} if letter[1:] else {"L" if letter == "R" else "S"}


def kinds_at(word, at):
    """Returns which events may stand at the start (0) or the end (1) of a word."""
    if word in PAIRS:
        return kinds_by(of_pair(word)[2 + at])
    return {"L", "R"} if {"Rf": "WR", "Fr": "RW", "Co": "WW"}[word[:2]][at] == "R" else {"S", "R"}


def parts(count, joins):
    """Returns for each of so many things the least that is joined with it."""
    of = list(range(count))
    for a, b in joins:
        old, new = max(of[a], of[b]), min(of[a], of[b])
        of = [new if it == old else it for it in of]
    return of


def is_in_order(count, pairs):
    """Returns whether there is an order of so many things in which the first of each pair comes before the second."""
    left, before = set(range(count)), set(pairs)
    while left:
        free = {it for it in left if not any(b == it and a in left for a, b in before)}
        if not free:
            return False
        left -= free
    return True


def explains(kinds, links, order, sources):
    """Returns whether the writes in this order, and these sources, are what links say."""
    at = {e: i for i, e in enumerate(order)}
    for link, e, f in links:
        if link == "Rf" and sources.get(f, -1) != e:
            return False
        if link == "Co" and not at[e] < at[f]:
            return False
        if link == "Fr" and (e == f or not (sources[e] is None or at[sources[e]] < at[f])):
            return False
    return True


def has_memory(kinds, events, links):
    """Returns whether the events of an address can read and write so that links hold."""
    writes = [e for e in events if kinds[e] in "SR"]
    reads = [e for e in events if kinds[e] in "LR"]
    return any(explains(kinds, links, order, dict(zip(reads, sources)))
               for order in itertools.permutations(writes) for sources in itertools.product([None, *writes], repeat=len(reads)))


def is_cycle(words):
    """Returns whether some recording has events of which each is followed as its word says."""
    count = len(words)
    steps = [(word, i, (i + 1) % count) for i, word in enumerate(words)]
    pairs = [(of_pair(word), e, f) for word, e, f in steps if word in PAIRS]
    sides = [(word, e, f) for word, e, f in steps if word not in PAIRS]
    cores = parts(count, [(e, f) for _, e, f in pairs] + [(e, f) for word, e, f in sides if word[2] == "i"])
    places = parts(count, [(e, f) for pair, e, f in pairs if pair[1]] + [(e, f) for _, e, f in sides])
    if any(cores[e] == cores[f] for word, e, f in sides if word[2] == "e") or any(places[e] == places[f] for pair, e, f in pairs if not pair[1]):
        return False
    if not is_in_order(count, [(e, f) for _, e, f in pairs]):
        return False
    able = [kinds_at(words[i - 1], 1) & kinds_at(words[i], 0) for i in range(count)]
    # (an access that both words call the same is no read-modify-write unless one of them says so)
    able = [it - {"R"} if len(it) > 1 else it for it in able]
    for kinds in itertools.product(*able):
        links = lambda place: [(word[:2], e, f) for word, e, f in sides if places[e] == place]
        if all(has_memory(kinds, [e for e in range(count) if places[e] == it], links(it)) for it in set(places)):
            return True
    return False


def refused(words):
    """Returns how words are refused, or None."""
    for n, word in enumerate(words, 1):
        if word not in PAIRS and word not in SIDES:
            return f"E1 word {n}"
    if not words:
        return "E1 word 1"
    for i in range(len(words)):
        if not kinds_at(words[i], 1) & kinds_at(words[(i + 1) % len(words)], 0):
            return f"E2 word {min(len(words), i + 2)}"
    return None if is_cycle(words) else f"E2 word {len(words)}"


def run(program, *words, given=""):
    """Returns the status and what is printed."""
    ran = subprocess.run([program, *words], input=given, capture_output=True, text=True, timeout=60)
    return ran.returncode, ran.stdout


def placed(recording):
    """Returns the core of each event, and the events by number."""
    return [(core, it) for core, events in enumerate(recording["cores"]) for it in events]


def is_said(word, recording, events, e, f):
    """Returns whether what a word says is so of two events."""
    (core, one), (other, two) = events[e], events[f]
    if word in PAIRS:
        fenced, same, first, second = of_pair(word)
        return (core == other and e < f and (not fenced or any(it["k"] == "F" for _, it in events[e + 1:f])) and (one["a"] == two["a"]) == same
                and one["k"] in kinds_by(first) and two["k"] in kinds_by(second))
    if (core == other) != (word[2] == "i"):
        return False
    if word[:2] == "Rf":
        return two["k"] in "LR" and two["s"] == e
    if one["a"] != two["a"] or two["k"] not in "SR":
        return False
    order = recording["writes"][two["a"]]
    if word[:2] == "Co":
        return one["k"] in "SR" and order.index(e) < order.index(f)
    return one["k"] in "LR" and e != f and (one["s"] is None or order.index(one["s"]) < order.index(f))


def op_of(event):
    """Returns the operation of an event."""
    if event["k"] == "F":
        return "fence"
    name = NAMES[event["a"]]
    return f"ld {name}" if event["k"] == "L" else f"{'st' if event['k'] == 'S' else 'swap'} {name} {event['w']}"


def is_made(program, words, status, text):
    """Returns whether a text is the program of a cycle, its recording, and the verdict on this."""
    litmus, _, rest = text.partition("\n\n")
    line, _, verdict = rest.partition("\n")
    recording = json.loads(line)
    events = placed(recording)
    accesses = [n for n, (_, it) in enumerate(events) if it["k"] != "F"]
    fences = sum(of_pair(it)[0] for it in words if it in PAIRS)
    if len(accesses) != len(words) or len(events) != len(words) + fences or recording["version"] != 1:
        return False
    if litmus.splitlines() != [line for ops in recording["cores"] for line in ["core", *map(op_of, ops)]]:
        return False
    values = [[events[n][1]["w"] for n in it] for it in recording["writes"]]
    if any(it != list(range(1, len(it) + 1)) for it in values):
        return False
    turned = lambda at: [accesses[(i + at) % len(words)] for i in range(len(words))]
    says = lambda es: all(is_said(word, recording, events, es[i], es[(i + 1) % len(es)]) for i, word in enumerate(words))
    return any(says(turned(at)) for at in range(len(words))) and run(program, "judge", "-", given=line + "\n") == (status, verdict)


def is_right(program, words):
    """Returns whether `make` answers to words as the rules say."""
    status, text = run(program, "make", *words)
    words = [it.replace("Ws", "Co") for it in words]
    why = refused(words)
    if why:
        return (status, text) == (3, f"refused: {why}\n")
    return status in (0, 2) and is_made(program, words, status, text)


def random_words(chance):
    """Returns words of which each mostly meets the next."""
    words = []
    for _ in range(chance.randint(1, 6)):
        able = sorted(PAIRS) + 6 * [*SIDES, "PodWW", "PodWR", "PodRR", "PodRW", "PosRR", "PosWW", "PosWR", "PosRW", "MFencedWR"]
        if words and chance.random() < 0.95:
            able = [it for it in able if kinds_at(words[-1], 1) & kinds_at(it, 0)]
        words.append(chance.choice(able))
    return words


def of_words(program, seed, count):
    """Returns how many random lists of words are answered as the rules say, and how many of these are cycles."""
    chance = random.Random(seed)
    asked = [random_words(chance) for _ in range(count)]
    return sum(is_right(program, it) for it in asked), sum(not refused(it) for it in asked)


def of_short(program):
    """Returns how many of all lists of one word or two plain ones are answered so, and how many there are."""
    plain = [it for it in sorted(PAIRS) if "A" not in it] + [*SIDES]
    asked = [[it] for it in sorted(PAIRS) + [*SIDES]] + [[a, b] for a in plain for b in plain]
    return sum(is_right(program, it) for it in asked), len(asked)


# Critical cycles

ABLE = [f"Po{way}{a}{b}" for way in "sd" for a in "RW" for b in "RW"] + ["MFencedWR", *SIDES]


def before(recording, events, e, f):
    """Returns whether one event comes before another for one reason: program order, or what is read and written."""
    (core, one), (other, two) = events[e], events[f]
    if core == other and e < f:
        return True
    return any(is_said(word + way, recording, events, e, f) for word in ("Rf", "Fr", "Co") for way in "ei")


def is_critical(program, words):
    """Returns whether of the accesses of a cycle none comes before another but the next."""
    status, text = run(program, "make", *words)
    if status == 3:
        return False
    recording = json.loads(text.partition("\n\n")[2].partition("\n")[0])
    events = placed(recording)
    accesses = [n for n, (_, it) in enumerate(events) if it["k"] != "F"]
    for at in range(len(words)):
        es = [accesses[(i + at) % len(words)] for i in range(len(words))]
        if all(is_said(word, recording, events, es[i], es[(i + 1) % len(es)]) for i, word in enumerate(words)):
            break
    return all(not before(recording, events, es[i], es[j]) for i in range(len(es)) for j in range(len(es)) if i != j and j != (i + 1) % len(es))


def meets(word, then):
    """Returns whether a load or a store can stand between two words."""
    return bool(kinds_at(word, 1) & kinds_at(then, 0) & {"L", "S"})


def grown(words, left):
    """Gives the lists of words that begin so, of which each meets the next, with at most so many events more."""
    for word in ABLE:
        size = 2 if word.startswith("MF") else 1
        if size <= left and (not words or meets(words[-1], word)):
            yield [*words, word]
            yield from grown([*words, word], left - size)


def least(words):
    """Returns the least rotation of words."""
    return min(tuple(words[at:] + words[:at]) for at in range(len(words)))


def critical(program, events):
    """Returns the critical cycles of loads, stores and at most so many events, each by its least rotation."""
    # (a word in program order after another leaves a shortcut)
    found = {least(it) for it in grown([], events) if meets(it[-1], it[0])}
    able = [it for it in found if not any(it[i] in PAIRS and it[i - 1] in PAIRS for i in range(len(it)) if len(it) > 1)]
    return {it for it in able if is_cycle(list(it)) and is_critical(program, list(it))}


def said_by(text):
    """Returns the words that an explanation says a cycle or an overlook in."""
    found = re.search(r"In diy's words: (.*?)( \(.*\))?$", text, re.M)
    return found and found[1].split()


def is_listed_right(program, events):
    """Gives what is wrong with the list of critical cycles of so many events at most: a name, and whether it holds."""
    lines = run(program, "make", "--all", str(events))[1].splitlines()
    forbidden = run(program, "make", "--all", str(events), "--forbidden")[1].splitlines()
    yield f"each cycle of {events} events once", len({least(it.split()) for it in lines}) == len(lines)
    yield f"those alone of {events} events that TSO forbids", forbidden == [it for it in lines if "PodWR" not in it.split()]
    right = 0
    for line in lines:
        words = line.split()
        status, text = run(program, "make", *words)
        said = said_by(run(program, "explain", "-", given=text.partition("\n\n")[2].partition("\n")[0] + "\n")[1])
        is_allowed = "PodWR" in words
        right += is_right(program, words) and status == (0 if is_allowed else 2) and (is_allowed or said and least(said) == least(words))
    yield f"{right} of {len(lines)} cycles of {events} events are made, and explained in their words", right == len(lines)


def are_critical(program, events):
    """Returns whether the list has exactly the critical cycles of so many events at most."""
    lines = run(program, "make", "--all", str(events))[1].splitlines()
    return {least(it.split()) for it in lines} == critical(program, events)
