"""Reads drawings again, beside the recording, its verdict and the names of its addresses."""
import re

from explanations import is_said, names_of

HEAD = ["digraph recording {", '  node [shape="plaintext"];', '  newrank="true";', '  top [shape="point", style="invis"];']
NODE = re.compile(r'    e(\d+) \[label="(\d+): ([^"\\]*)"\];')
RANK = re.compile(r'  ([eh]\d+) -> (e\d+) \[minlen="(\d+)", style="invis"\];')
EDGE = re.compile(r'  e(\d+) -> e(\d+) \[xlabel="(po|co|rf|fr)", color="([^"]*)", fontcolor="([^"]*)"(.*)\];')
OVER = re.compile(r'  ([eg]\d+) -> ([eg]\d+) \[style="dotted", arrowhead="none"\];')
COLOURS = {"po": "black", "co": "blue", "rf": "red", "fr": "#ffa040"}
KIND_OF = {"Po": "po", "Wo": "co", "Rf": "rf", "Fr": "fr"}


class Lines:
    """The lines of a text, taken one by one."""

    def __init__(self, text):
        self.rest = text.split("\n")

    def take(self, line):
        """Whether the next line is this one, which is taken."""
        return bool(self.rest) and self.rest.pop(0) == line

    def take_all(self, pattern, most=None):
        """What the pattern finds in the next lines, as long as it does, and in no more than this many."""
        while self.rest and most != 0 and (found := pattern.fullmatch(self.rest[0])):
            self.rest.pop(0)
            most = most and most - 1
            yield found


def numbered(recording):
    """The events of each core with their numbers, which go core by core."""
    cores, number = [], 0
    for events in recording["cores"]:
        cores.append(list(enumerate(events, number)))
        number += len(events)
    return cores


def drawn_of(recording, bold, order, whole):
    """The numbers of the events of each core that are drawn: all of the whole and under an order, else those of the bold edges and their sources."""
    cores = numbered(recording)
    if whole:
        return [[number for number, _ in events] for events in cores]
    source = {number: event.get("s") for events in cores for number, event in events}
    wanted = list(order if order is not None else {end for edge in bold for end in edge[:2]})
    for number in wanted:
        if source[number] is not None and source[number] not in wanted:
            wanted.append(source[number])
    return [[number for number, _ in events if number in wanted] for events in cores]


def is_cluster(lines, core, drawn, said, ranked):
    """Whether the next lines are the cluster of a core, with its drawn events and how many are left out between two of them."""
    if not (lines.take(f"  subgraph cluster_{core} {{") and lines.take(f'    label="core {core}";')):
        return False
    if ranked and not lines.take(f'    h{core} [shape="point", style="invis"];'):
        return False
    for last, number in zip([None, *drawn], drawn):
        left_out = 0 if last is None else number - last - 1
        if left_out and not lines.take(f'    g{number} [label="{left_out} left out"];'):
            return False
        nodes = list(lines.take_all(NODE, 1))
        if not nodes or not int(nodes[0][1]) == int(nodes[0][2]) == number or not said(nodes[0][3], number):
            return False
    return lines.take("  }")


def are_ranks(found, order, drawn):
    """Whether lines put each event of an order as far below the top as it stands in the order, and only below one of its core."""
    places, core_of = {}, {}
    for core, numbers in enumerate(drawn):
        places[f"h{core}"] = 0
        core_of.update({f"h{core}": core}, **{f"e{number}": core for number in numbers})
    for first, second, length in found:
        if first not in places or second in places or core_of[first] != core_of.get(second):
            return False
        places[second] = places[first] + int(length)
    return all(places.get(f"e{number}") == place for place, number in enumerate(order, 1)) and len(found) == len(order)


def edges_of(recording, drawn):
    """The edges between drawn events, to the next one of a core, the next write, from a source, and to the first newer write; and
    the pairs with others between them that are left out."""
    kept = {number for numbers in drawn for number in numbers}
    writes = [[number for number in it if number in kept] for it in recording["writes"]]
    pairs = [pair for numbers in drawn for pair in zip(numbers, numbers[1:])]
    gaps = [(first, second) for first, second in pairs if second > first + 1]
    edges = {(first, second, "po") for first, second in pairs if second == first + 1}
    for number, event in (it for events in numbered(recording) for it in events if it[0] in kept):
        if event["k"] in "LRC":
            newer = writes[event["a"]]
            if event["s"] is not None:
                edges.add((event["s"], number, "rf"))
                newer = newer[newer.index(event["s"]) + 1 :]
            if newer and newer[0] != number:
                edges.add((number, newer[0], "fr"))
    return edges | {(first, second, "co") for it in writes for first, second in zip(it, it[1:])}, gaps


def bold_of(verdict):
    """The edges that the text of a verdict is about, and its order if there is one."""
    lines = verdict.split("\n")
    words = lines[0].split()
    if words[0] == "ordered:":
        return [], [int(it) for it in words[1:]]
    if words[0] == "overlook:":
        load, store = int(words[2]), int(words[4])
        return [(store, load, "po"), (load, store, "fr")], None
    pairs = [it.split() for it in lines[1 : 1 + int(words[2])]]
    return [(int(first), int(second), KIND_OF[why]) for first, _, second, why in pairs], None


def is_edge_line(found, bold, ranked):
    """Whether an edge has its colour, and the weight and the freedom that it is to have."""
    kind = found[3]
    free = ranked or kind != "po"
    wanted = (', style="bold"' if bold else "") + (', constraint="false"' if free else "")
    return found[4] == found[5] == COLOURS[kind] and found[6] == wanted


def is_drawing(text, recording, verdict, program=None, whole=False):
    """Whether a text draws the recording whose verdict has this text, or the whole of it, with the names of the program if there is one."""
    names = names_of(program) if program is not None else [f"a{it}" for it in range(len(recording["writes"]))]
    bold, order = bold_of(verdict)
    ranked = order is not None
    drawn = drawn_of(recording, bold, order, whole)
    cores = [core for core, numbers in enumerate(drawn) if numbers]
    events = [event for of_core in recording["cores"] for event in of_core]
    said = lambda words, number: is_said(words, events[number], names)
    lines = Lines(text)
    if not all(lines.take(it) for it in HEAD) or not all(is_cluster(lines, core, drawn[core], said, ranked) for core in cores):
        return False
    tops = "".join(f" h{core}" if ranked else f" e{drawn[core][0]}" for core in cores)
    if not lines.take(f'  top -> {{{tops} }} [style="invis"];') or not are_ranks([it.groups() for it in lines.take_all(RANK)], order or [], drawn):
        return False
    others, gaps = edges_of(recording, drawn)
    over = [it for first, second in gaps for it in ((f"e{first}", f"g{second}"), (f"g{second}", f"e{second}"))]
    found = list(lines.take_all(re.compile(f"{EDGE.pattern}|{OVER.pattern}")))
    if [(it[7], it[8]) for it in found if it[7]] != over:
        return False
    edge_lines = [it for it in found if it[1]]
    edges = [(int(it[1]), int(it[2]), it[3]) for it in edge_lines]
    thin = len(edges) - len(bold)
    lawful = all(is_edge_line(it, i >= thin, ranked) for i, it in enumerate(edge_lines))
    return lawful and edges[thin:] == bold and len(set(edges)) == len(edges) and set(edges[:thin]) == others - set(bold) and lines.rest == ["}", ""]


def is_picture(svg, text):
    """Whether a picture has the nodes, the clusters and the edges of a drawing that are to be seen, and what stands beside them."""
    named = [*re.findall(r"^    ([eg]\d+) \[", text, re.M), *re.findall(r"^  subgraph (\w+) ", text, re.M)]
    ends = [f"{first}->{second}" for first, second in re.findall(r"^  ([eg]\d+) -> ([eg]\d+) \[(?:xlabel|style=\"dotted\")", text, re.M)]
    plain = svg.replace("&#45;", "-").replace("&gt;", ">")
    titles = re.findall(r"<title>(.*)</title>", plain)
    texts = re.findall(r"<text [^>]*>(.*)</text>", plain)
    return sorted(titles) == sorted([*named, *ends, "recording"]) and sorted(texts) == sorted(re.findall(r'label="([^"]*)"', text))
