#!/usr/bin/env python3
"""The Python module over the shared library: each call beside the command of the built program, on recordings of all kinds; the
recorder's faults; threads. Usage: python_test.py PROGRAM
"""
import json
import subprocess
import sys
import tempfile
from concurrent.futures import ThreadPoolExecutor
from pathlib import Path

sys.dont_write_bytecode = True
TOP = Path(__file__).resolve().parent.parent
sys.path.insert(0, str(TOP / "python"))
import tsotest

DATA = TOP / "crates/cases/data"
CALLS = {
    "judge": lambda text, program: tsotest.judge(text),
    "explain": tsotest.explain,
    "draw": tsotest.draw,
    "draw --all": lambda text, program: tsotest.draw(text, program, all=True),
    "reduce": tsotest.reduce,
    "judge --long": lambda text, program: tsotest.judge_long(text),
    "explain --long": lambda text, program: tsotest.explain_long(text),
    "reduce --long": lambda text, program: tsotest.reduce_long(text),
}


def commanded(program, words):
    """What the program prints, and its exit status."""
    ran = subprocess.run([program, *words], capture_output=True, cwd=DATA)
    return ran.returncode, ran.stdout.decode()


def differs(program, file):
    """What a recording is answered otherwise by the library and by the program."""
    text = (DATA / file).read_bytes()
    own = file.with_suffix(".litmus")
    for name, call in CALLS.items():
        takes_program = name != "judge" and "--long" not in name
        for with_program in (False, True) if takes_program and (DATA / own).exists() else (False,):
            words = [*name.split(), file, *(["--program", own] if with_program else [])]
            answer = call(text, (DATA / own).read_bytes() if with_program else None)
            if (answer.status, answer.text) != commanded(program, words):
                yield f"{' '.join(map(str, words))}: {answer}"
    verdict = tsotest.judge(text).text
    for given in (verdict, verdict.replace("1", "0", 1), verdict[:-1], "ordered:\n"):
        with tempfile.NamedTemporaryFile("w") as other:
            other.write(given)
            other.flush()
            answer = tsotest.verify(text, given)
            if (answer.status, answer.text) != commanded(program, ["verify", file, other.name]):
                yield f"verify {file} {given!r}: {answer}"


def surveyed(program):
    """Whether a survey finds what the program finds."""
    file = DATA / "recordings/many.jsonl"
    status, text = commanded(program, ["survey", file, "--each"])
    found = tsotest.survey(file.read_bytes())
    lines = [line.split(" ", 1)[1] for line in text.split("\n\n")[0].splitlines()]
    for finding, line in zip(found, lines, strict=True):
        match finding.kind:
            case tsotest.Kind.ORDERED:
                want = "ordered"
            case tsotest.Kind.OVERLOOK:
                want = "overlook: load {} store {}".format(*finding.overlook)
            case tsotest.Kind.CYCLE:
                want = f"cycle of {finding.cycle}"
            case tsotest.Kind.UNREAD:
                kind, at = finding.refusal
                want = f"refused: N{kind}" + (f" event {at}" if kind in (5, 6) else f" address {at}" if kind == 7 else "")
        if want != line:
            yield f"survey: {finding}, and the program {line}"
    lines = [line for line in file.read_text().splitlines() if line]
    if tsotest.survey(lines) != found:
        yield "a survey of lines"
    if tsotest.survey("\n".join(lines)) != found:
        yield "a survey without a last newline"


ORDERED, OVERLOOKED = '{"cores":[[{"k":"F"}]],"version":1,"writes":[]}', '{"cores":[[{"a":0,"k":"S","w":1},{"a":0,"k":"L","r":0,"s":null}]],"version":1,"writes":[[0]]}'


def layouts():
    """A recording has one finding, whatever its layout and its type, and so has a text that is none."""
    long = json.dumps(json.loads(OVERLOOKED), indent=2)
    kinds = tsotest.Kind
    wanted = [
        ([long, ORDERED], [kinds.OVERLOOK, kinds.ORDERED]),
        ([ORDERED, "", long + "\n", "\n\n", ORDERED + "\n"], [kinds.ORDERED, kinds.UNREAD, kinds.OVERLOOK, kinds.UNREAD, kinds.ORDERED]),
        ([long.replace("\n", "\r\n"), " ", "\r", "none", "\ud800"], [kinds.OVERLOOK, *[kinds.UNREAD] * 4]),
        ([long.encode(), bytearray(ORDERED.encode()), memoryview(long.encode())], [kinds.OVERLOOK, kinds.ORDERED, kinds.OVERLOOK]),
        ((it for it in (ORDERED, OVERLOOKED)), [kinds.ORDERED, kinds.OVERLOOK]),
        (["[\n]", ORDERED + ORDERED, ORDERED + "\n" + ORDERED], [kinds.UNREAD] * 3),
        ([], []),
        ("", []),
        (memoryview(f"{OVERLOOKED}\n\n{ORDERED}".encode()), [kinds.OVERLOOK, kinds.ORDERED]),
        (bytearray(f"\n{ORDERED}\n".encode()), [kinds.ORDERED]),
    ]
    for given, want in wanted:
        found = [it.kind for it in tsotest.survey(given)]
        if found != want:
            yield f"a survey finds {found}, want {want}"
    # A line end in a string is no JSON, in whatever layout the recording is.
    if tsotest.survey([ORDERED.replace("F", "\n")])[0].refusal != (1, 0):
        yield "a line end in a string"
    for call in (tsotest.judge, lambda it: tsotest.survey([it])):
        for it in (72, None, [1], 1.5):
            try:
                call(it)
                yield f"{it!r} is taken for a text"
            except TypeError:
                pass


def coded():
    """The codes of the library, and what a recording has at most, are what the module says."""
    def of(*cores, version=1, writes=(), **more):
        return json.dumps({"cores": cores, "version": version, "writes": writes, **more})

    fence, load = {"k": "F"}, {"a": 0, "k": "L", "r": 1}
    store = {"a": 0, "k": "S", "w": 1}
    ring = [[{"a": (c + 15) % 16, "k": "L", "r": 1, "s": 2 * ((c + 15) % 16) + 1}, {"a": c, "k": "S", "w": 1}] for c in range(16)]
    kinds = tsotest.Kind
    wanted = [
        (of([fence]), (kinds.ORDERED, None, None, None)),
        (of([store, {"a": 0, "k": "L", "r": 0, "s": None}], writes=[[0]]), (kinds.OVERLOOK, (1, 0), None, None)),
        (of([*[fence] * 510, store, {"a": 0, "k": "L", "r": 0, "s": None}], writes=[[510]]), (kinds.OVERLOOK, (511, 510), None, None)),
        (of([{"a": 0, "k": "R", "r": 1, "s": 0, "w": 1}], writes=[[0]]), (kinds.CYCLE, None, 1, None)),
        (of(*ring, writes=[[2 * c + 1] for c in range(16)]), (kinds.CYCLE, None, 32, None)),
        ("no JSON", (kinds.UNREAD, None, None, (1, 0))),
        ("{}", (kinds.UNREAD, None, None, (2, 0))),
        (of(version=3), (kinds.UNREAD, None, None, (3, 0))),
        (of([store]), (kinds.UNREAD, None, None, (4, 0))),
        (of([*[fence] * 511, {**load, "s": 0}], writes=[[]]), (kinds.UNREAD, None, None, (5, 511))),
        (of([*[fence] * 511, {**load, "s": None}], writes=[[]]), (kinds.UNREAD, None, None, (6, 511))),
        (of([{**store, "a": a} for a in range(16)], writes=[*[[a] for a in range(15)], []]), (kinds.UNREAD, None, None, (7, 15))),
    ]
    limits = [
        (tsotest.MAX_CORES, lambda n: of(*[[]] * n)),
        (tsotest.MAX_EVENTS, lambda n: of([fence] * n)),
        (tsotest.MAX_ADDRESSES, lambda n: of([{**store, "a": a} for a in range(n)], writes=[[a] for a in range(n)])),
    ]
    for most, text in limits:
        wanted += [(text(most), (kinds.ORDERED, None, None, None)), (text(most + 1), (kinds.UNREAD, None, None, (4, 0)))]
    for text, want in wanted:
        it = tsotest.survey([text])[0]
        if (it.kind, it.overlook, it.cycle, it.refusal) != want:
            yield f"code {it.code} is {it.kind!r}, {it.overlook}, {it.cycle}, {it.refusal}; want {want}"


def listed(program):
    """Whether the outcomes of the classic tests are those that the program prints."""
    for file in sorted(DATA.glob("classics/*.litmus")):
        answer = tsotest.outcomes(file.read_text())
        if (answer.status, answer.text) != commanded(program, ["outcomes", file]):
            yield f"outcomes {file.stem}: {answer}"
    for given, status in (("core\n", 0), ("cores\n", 3)):
        if tsotest.outcomes(given).status != status:
            yield f"outcomes {given!r}"
    if tsotest.outcomes((DATA / "classics/sb.litmus").read_text(), 1) != (4, "unfinished\n"):
        yield "outcomes of one state"


def completed(program):
    """Whether what is said of values is what the program prints."""
    store, load = {"a": 0, "k": "S", "w": 1}, {"a": 0, "k": "L", "r": 1}
    for cores, status in (([[store], [load, load]], 0), ([[store], [load, {**load, "r": 0}]], 2), ([[{**load, "r": 2**32}]], 3)):
        values = json.dumps({"cores": cores, "init": [0], "version": 3})
        answer = tsotest.complete(values)
        ran = subprocess.run([program, "complete", "-"], input=values.encode(), capture_output=True)
        if answer.status != status or (answer.status, answer.text.encode()) != (ran.returncode, ran.stdout):
            yield f"complete {values}: {answer}"
    r = tsotest.Recorder(2)
    r.store(0, 0x40, 1)
    r.load(0, 0x44, 0)
    r.store(1, 0x44, 1)
    r.load(1, 0x40, 0)
    r.commit(0, 0x40, 1)
    r.commit(1, 0x44, 1)
    if tsotest.complete(r.values_alone()) != (0, r.recording()):
        yield "complete of a recorder"
    if tsotest.complete(r.values_alone(), 1) != (4, "unfinished\n"):
        yield "complete of one state"


def refused(what, words, is_of_design):
    """Whether a recorder says so."""
    try:
        what()
    except tsotest.NoRecording as fault:
        return words in str(fault) and fault.is_of_design == is_of_design
    return False


def recorders():
    """What the recorder says of what is no recording."""
    def of(cores, *calls):
        r = tsotest.Recorder(cores)
        for name, *values in calls:
            getattr(r, name)(*values)
        return r.recording()

    store = ("store", 0, 0x40, 1)
    commit = ("commit", 0, 0x40, 1)
    wanted = [
        (lambda: tsotest.Recorder(1025), "1025 cores: a recording has 1024 at most", False),
        (lambda: of(2, ("fence", 2)), "core 2: the recording has 2", False),
        (lambda: of(1, *[("load", 0, it, 0) for it in range(65537)]), "more than 65536 addresses: 0x10000 is one more", False),
        (lambda: of(1, ("load", 0, 0x40, 3)), "operation 0 of core 0 read 3 from 0x40, which nobody wrote there", True),
        (lambda: of(1, ("fence", 0), store), "operation 1 of core 0 wrote 1 to 0x40, which never reached memory", True),
        (lambda: of(2, store, ("commit", 1, 0x40, 1)), "core 1: the value 1 reached 0x40, and this core executed no such write", True),
        (lambda: of(1, store, commit, commit), "core 0: the value 1 reached 0x40 twice", True),
        (lambda: of(1, store, store, commit), "core 0 wrote 1 to 0x40 twice", False),
        (lambda: of(1, ("store", 0, 0x40, 0), ("load", 0, 0x40, 0), ("commit", 0, 0x40, 0)), "of which there are 2 sources", False),
        (lambda: of(1, ("load", 0, 0x40, 8), ("source", 0, None)), "read 8 from 0x40, and its source wrote 0", True),
        (lambda: of(1, ("store", 0, 0x44, 1), ("load", 0, 0x40, 0), ("source", 1, 0)), "event 0 is no write of the address", False),
        (lambda: of(1, store, ("source", 0, None)), "event 0 is no read", False),
        (lambda: of(1, ("load", 0, 0x40, 0), ("commit_event", 0)), "event 0 is no write", False),
    ]
    for what, words, is_of_design in wanted:
        if not refused(what, words, is_of_design):
            yield f"a recorder does not say: {words}"
    r = tsotest.Recorder(2)
    load = r.load(1, 0x44, 0)
    r.store(0, 0x44, 2)
    r.commit(0, 0x44, 2)
    r.value(load, 2)
    if r.recording() != '{"cores":[[{"a":0,"k":"S","w":2}],[{"a":0,"k":"L","r":2,"s":0}]],"version":1,"writes":[[0]]}\n':
        yield r.recording()
    following = r.next()
    following.load(0, 0x44, 2)
    if following.recording() != '{"cores":[[{"a":0,"k":"L","r":2,"s":null}],[]],"init":[2],"version":2,"writes":[[]]}\n':
        yield following.recording()


def values_alone():
    """Values without commits: sources where they were given, values above 2^32 - 1, and faults."""
    r = tsotest.Recorder(2)
    r.store(0, 0x40, 1)
    r.load(0, 0x44, 0)
    r.store(1, 0x44, 1)
    r.load(1, 0x40, 0)
    want = '{"cores":[[{"a":0,"k":"S","w":1},{"a":1,"k":"L","r":0}],[{"a":1,"k":"S","w":1},{"a":0,"k":"L","r":0}]],"init":[0,0],"version":3}\n'
    if r.values_alone() != want:
        yield r.values_alone()
    r.commit(0, 0x40, 1)
    if r.values_alone() != want:
        yield "a commit changes the values alone"
    r.commit(1, 0x44, 1)
    if '{"a":1,"k":"L","r":0,"s":null}' not in r.recording():
        yield r.recording()
    r = tsotest.Recorder(2)
    r.initial(0x40, 5)
    first, late = r.store(0, 0x40, 5), r.failed_cas(1, 0x40, 5)
    r.fence(0)
    swap = r.rmw(0, 0x40, 5, 1 << 32)
    r.load(1, 0x40, 1 << 32)
    r.source(late, first)
    r.source(swap, None)
    if r.values_alone() != ('{"cores":[[{"a":0,"k":"S","w":5},{"k":"F"},{"a":0,"k":"R","r":5,"s":null,"w":1}],'
                            '[{"a":0,"k":"C","r":5,"s":0},{"a":0,"k":"L","r":1}]],"init":[5],"version":3}\n'):
        yield r.values_alone()
    r = tsotest.Recorder(1)
    r.load(0, 0x40, 7)
    if not refused(r.values_alone, "operation 0 of core 0 read 7 from 0x40, which nobody wrote there", True):
        yield "a stray value has a text"
    r = tsotest.Recorder(1)
    first = r.store(0, 0x40, 1)
    r.source(r.load(0, 0x40, 0), first)
    if not refused(r.values_alone, "and its source wrote 1", True):
        yield "a source that wrote another value has a text"
    r = tsotest.Recorder(1)
    if not refused(r.values_alone, "no event was recorded", False):
        yield "an empty recorder has values"


def next_runs():
    """The next run begins with the last write of each address and with the initial value of one that nobody wrote; after a fault it does
    not begin."""
    r = tsotest.Recorder(2)
    r.initial(0x44, 8)
    for value in (1, 2, 3):
        r.store(0, 0x40, value)
        r.commit(0, 0x40, value)
    r.load(1, 0x44, 8)
    for _ in range(2):
        r.recording()
        r = r.next()
        r.load(1, 0x40, 3)
        r.load(1, 0x44, 8)
        want = '{"cores":[[],[{"a":0,"k":"L","r":3,"s":null},{"a":1,"k":"L","r":8,"s":null}]],"init":[3,8],"version":2,"writes":[[],[]]}\n'
        if r.recording() != want:
            yield r.recording()


def full():
    """After a fault a recorder does not go on; its limits are those of the module, which are small here."""
    most, tsotest.MAX_LONG_EVENTS = tsotest.MAX_LONG_EVENTS, 512
    r = tsotest.Recorder(1)
    for value in range(1, 514):
        try:
            r.store(0, 0x40, value)
            r.commit(0, 0x40, value)
        except tsotest.NoRecording:
            pass
    for call in (r.next, r.recording, r.program, r.judge, lambda: r.load(0, 0x40, 512), lambda: r.commit(0, 0x40, 512)):
        if not refused(call, "more than 512 events", False):
            yield "a recorder goes on after a fault"
    r = tsotest.Recorder(1)
    for _ in range(512):
        r.commit(0, 0x40, 1)
    if not refused(lambda: r.commit(0, 0x40, 1), "more than 512 commits", False):
        yield "a recorder takes more commits than events"
    tsotest.MAX_LONG_EVENTS = most


def long_runs(program):
    """What is too long for `judge` is judged as by `judge --long`, and what is not has the labels that `judge` gives a cycle; each call for
    long recordings prints what the program does."""
    for cores, fences, addresses in ((16, 511, 0), (16, 509, 0), (16, 508, 0), (16, 0, 15), (16, 0, 14), (17, 0, 0)):
        is_long = cores > 16 or fences > 508 or addresses > 14
        for read in (1, 0):
            r = tsotest.Recorder(cores)
            for it in range(fences):
                r.fence(it % (cores - 2) + 1)
            for it in range(addresses):
                r.load(1, 0x1000 + 8 * it, 0)
            r.store(cores - 1, 0x40, 1)
            r.store(cores - 1, 0x44, 2)
            r.load(0, 0x44, 2)
            r.load(0, 0x40, read)
            r.commit(cores - 1, 0x40, 1)
            r.commit(cores - 1, 0x44, 2)
            with tempfile.NamedTemporaryFile("w") as file:
                file.write(r.recording())
                file.flush()
                for call, words in ((tsotest.judge_long, ["judge"]), (tsotest.explain_long, ["explain"]), (tsotest.reduce_long, ["reduce"])):
                    answer = call(r.recording())
                    if (answer.status, answer.text) != commanded(program, [*words, "--long", file.name]):
                        yield f"{words} --long of {cores} cores, {fences} fences, {addresses} addresses: {answer}"
            answer = r.judge()
            if answer.is_violation == bool(read) or (not read and ("labels" in answer.text) == is_long):
                yield f"{cores} cores, {fences} fences, {addresses} addresses: {answer}"


def long_merges():
    """Stores that merge by the thousand, in order: a merge that passes all events takes minutes."""
    r, stores = tsotest.Recorder(2), 20000
    for value in range(1, stores + 1):
        r.store(0, 0x40, value)
        r.store(1, 0x40, value)
        r.commit_merged(0, 0x40, value)
    r.commit_merged(1, 0x40, stores)
    writes = r.recording().split('"writes":')[1]
    if writes != f"[[{','.join(map(str, range(2 * stores)))}]]}}\n":
        yield "merged stores of a long run"


def empty():
    """A recorder without an event gives no recording, unless it may."""
    for calls in ((), (("commit", 0, 0x40, 1),), (("initial", 0x40, 1),)):
        for text in ("recording", "program", "judge", "counts"):
            r = tsotest.Recorder(2)
            for name, *values in calls:
                getattr(r, name)(*values)
            if not refused(getattr(r, text), "no event was recorded", False):
                yield f"an empty recorder has a {text}"
    r = tsotest.Recorder(2)
    r.allow_empty()
    for it in (r, r.next()):
        if it.recording() != '{"cores":[[],[]],"version":1,"writes":[]}\n' or it.program() != "core\ncore\n" or not it.judge().is_allowed:
            yield it.recording()


def labelled():
    """Labels stand in the order in which the recording numbers events; one has at most 64 bytes, and no newline."""
    r = tsotest.Recorder(2)
    r.fence(1)
    r.fence(0)
    r.label(0, "cycle 9")
    if r.labels() != "\ncycle 9\n":
        yield r.labels()
    r.label(1, "ä" * 32)
    r.label(0, "")
    if r.labels() != "ä" * 32 + "\n\n":
        yield r.labels()
    for event, text, words in ((2, "x", "none to label"), (0, "x" * 65, "more than 64 bytes"), (0, "ä" * 33, "more than 64 bytes"), (0, "a\nb", "a newline")):
        r = tsotest.Recorder(1)
        r.fence(0)
        if not refused(lambda: r.label(event, text), words, False) or not refused(r.labels, words, False):
            yield f"a label {text!r} of event {event}"


def counted():
    """Counts of a run, their sums, and their text."""
    r = tsotest.Recorder(2)
    r.store(0, 0x40, 1)
    r.rmw(0, 0x44, 0, 7)
    r.load(0, 0x40, 1)
    r.load(1, 0x48, 0)
    r.load(1, 0x40, 1)
    r.failed_cas(1, 0x44, 7)
    r.rmw(1, 0x44, 7, 8)
    r.fence(1)
    for core, address, value in ((0, 0x40, 1), (0, 0x44, 7), (1, 0x44, 8)):
        r.commit(core, address, value)
    if r.counts() != (1, 8, 3, 3) or str(r.counts() + r.counts()) != "2 runs: 16 events, 6 reads of another core's write, 6 committed writes\n":
        yield repr(r.counts())
    r = tsotest.Recorder(1)
    r.load(0, 0x40, 0)
    want = "1 runs: 1 events, 0 reads of another core's write, 0 committed writes\nno read got a value that another core wrote: these runs have tested nothing\n"
    if str(sum([r.counts()], tsotest.Counts())) != want:
        yield str(r.counts())


def values():
    """A value is a whole number below 2^64, and none is cut; all else is a fault of the testbench."""
    wide = 0x100000001
    r = tsotest.Recorder(2)
    r.initial(0x44, 1 << 40)
    r.store(1, 0x44, 1)
    r.load(1, 0x40, wide)
    r.store(0, 0x40, wide)
    r.failed_cas(0, 0x44, 1 << 40)
    r.rmw(0, 0x48, 0, (1 << 64) - 1)
    r.commit(0, 0x40, wide)
    r.commit(1, 0x44, 1)
    r.commit(0, 0x48, (1 << 64) - 1)
    want = (
        '{"cores":[[{"a":0,"k":"S","w":2},{"a":1,"k":"C","r":3,"s":null},{"a":2,"k":"R","r":0,"s":null,"w":4}],'
        '[{"a":1,"k":"S","w":1},{"a":0,"k":"L","r":2,"s":0}]],"init":[0,3,0],"version":2,"writes":[[0],[3],[2]]}\n'
    )
    if r.recording() != want or r.program() != "core\nst x40 2\ncas x44 4 0\nswap x48 4\ncore\nst x44 1\nld x40\ninit x44 3\n":
        yield r.recording() + r.program()
    r = r.next()
    r.store(0, 0x40, 3 * wide)
    r.commit(0, 0x40, 3 * wide)
    if r.recording() != '{"cores":[[{"a":0,"k":"S","w":1}],[]],"init":[2],"version":2,"writes":[[0]]}\n':
        yield r.recording()
    r = tsotest.Recorder(1)
    r.store(0, 64, wide)
    r.load(0, 64, 1)
    r.commit(0, 64, wide)
    if not refused(r.recording, "read 1 from 0x40, which nobody wrote there", True):
        yield "a value is cut"
    for it in (-1, 1 << 64, 1.5, 1.0, "1", None):
        calls = [
            ("initial", 0x40, it), ("load", 0, 0x40, it), ("store", 0, 0x40, it), ("rmw", 0, 0x40, it, 1), ("rmw", 0, 0x40, 1, it),
            ("failed_cas", 0, 0x40, it), ("commit", 0, 0x40, it), ("commit_merged", 0, 0x40, it), ("load", 0, it, 0), ("value", 0, it),
        ]
        for name, *given in calls:
            r = tsotest.Recorder(1)
            r.load(0, 0x40, 0)
            if not refused(lambda: getattr(r, name)(*given), f"{it!r} is no whole number from 0 to 2^64 - 1", False):
                yield f"{name} takes {given}"
    for core in (-1, 1, 0.0, "0"):
        if not refused(lambda: tsotest.Recorder(1).fence(core), "the recording has 1", False):
            yield f"{core!r} is a core"


def merged():
    """Merged stores come to memory together; queued invalidations are named after a cut."""
    r = tsotest.Recorder(2)
    r.store(1, 0x40, 9)
    r.store(0, 0x40, 1)
    r.commit(0, 0x40, 1)
    r.store(0, 0x40, 2)
    r.commit_merged(0, 0x40, 3)
    r.store(0, 0x40, 3)
    r.store(0, 0x40, 4)
    r.commit(1, 0x40, 9)
    r.commit(0, 0x40, 4)
    if '"writes":[[0,1,2,4,3]]' not in r.recording():
        yield r.recording()
    r = r.next()
    r.load(1, 0x40, 9)
    if not refused(r.recording, "nobody wrote there; this run continues another: had each core taken every invalidation before the cut?", True):
        yield "queued invalidations"
    for older, newer in ((("store", 0, 0x40, 1), ("rmw", 0, 0x40, 0, 2)), (("rmw", 0, 0x40, 0, 1), ("store", 0, 0x40, 2))):
        r = tsotest.Recorder(1)
        for name, *values_of in (older, newer, ("commit_merged", 0, 0x40, 2)):
            getattr(r, name)(*values_of)
        if not refused(r.recording, "operation 0 of core 0 wrote 1 to 0x40, which never reached memory", True):
            yield "an atomic is merged"
    r = tsotest.Recorder(1)
    for name, *values_of in (("store", 0, 0x40, 1), ("store", 0, 0x40, 2), ("commit_merged", 0, 0x40, 2), ("commit_merged", 0, 0x40, 1)):
        getattr(r, name)(*values_of)
    if not refused(r.recording, "core 0: the value 1 reached 0x40 twice", True):
        yield "a store is merged twice"


def names():
    """A name has at most 8 characters: an x and 7 digits."""
    r = tsotest.Recorder(1)
    for address in (0x10000000, 0xFFFFFFF, 0x10000001):
        r.load(0, address, 0)
    if r.program() != "core\nld a0\nld xfffffff\nld a2\n":
        yield r.program()
    r = tsotest.Recorder(1)
    r.initial(0x40, 4294967295)
    r.failed_cas(0, 0x40, 4294967295)
    if r.program() != "core\ncas x40 0 0\ninit x40 4294967295\n":
        yield r.program()


def main():
    program = Path(sys.argv[1]).resolve()
    files = [it.relative_to(DATA) for folder in ("classics", "limits", "recordings") for it in sorted(DATA.glob(f"{folder}/*.json"))]
    with ThreadPoolExecutor(4) as pool:
        failed = [it for part in pool.map(lambda file: [*differs(program, file)], files) for it in part]
    failed += [*surveyed(program), *layouts(), *coded(), *listed(program), *completed(program), *recorders(), *values_alone(), *next_runs()]
    failed += [*full(), *long_runs(program), *long_merges()]
    failed += [*empty(), *labelled(), *counted(), *values(), *merged(), *names()]
    if tsotest.version() + "\n" != commanded(program, ["--version"])[1]:
        failed.append(f"the version is {tsotest.version()}")
    print(*failed, sep="\n", end="\n" * bool(failed))
    print(f"{len(files)} recordings by the library and by the program, {len(failed)} answers differ")
    return 1 if failed else 0


if __name__ == "__main__":
    sys.exit(main())
