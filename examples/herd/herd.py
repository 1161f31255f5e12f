#!/usr/bin/env python3
# SPDX-License-Identifier: MIT OR Apache-2.0
"""Programs of tsotest as x86 tests of herd7 and litmus7, such tests as programs, and logs of such tests with the names of programs.

    herd.py to_herd PROGRAM [--recording FILE]    prints an X86_64 test of a program; it asks for the outcome of a recording
    herd.py from_herd TEST                        prints the program of an X86_64 or X86 test
    herd.py from_log TEST LOG                     prints the outcomes in a log of a test, for `tsotest outcomes --observed`
    herd.py condition TEST                        prints what the `exists` of a test asks, for `tsotest outcomes --exists`

`-` is standard input. README.md beside this file says which tests are read. What can't be read is named in a line on standard error, with status 1.
The calls of the same names take texts, and raise `Refused`. Python 3.8 and later.
"""
import argparse
import json
import re
import sys
from contextlib import contextmanager
from pathlib import Path
from typing import NamedTuple

MODULUS = 2**32
READS = ("ld", "swap", "add", "cas")
NAME, VALUE, NUMBER = r"[a-z][a-z0-9]{0,7}", r"(?:0|[1-9][0-9]{0,9})", r"-?(?:0x[0-9a-fA-F]{1,16}|[0-9]{1,20})"
LINE = re.compile(rf"core|fence|ld {NAME}|(?:st|swap|add|init) {NAME} {VALUE}|cas {NAME} {VALUE} {VALUE}")
# The registers that tests use, by their names in conditions, and the names of their lower 32 bits.
WIDE = ["rax", "rbx", "rcx", "rdx", "rsi", "rdi", *(f"r{n}" for n in range(8, 16))]
NARROW = {it: it + "d" if it[1:].isdigit() else "e" + it[1:] for it in WIDE}
SPELLINGS = {**{it: it for it in WIDE}, **{narrow: it for it, narrow in NARROW.items()}}
# The instructions of each operation on an address `at`, with the numbers `n` and the register `to` for the value read.
INSTRUCTIONS = {
    "ld": ["movl ({at}),{to}"],
    "st": ["movl ${n[0]},({at})"],
    "fence": ["mfence"],
    "swap": ["movl ${n[0]},{to}", "xchgl {to},({at})"],
    "add": ["movl ${n[0]},{to}", "lock xaddl {to},({at})"],
    "cas": ["movl ${n[0]},%eax", "movl ${n[1]},{to}", "lock cmpxchgl {to},({at})", "movl %eax,{to}"],
}
# A value of a register of a core, or of an address; and a line of such values, after a count and a mark.
ITEM = rf"(?:([0-9]{{1,4}}):(\w+)|\[(\w+)\]|(\w+))\s*=\s*({NUMBER})"
OUTCOME = re.compile(rf"((?:[0-9]+(?=\s|[*:]>)\s*)?(?:[*:]>)?\s*)((?:{ITEM}\s*;\s*)+)")
MARKED = re.compile(r"[0-9]*\s*[*:]>")
INITIAL = re.compile(rf"(?:(?:int|long|u?int(?:32|64)_t)\s+)?(?:([0-9]{{1,4}}):(\w+)|\[(\w+)\]|(\w+))\s*(?:=\s*({NUMBER}))?")
AFTER_ROWS = re.compile(r"\s*(?:~\s*|not\s+)?(?:exists|forall|locations|filter|final|observed)\b")


class Refused(Exception):
    """What can't be read, and where it stands."""


@contextmanager
def at(place):
    """Names the place of what is refused."""
    try:
        yield
    except Refused as refusal:
        raise Refused(f"{place}: {refusal}") from None


def value_of(text, least=-MODULUS // 2):
    """A number as a value of 32 bits, signed or not."""
    number = int(text, 16 if "x" in text else 10)
    if not least <= number < MODULUS:
        raise Refused(f"{text} is no value of 32 bits")
    return number % MODULUS


# Programs


def program_of(text):
    """The operations of each core, each a list of words, and the initial values by names."""
    cores, initial = [], {}
    for number, line in enumerate(text.splitlines(), 1):
        words = line.split(" ")
        is_line = LINE.fullmatch(line) and all(int(it) < MODULUS for it in words[2:]) and (cores or words == ["core"])
        if not is_line or words[0] == "init" and words[1] not in names_of(cores):
            raise Refused(f"line {number}: not a line of a program")
        if words == ["core"]:
            cores.append([])
        elif words[0] == "init":
            initial[words[1]] = int(words[2])
        else:
            cores[-1].append(words)
    return cores, initial


def names_of(cores):
    """The names of addresses, by first use."""
    return list(dict.fromkeys(op[1] for ops in cores for op in ops if len(op) > 1))


def text_of(cores, initial):
    """The text of a program."""
    lines = [line for ops in cores for line in ["core", *(" ".join(op) for op in ops)]]
    lines += [f"init {it} {initial[it]}" for it in names_of(cores) if initial.get(it)]
    return "".join(f"{it}\n" for it in lines)


def event_of(op, names, read):
    """The event that an operation makes of the value that it read, without its source."""
    word, *rest = op
    if word == "fence":
        return {"k": "F"}
    a, numbers = names.index(rest[0]), [int(it) for it in rest[1:]]
    if word == "st":
        return {"k": "S", "a": a, "w": numbers[0]}
    if word == "ld":
        return {"k": "L", "a": a, "r": read}
    if word == "cas" and read != numbers[0]:
        return {"k": "C", "a": a, "r": read}
    return {"k": "R", "a": a, "r": read, "w": (read + numbers[0]) % MODULUS if word == "add" else numbers[-1]}


def outcome_of(recording, cores, initial):
    """What the reading operations of a program read in a recording, core by core, and the last value of each address."""
    names = names_of(cores)
    try:
        it = json.loads(recording)
        first = it.get("init", [0] * len(names))
        events = [event for core in it["cores"] for event in core]
        last = [events[writes[-1]]["w"] if writes else value for writes, value in zip(it["writes"], first)]
        made = [[{key: value for key, value in event.items() if key != "s"} for event in core] for core in it["cores"]]
        wanted = [[event_of(op, names, event.get("r")) for op, event in zip(ops, core)] for ops, core in zip(cores, made)]
    except (ValueError, KeyError, IndexError, TypeError, AttributeError):
        raise Refused("the recording can't be read, or is none of the program") from None
    is_whole = [len(core) for core in made] == [len(ops) for ops in cores] and len(last) == len(names)
    if not is_whole or made != wanted or first != [initial.get(name, 0) for name in names]:
        raise Refused("the recording can't be read, or is none of the program")
    return [event["r"] for event in events if "r" in event] + last


# From programs to tests


def herd_name(name):
    """The name of an address in a test: a letter, perhaps with digits, stays; any other might be a word of herd, x86 or C, and gets a `_`."""
    return name if re.fullmatch(r"[a-z][0-9]*", name) and name not in SPELLINGS else name + "_"


def instructions(core, ops):
    """The instructions of a core, and the register of each value that it reads."""
    # CMPXCHG compares with EAX and leaves there what it read.
    free = WIDE[1:] if any(op[0] == "cas" for op in ops) else WIDE
    count = sum(op[0] in READS for op in ops)
    if count > len(free):
        raise Refused(f"core {core} reads {count} values, and there are {len(free)} registers for them")
    found, used = [], []
    for word, *rest in ops:
        if word in READS:
            used.append(free[len(used)])
        fields = {"at": herd_name(rest[0]), "n": rest[1:]} if rest else {}
        found += [it.format(to=f"%{NARROW[used[-1]]}" if used else "", **fields) for it in INSTRUCTIONS[word]]
    return found, used


def declarations(cores, initial, locations):
    """The initial values; where a value may be above 2^31 - 1, litmus7 has to know of each location that it has no sign."""
    values = {herd_name(name): value for name, value in initial.items()}
    numbers = [int(word) for ops in cores for op in ops for word in op[2:]]
    sign = "uint32_t " if sum(numbers) + sum(initial.values()) >= MODULUS // 2 else ""
    return [f"{sign}{it}" + (f"={values[it]};" if values.get(it) else ";") for it in locations if sign or values.get(it)]


def table(columns):
    """The lines of a table of instructions, a column for each core."""
    rows = max(1, *map(len, columns))
    cells = [[f"P{core}", *it, *[""] * (rows - len(it))] for core, it in enumerate(columns)]
    widths = [max(map(len, it)) for it in cells]
    return [" " + " | ".join(cell.ljust(width) for cell, width in zip(row, widths)) + " ;" for row in zip(*cells)]


def to_herd(program, recording=None, title="program"):
    """The X86_64 test of a program: one that asks for the outcome of a recording, or that lists all outcomes."""
    cores, initial = program_of(program)
    if not cores:
        raise Refused("a program without cores is no test")
    columns, registers = zip(*(instructions(core, ops) for core, ops in enumerate(cores)))
    locations = [f"{core}:{it}" for core, found in enumerate(registers) for it in found]
    locations += map(herd_name, names_of(cores))
    lines = [f"X86_64 {title}", "{", *declarations(cores, initial, locations), "}", *table(columns)]
    if recording is None:
        lines += ["locations [" + " ".join(f"{it};" for it in locations) + "]"] if locations else []
        lines.append("exists (true)")
    else:
        values = outcome_of(recording, cores, initial)
        asked = " /\\ ".join(f"{it}={value}" for it, value in zip(locations, values))
        lines.append(f"exists ({asked or 'true'})")
    return "".join(f"{it}\n" for it in lines)


# From tests to programs


class Read(NamedTuple):
    """The value that a core read as its K-th."""

    number: int


class Core:
    """A core of a test as it is read: its operations, and what each register holds, a number or what was read; at first 0."""

    def __init__(self):
        self.ops, self.reads, self.held = [], 0, {}

    def source(self, kind, value):
        """What an operand is or holds."""
        return self.held.get(value, 0) if kind == "register" else value

    def number(self, kind, value):
        """The number that an operand is or holds, as a word."""
        held = self.source(kind, value)
        if isinstance(held, Read):
            raise Refused("a register holds what was read, and no number")
        return str(held)

    def read(self, register, *op):
        """Performs an operation whose value read comes to a register."""
        self.ops.append([*op])
        self.held[register] = Read(self.reads)
        self.reads += 1


def operand_of(word, is_att, is_wide):
    """The kind and the value of an operand."""
    number = re.fullmatch(rf"\$({NUMBER})", word)
    address = re.fullmatch(r"\((\w+)\)|\[(\w+)\]", word)
    register = re.fullmatch(r"%(\w+)" if is_att else r"(\w+)", word)
    if number:
        return "number", value_of(number[1], 0 if is_wide else -MODULUS // 2)
    if address:
        return "address", address[1] or address[2]
    if register and register[1].lower() in SPELLINGS:
        return "register", SPELLINGS[register[1].lower()]
    raise Refused("not an instruction that is read")


def parsed(cell):
    """The form of an instruction, such as `mov address number`, its operands, the target first, and whether it has 64 bits."""
    found = re.fullmatch(r"(?:(lock)\s+)?([a-z]+)(?:\s+(\S.*))?", cell, re.I)
    lock, name, rest = found.groups("") if found else ("", "", "")
    # In AT&T's syntax a number comes before its target, registers have a %, and addresses parentheses.
    is_att = bool(re.match(r"\$|.*[%(]", rest))
    known = re.fullmatch(r"(mov|xchg|xadd|cmpxchg)([lq]?)|(mfence)", name.lower())
    if not known or known[2] and not is_att:
        raise Refused("not an instruction that is read")
    words = re.split(r"\s*,\s*", rest) if rest else []
    is_wide = known[2] == "q" or any(it.lstrip("%").lower() in WIDE for it in words)
    operands = [operand_of(it, is_att, is_wide) for it in (reversed(words) if is_att else words)]
    form = " ".join([*lock.lower().split(), known[1] or known[3], *(kind for kind, _ in operands)])
    return form, operands, is_wide


def execute(core, cell, address_of):
    """Adds what an instruction does to its core."""
    form, operands, is_wide = parsed(cell)
    address = next((address_of(value) for kind, value in operands if kind == "address"), None)
    register = next((value for kind, value in operands if kind == "register"), None)
    if form == "mfence":
        core.ops.append(["fence"])
    elif form in ("mov address number", "mov address register"):
        core.ops.append(["st", address, core.number(*operands[1])])
    elif form == "mov register address":
        core.read(register, "ld", address)
    elif form in ("mov register number", "mov register register"):
        core.held[register] = core.source(*operands[1])
    elif re.fullmatch("(lock )?xchg (address register|register address)", form):
        core.read(register, "swap", address, core.number("register", register))
    elif form == "lock xadd address register" and not is_wide:
        core.read(register, "add", address, core.number("register", register))
    elif form == "lock cmpxchg address register":
        core.read("rax", "cas", address, core.number("register", "rax"), core.number("register", register))
    else:
        raise Refused("not an instruction that is read")


def without_remarks(text):
    """A text without its remarks, between (* and *), which may hold others; lines stay."""
    kept, depth = [], 0
    for piece in re.split(r"(\(\*|\*\)|\n)", text):
        if piece == "(*":
            depth += 1
        elif piece == "*)" and depth:
            depth -= 1
        elif piece == "\n" or not depth:
            kept.append(piece)
    if depth:
        raise Refused("a remark has no end")
    return "".join(kept)


class Test:
    """A test as it is read: its title, cores, initial values by names of tsotest, and what stands after its instructions."""

    def __init__(self, text):
        text = without_remarks(text)
        head = re.match(r"\s*(?:X86_64|X86)[ \t]+(\S+)", text)
        if not head:
            raise Refused("neither an X86_64 nor an X86 test")
        begin = re.compile(r"^[ \t]*\{", re.M).search(text, head.end())
        end = text.find("}", begin.end()) if begin else -1
        if end < 0:
            raise Refused("there are no initial values between braces")
        self.title, self.spellings, self.initial = head[1], {}, {}
        lines = list(enumerate(text[end + 1 :].split("\n"), text.count("\n", 0, end) + 1))
        count = next((i for i, (_, line) in enumerate(lines) if AFTER_ROWS.match(line)), len(lines))
        self.rest = "\n".join(line for _, line in lines[count:])
        rows = [(number, line.strip()) for number, line in lines[:count] if line.strip()]
        self.cores = [Core() for _ in self.header(rows)]
        for found in re.compile(r"[^\s;][^;]*").finditer(text, begin.end(), end):
            item, number = " ".join(found[0].split()), text.count("\n", 0, found.start()) + 1
            with at(f"line {number}: {item}"):
                self.begin(INITIAL.fullmatch(item))
        for number, row in rows[1:]:
            self.perform(number, row)

    def header(self, rows):
        """The names of the cores, which stand in the first row."""
        number, row = rows[0] if rows else (0, "")
        cells = [it.strip() for it in row.rstrip(";").split("|")]
        if not row.endswith(";") or cells != [f"P{core}" for core in range(len(cells))]:
            raise Refused(f"line {number}: not P0, P1 and so on" if rows else "there are no cores")
        return cells

    def begin(self, found):
        """Takes an initial value of a register or an address; without one it is 0."""
        if not found or found[1] and (int(found[1]) >= len(self.cores) or found[2].lower() not in SPELLINGS):
            raise Refused("not an initial value that is read")
        value = value_of(found[5] or "0")
        if found[1]:
            self.cores[int(found[1])].held[SPELLINGS[found[2].lower()]] = value
        else:
            self.initial[self.address(found[3] or found[4])] = value

    def perform(self, number, row):
        """Executes the instructions of a row."""
        cells = [it.strip() for it in row[:-1].split("|")]
        if not row.endswith(";") or len(cells) != len(self.cores):
            raise Refused(f"line {number}: not a row of {len(self.cores)} cells with `;` at its end")
        for core, cell in zip(self.cores, cells):
            with at(f"line {number}: {cell}"):
                if cell:
                    execute(core, cell, self.address)

    def address(self, name):
        """The name of an address in a program: that of the test, without a `_` at its end."""
        own = name[:-1] if name.endswith("_") else name
        if not re.fullmatch(NAME, own) or name in (*SPELLINGS, "rsp", "rbp", "esp", "ebp") or self.spellings.setdefault(own, name) != name:
            raise Refused(f"{name} is no name of an address")
        return own

    def item(self, core, register, bracketed, bare, value):
        """A value of a register or an address as tsotest names it."""
        if not core:
            own = self.address(bracketed or bare)
            if own not in names_of(it.ops for it in self.cores):
                raise Refused(f"no instruction uses {own}")
            return f"[{own}]={value_of(value)}"
        held = self.cores[int(core)].held.get(SPELLINGS.get(register.lower())) if int(core) < len(self.cores) else None
        if not isinstance(held, Read):
            raise Refused(f"{core}:{register} holds nothing that was read")
        return f"{core}:r{held.number}={value_of(value)}"


def from_herd(test):
    """The program of a test."""
    it = Test(test)
    return text_of([core.ops for core in it.cores], it.initial)


def condition(test):
    """The items that the `exists` of a test asks for, with spaces between them."""
    it = Test(test)
    asked = re.search(r"^\s*exists\b\s*(.*?)\s*\Z", it.rest, re.M | re.S)
    words = re.sub(r"^\((.*)\)$", r"\1", asked[1], flags=re.S).split("/\\") if asked else [""]
    items = [re.fullmatch(ITEM, word.strip()) for word in words if word.strip() != "true"]
    if not all(items):
        raise Refused("there is no `exists` of values with `/\\` between them")
    return " ".join(dict.fromkeys(it.item(*found.groups()) for found in items)) + "\n"


def from_log(test, log):
    """The outcomes in a log of a test, as litmus7 or herd7 prints them, with the names of tsotest."""
    it, found = Test(test), []
    for number, line in enumerate(log.split("\n"), 1):
        title = re.match(r"Test (\S+)", line)
        outcome = OUTCOME.fullmatch(line.strip())
        with at(f"log line {number}"):
            if title and title[1] != it.title:
                raise Refused(f"outcomes of {title[1]}, and not of {it.title}")
            if outcome:
                items = [it.item(*parts) + ";" for parts in re.findall(ITEM, outcome[2])]
                found.append(outcome[1] + " ".join(dict.fromkeys(items)))
            elif MARKED.match(line.strip()):
                raise Refused("not an outcome of values")
    return "".join(f"{line}\n" for line in found)


# The command line


class Words(argparse.ArgumentParser):
    """A command line, whose errors are a line with status 1."""

    def error(self, message):
        self.exit(1, f"herd: {message}\n")


def words_of(words):
    """The command line that words are."""
    parser = Words(prog="herd.py", description=__doc__, formatter_class=argparse.RawDescriptionHelpFormatter)
    commands = parser.add_subparsers(dest="command", metavar="COMMAND", required=True)
    for command, inputs in {"to_herd": ["PROGRAM"], "from_herd": ["TEST"], "from_log": ["TEST", "LOG"], "condition": ["TEST"]}.items():
        it = commands.add_parser(command)
        for name in inputs:
            it.add_argument(name)
        if command == "to_herd":
            it.add_argument("--recording", metavar="FILE")
    return parser.parse_args(words)


def read(path):
    """The text of a file, or of standard input."""
    try:
        return sys.stdin.read() if path == "-" else Path(path).read_text(encoding="utf-8")
    except OSError as error:
        raise Refused(f"cannot open {path}: {error.strerror.lower()}") from None
    except UnicodeDecodeError:
        raise Refused(f"{path} is no text") from None


def performed(it):
    """What a command prints."""
    if it.command == "to_herd":
        name = Path(it.PROGRAM).stem
        title = name if re.fullmatch(r"[A-Za-z0-9][A-Za-z0-9_+.-]*", name) else "program"
        return to_herd(read(it.PROGRAM), read(it.recording) if it.recording else None, title)
    if it.command == "from_log":
        return from_log(read(it.TEST), read(it.LOG))
    return {"from_herd": from_herd, "condition": condition}[it.command](read(it.TEST))


def main(words):
    """Performs a command, and says its status."""
    try:
        print(performed(words_of(words)), end="")
    except Refused as refusal:
        print(f"herd: {refusal}", file=sys.stderr)
        return 1
    return 0


if __name__ == "__main__":
    sys.exit(main(sys.argv[1:]))
