#!/usr/bin/env python3
"""Tests examples/herd: the cases of tests/herd, and that classics and random programs come back from the tests that are made of them.

With a program, also that it takes the logs of such tests, by whose outcomes it tells the classics apart, and that README.md of the example shows what
is printed. Usage: tests/herd_test.py [PROGRAM]
"""
import io
import json
import os
import random
import subprocess
import sys
from contextlib import redirect_stderr, redirect_stdout
from pathlib import Path

HERE = Path(__file__).resolve().parent
TOP = HERE.parent
EXAMPLE = TOP / "examples/herd"
CLASSICS = sorted((TOP / "crates/cases/data/classics").glob("*.litmus"))
sys.dont_write_bytecode = True
sys.path.insert(0, str(EXAMPLE))
import herd


def cases_of(text):
    """The cases of a text, each as its words, standard input, status, and what is printed."""
    cases = []
    for line in text.splitlines():
        if line.startswith("$ herd.py "):
            cases.append({"words": line.split()[2:], "input": "", "status": 0, "printed": ""})
        elif line.startswith("< "):
            cases[-1]["input"] += line[2:] + "\n"
        elif line.startswith("? "):
            cases[-1]["status"] = int(line[2:])
        elif line and not line.startswith("#"):
            cases[-1]["printed"] += line + "\n"
    return cases


def answer(words, given=""):
    """The status of a command line, and what it prints on standard output and standard error."""
    out, err, stdin = io.StringIO(), io.StringIO(), sys.stdin
    sys.stdin = io.StringIO(given)
    try:
        with redirect_stdout(out), redirect_stderr(err):
            status = herd.main(words)
    except SystemExit as end:
        status = end.code
    finally:
        sys.stdin = stdin
    return status, out.getvalue(), err.getvalue()


def cases():
    """Tests each case: where the status is 1, a line on standard error and nothing else."""
    found = cases_of((HERE / "herd/herd.cases").read_text())
    os.chdir(HERE / "herd")
    for case in found:
        wanted = (1, "", case["printed"]) if case["status"] else (0, case["printed"], "")
        said = answer(case["words"], case["input"])
        assert said == wanted and (not case["status"] or said[2].count("\n") == 1), (case, said)
    os.chdir(TOP)
    return len(found)


def command_lines():
    """Tests that what is no command line is a line on standard error, with status 1, and that the script starts by itself."""
    for words in ([], ["to_herd"], ["from_log", "test"], ["from_herd", "a", "b"], ["judge", "a"], ["from_herd", "a", "--recording", "b"]):
        status, out, err = answer(words)
        assert (status, out, err.count("\n")) == (1, "", 1) and err.startswith("herd: "), (words, status, out, err)
    ran = subprocess.run([sys.executable, EXAMPLE / "herd.py", "from_herd", "-"], input=b"X86 A\n", stdout=subprocess.PIPE, stderr=subprocess.PIPE)
    assert (ran.returncode, ran.stdout, ran.stderr) == (1, b"", b"herd: there are no initial values between braces\n"), ran


def items_of(recording, names):
    """The items of a recording's outcome, as docs/FORMATS.md has them."""
    items, events = [], [event for core in recording["cores"] for event in core]
    for core, made in enumerate(recording["cores"]):
        items += [f"{core}:r{k}={event['r']}" for k, event in enumerate(it for it in made if "r" in it)]
    first = recording.get("init", [0] * len(names))
    last = [events[it[-1]]["w"] if it else value for it, value in zip(recording["writes"], first)]
    return items + [f"[{name}]={value}" for name, value in zip(names, last)]


def classics():
    """Tests that each classic comes back from its test, with or without its recording, and that the condition is the recording's outcome."""
    for file in CLASSICS:
        program, recording = file.read_text(), file.with_suffix(".json").read_text()
        test = herd.to_herd(program, recording, file.stem)
        names = list(dict.fromkeys(line.split()[1] for line in program.splitlines() if " " in line))
        assert herd.from_herd(test) == program == herd.from_herd(herd.to_herd(program)), file
        assert herd.condition(test).split() == items_of(json.loads(recording), names), file
        assert herd.condition(herd.to_herd(program)) == "\n", file


def random_program(dice):
    """The text of a program of one to four cores with all operations, whose reads fit in registers."""
    numbers, names = ["0", "1", "7", "2147483648", "4294967295"], ["x", "y", "a15", "lock", "r8", "mov1"]
    number, name = lambda: dice.choice(numbers), lambda: dice.choice(names)
    make = {
        "st": lambda: f"st {name()} {number()}",
        "ld": lambda: f"ld {name()}",
        "fence": lambda: "fence",
        "swap": lambda: f"swap {name()} {number()}",
        "add": lambda: f"add {name()} {number()}",
        "cas": lambda: f"cas {name()} {number()} {number()}",
    }
    lines = []
    for _ in range(dice.randint(1, 4)):
        lines += ["core", *(make[dice.choice(list(make))]() for _ in range(dice.randrange(6)))]
    used = dict.fromkeys(line.split()[1] for line in lines if " " in line)
    lines += [f"init {it} {dice.choice(numbers[1:])}" for it in used if dice.random() < 0.3]
    return "".join(f"{it}\n" for it in lines)


def randoms(count):
    """Tests that random programs come back from their tests."""
    dice = random.Random(2026)
    for _ in range(count):
        program = random_program(dice)
        assert herd.from_herd(herd.to_herd(program)) == program, program


def log_of(test):
    """A log in which the outcome that a test asks for was seen once."""
    asked = test.splitlines()[-1]
    items = "" if asked == "exists (true)" else asked[len("exists (") : -1].replace(" /\\", ";") + ";"
    return f"{test.splitlines()[0].replace('X86_64', 'Test')} Allowed\nHistogram (1 states)\n1     *>{items}\nOk\n"


def observed(program):
    """Tests that the program takes the log of each classic, and forbids the outcome exactly where the classic's verdict is a violation."""
    for file in CLASSICS:
        test = herd.to_herd(file.read_text(), file.with_suffix(".json").read_text(), file.stem)
        log = herd.from_log(test, log_of(test))
        ran = subprocess.run([program, "outcomes", file, "--observed", "-"], input=log.encode(), stdout=subprocess.PIPE, stderr=subprocess.PIPE)
        is_ordered = file.with_suffix(".verdict").read_text().startswith("ordered:")
        wanted = (0, b"allowed 1 ") if is_ordered else (2, b"forbidden 1 ")
        assert (ran.returncode, ran.stdout[: len(wanted[1])]) == wanted, (file, ran)


def transcripts(program):
    """Tests that each command in README.md prints what stands below it."""
    blocks = [it for it in (EXAMPLE / "README.md").read_text().split("```")[1::2] if it.startswith("\n$ ")]
    for part in "".join(blocks).split("\n$ ")[1:]:
        command, _, printed = part.partition("\n")
        ran = subprocess.run(command.replace("../../tsotest", str(program)), shell=True, cwd=EXAMPLE, stdout=subprocess.PIPE)
        assert ran.stdout.decode().rstrip("\n") == printed.rstrip("\n"), (command, ran.stdout.decode())
    assert blocks


def main():
    count = cases()
    command_lines()
    classics()
    randoms(1000)
    print(f"herd: {count} cases; {len(CLASSICS)} classics and 1000 random programs there and back")
    if len(sys.argv) > 1:
        program = Path(sys.argv[1]).resolve()
        observed(program)
        transcripts(program)


if __name__ == "__main__":
    main()
