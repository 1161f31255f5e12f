#!/usr/bin/env python3
"""The module for Python under the Python that runs this: from 3.8 on it records, judges and surveys, and before it says what it needs.

Usage: PYTHON python_versions_test.py, for a PYTHON of 3.6 or later
"""
import os
import sys

sys.dont_write_bytecode = True
sys.path.insert(0, os.path.join(os.path.dirname(os.path.dirname(os.path.abspath(__file__))), "python"))


def main():
    try:
        import tsotest
    except ImportError as said:
        return 0 if sys.version_info < (3, 8) and "tsotest needs Python 3.8 or later" in str(said) else str(said)
    r = tsotest.Recorder(2)
    r.store(0, 0x40, 1 << 40)
    r.store(0, 0x44, 2)
    r.load(1, 0x44, 2)
    r.load(1, 0x40, 0)
    r.failed_cas(1, 0x40, 1 << 40)
    r.commit_merged(0, 0x40, 1 << 40)
    r.commit(0, 0x44, 2)
    text, program = r.recording(), r.program()
    found = tsotest.survey([text, ""])
    if program != "core\nst x40 1\nst x44 2\ncore\nld x44\nld x40\ncas x40 2 0\n":
        return program
    if not tsotest.judge(text).is_violation or "cycle of 4\n" not in tsotest.judge(text).text or tsotest.judge(text) != r.judge():
        return str(tsotest.judge(text))
    if [it.kind for it in found] != [tsotest.Kind.CYCLE, tsotest.Kind.UNREAD] or found[0].cycle != 4:
        return str(found)
    if r.counts() != (1, 5, 2, 2):
        return repr(r.counts())
    for call in (tsotest.explain, tsotest.draw, tsotest.reduce):
        if not call(text, program).is_violation:
            return str(call)
    return 0 if tsotest.verify(text, tsotest.judge(text).text).is_allowed and tsotest.version().startswith("tsotest ") else "verify"


if __name__ == "__main__":
    sys.exit(main())
