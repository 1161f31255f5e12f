# SPDX-License-Identifier: MIT OR Apache-2.0
"""The write-through design under cocotb: random programs, one after another without a reset, and a verdict on each.

The environment variable BUG is the number of what is wrong with the design (0, nothing), of the list in through_pkg.sv.
"""
import os
import random

import cocotb
from cocotb.clock import Clock
from cocotb.triggers import FallingEdge, ReadOnly

import tsotest

CORES, OPERATIONS, ADDRESSES, RUNS, PATIENCE = 2, 16, 4, 500, 20000
LOAD, STORE, SWAP, FENCE = range(4)


class Core:
    """Hands one core its instructions, and records what it does."""

    def __init__(self, number, dice):
        self.number, self.dice, self.writes, self.left, self.item = number, dice, 0, 0, None

    def begin(self, recorder):
        """Begins a run."""
        self.recorder, self.left = recorder, OPERATIONS
        self.next_item()

    def next_item(self):
        """Makes the next instruction; each write has a value of its own, of more than 32 bits."""
        self.item = None
        if self.left:
            self.left -= 1
            self.writes += 1
            op = self.dice.choices((LOAD, STORE, SWAP, FENCE), (8, 5, 1, 2))[0]
            self.item = op, self.dice.randrange(ADDRESSES), (self.number + 1 << 56) + self.writes

    def record(self, retires, result, commits, address, value):
        """Records a cycle: an instruction that retires, and a write that the memory takes."""
        if retires:
            op, place, written = self.item
            if op == LOAD:
                self.recorder.load(self.number, 8 * place, result)
            elif op == STORE:
                self.recorder.store(self.number, 8 * place, written)
            elif op == SWAP:
                self.recorder.rmw(self.number, 8 * place, result, written)
            else:
                self.recorder.fence(self.number)
        if commits:
            self.recorder.commit(self.number, 8 * address, value)
        if retires:
            self.next_item()


def bits_of(handle, core, width):
    """The bits of a port that are those of a core."""
    return int(handle.value) >> width * core & (1 << width) - 1


def drive(dut, cores, dice):
    """Gives the design its inputs of a cycle."""
    items = [it.item or (0, 0, 0) for it in cores]
    dut.valid.value = sum((it.item is not None) << c for c, it in enumerate(cores))
    dut.op.value = sum(op << 2 * c for c, (op, _, _) in enumerate(items))
    dut.addr.value = sum(address << 4 * c for c, (_, address, _) in enumerate(items))
    dut.data.value = sum(value << 64 * c for c, (_, _, value) in enumerate(items))
    for handle, rate in ((dut.may_issue, 0.7), (dut.may_drain, 0.4), (dut.may_take, 0.2)):
        handle.value = sum((dice.random() < rate) << c for c in range(CORES))
    dut.first.value = dice.randrange(CORES)


async def run(dut, cores, dice):
    """Runs a program, until all has retired, no store waits and each invalidation is taken."""
    for _ in range(PATIENCE):
        drive(dut, cores, dice)
        # What stands at the outputs before the clock rises is what happens when it does.
        await ReadOnly()
        if all(it.item is None for it in cores) and int(dut.quiet.value) == (1 << CORES) - 1:
            await FallingEdge(dut.clk)
            return
        for c, it in enumerate(cores):
            it.record(
                bits_of(dut.retire, c, 1), bits_of(dut.result, c, 64), bits_of(dut.commits, c, 1), bits_of(dut.commit_addr, c, 4),
                bits_of(dut.commit_data, c, 64),
            )
        await FallingEdge(dut.clk)
    raise AssertionError("the program does not end")


@cocotb.test()
async def programs_are_allowed(dut):
    """Each run is one that TSO allows."""
    dice, sums = random.Random(1), tsotest.Counts()
    cores = [Core(c, dice) for c in range(CORES)]
    dut.rst.value, dut.valid.value, dut.bug.value = 1, 0, int(os.environ.get("BUG", "0"))
    cocotb.start_soon(Clock(dut.clk, 2, "ns").start())
    await FallingEdge(dut.clk)
    await FallingEdge(dut.clk)
    dut.rst.value = 0
    recorder = tsotest.Recorder(CORES)
    for number in range(RUNS):
        for it in cores:
            it.begin(recorder)
        await run(dut, cores, dice)
        verdict = recorder.judge()
        assert verdict.is_allowed, f"run {number}\n{tsotest.explain(recorder.recording(), recorder.program()).text}"
        sums += recorder.counts()
        recorder = recorder.next()
    print(sums, end="")
    assert sums.foreign_reads, "no core read what another one wrote"
