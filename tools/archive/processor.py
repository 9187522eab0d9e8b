"""Which processor a program is for: what a cautious walk over its instructions finds, from 0100h on.

The walk follows each jump and call that names its target. It doesn't guess: where a program goes on at an address that it computes, or behind a call of a
routine that may have a text there, it stops and says so. So what it reads are instructions, and not texts, in which 20h, a space, would be one of the Z80.
"""

from typing import NamedTuple

from archive import counted

ORIGIN, SYSTEM, TOP = 0x100, 0x0005, 0x10000
# so many instructions without one of the Z80 alone are those of the 8080, wherever the walk had to stop
ENOUGH = 1000
MOST = 20_000

TWO = {0x06, 0x0E, 0x10, 0x16, 0x18, 0x1E, 0x20, 0x26, 0x28, 0x2E, 0x30, 0x36, 0x38, 0x3E, 0xC6, 0xCE, 0xD3, 0xD6, 0xDB, 0xDE, 0xE6, 0xEE, 0xF6, 0xFE}
THREE = {0x01, 0x11, 0x21, 0x22, 0x2A, 0x31, 0x32, 0x3A, 0xC2, 0xC3, 0xC4, 0xCA, 0xCC, 0xCD, 0xD2, 0xD4, 0xDA, 0xDC, 0xE2, 0xE4, 0xEA, 0xEC, 0xF2, 0xF4, 0xFA, 0xFC}
# the first bytes of what the 8080 doesn't have
Z80 = {0x08, 0x10, 0x18, 0x20, 0x28, 0x30, 0x38, 0xCB, 0xD9, 0xDD, 0xED, 0xFD}
# behind DD or FD: the bytes of each instruction that the manual of the Z80 has
INDEXED = {it: 2 for it in (0x09, 0x19, 0x23, 0x29, 0x2B, 0x39, 0xE1, 0xE3, 0xE5, 0xE9, 0xF9)}
INDEXED |= {it: 3 for it in (0x34, 0x35, *range(0x46, 0x77, 8), *range(0x70, 0x76), 0x77, 0x7E, *range(0x86, 0xC0, 8))}
INDEXED |= {0x21: 4, 0x22: 4, 0x2A: 4, 0x36: 4, 0xCB: 4}
# and behind ED
EXTENDED = {it: 4 for it in (0x43, 0x4B, 0x53, 0x5B, 0x63, 0x6B, 0x73, 0x7B)}
EXTENDED |= {row + it: 2 for row in (0x40, 0x48, 0x50, 0x58, 0x60, 0x68, 0x78) for it in (0, 1, 2)} | {0x72: 2}
EXTENDED |= {it: 2 for it in (0x44, 0x45, 0x46, 0x47, 0x4D, 0x4F, 0x56, 0x57, 0x5E, 0x5F, 0x67, 0x6F)}
EXTENDED |= {row + it: 2 for row in (0xA0, 0xA8, 0xB0, 0xB8) for it in range(4)}

CALLS = {0xC4, 0xCC, 0xCD, 0xD4, 0xDC, 0xE4, 0xEC, 0xF4, 0xFC}
JUMPS = {0xC2, 0xC3, 0xCA, 0xD2, 0xDA, 0xE2, 0xEA, 0xF2, 0xFA}
RELATIVE = {0x10, 0x18, 0x20, 0x28, 0x30, 0x38}
# behind which nothing follows: jumps that always go, a return, a halt
LAST = {0xC3, 0x18, 0xC9, 0x76}
PUSHES, POPS = {0xC5, 0xD5, 0xE5, 0xF5}, {0xC1, 0xD1, 0xE1, 0xF1}
# what has an address on the stack in hand, or another stack
STACK = {0x31, 0x33, 0x3B, 0xF9}


class Look(NamedTuple):
    """The processors that a program is tried on, and why."""

    processors: tuple
    why: str


class Instruction(NamedTuple):
    at: int
    first: int
    # its opcode, without DD or FD
    opcode: int
    length: int
    target: int | None

    @property
    def goes_anywhere(self):
        """Whether it goes on at an address that the program computes, or in the restart of another program."""
        return self.opcode == 0xE9 or self.opcode & 0xC7 == 0xC7 and self.opcode != 0xC7

    @property
    def ends(self):
        is_return = self.first == 0xED and self.opcode in (0x45, 0x4D)
        return self.opcode in LAST and self.first != 0xED or self.opcode == 0xC7 or is_return


class Walk:
    """The walk over a program's instructions, as those of the Z80."""

    def __init__(self, program):
        self.memory = program[: TOP - ORIGIN]
        self.end = ORIGIN + len(self.memory)
        self.seen = set()
        # instructions of the Z80 alone, where it had to stop and why, and bytes that are no instruction
        self.of_z80, self.stopped, self.odd = [], [], []
        # whether a routine may take what is behind its call, and how many instructions are looked at for that, in all
        self.takes, self.left = {}, MOST

    def byte(self, at):
        return self.memory[at - ORIGIN] if ORIGIN <= at < self.end else None

    def instruction(self, at):
        """The instruction at an address, or None where there is none that the manuals have."""
        first, second = self.byte(at), self.byte(at + 1)
        opcode, length = first, 3 if first in THREE else 2 if first in TWO else 1
        if first in (0xCB, 0xDD, 0xED, 0xFD):
            if second is None:
                return None
            opcode, table = second, EXTENDED if first == 0xED else INDEXED
            length = table.get(second) if first != 0xCB else 2 if not 0x30 <= second < 0x38 else None
        if first is None or length is None or at + length > self.end:
            return None
        if first == 0xCB or (first in (0xDD, 0xFD) and second == 0xCB):
            opcode = 0  # which goes nowhere
        target = None
        if first in CALLS | JUMPS:
            target = self.byte(at + 1) + 256 * self.byte(at + 2)
        elif first in RELATIVE:
            target = (at + 2 + (self.byte(at + 1) ^ 0x80) - 0x80) % TOP
        return Instruction(at, first, opcode, length, target)

    def takes_what_follows(self, entry):
        """Whether a routine may work on its own return address, as one does that shows the text behind its call."""
        if entry not in self.takes:
            self.takes[entry] = False  # of one that calls itself
            self.takes[entry] = self.finds_return(entry)
        return self.takes[entry]

    def finds_return(self, entry):
        seen, todo = set(), [(entry, 0)]
        while todo:
            at, depth = todo.pop()
            if at in seen or at == SYSTEM:
                continue
            seen.add(at)
            self.left -= 1
            it = self.instruction(at)
            if it is None or it.goes_anywhere or self.left < 0:
                return True
            is_plain = it.first not in (0xED, 0xCB)
            if is_plain and (it.opcode in STACK or depth == 0 and it.opcode in POPS | {0xE3}):
                return True
            depth += is_plain * ((it.opcode in PUSHES) - (it.opcode in POPS))
            if it.first in CALLS and it.target != SYSTEM and self.takes_what_follows(it.target):
                continue
            if it.target not in (None, 0) and it.first not in CALLS:
                todo.append((it.target, depth))
            if not it.ends:
                todo.append((at + it.length, depth))
        return False

    def following(self, it):
        """Where it goes on behind an instruction, as far as that is known."""
        if it.goes_anywhere:
            self.stopped.append(f"at {it.at:04X}h it goes to an address that it computes")
            return
        is_call = it.first in CALLS
        if it.target is not None and it.target not in (0, SYSTEM):
            if not ORIGIN <= it.target < self.end:
                self.stopped.append(f"at {it.at:04X}h it goes to {it.target:04X}h, which isn't in the file")
                return
            yield it.target
        if is_call and it.target not in (0, SYSTEM) and self.takes_what_follows(it.target):
            self.stopped.append(f"the routine that it calls at {it.at:04X}h may take what is behind the call")
        elif not it.ends and not (is_call and it.target == 0):
            yield it.at + it.length

    def go(self):
        todo = [ORIGIN]
        while todo and len(self.seen) < MOST:
            at = todo.pop()
            if at in self.seen:
                continue
            self.seen.add(at)
            it = self.instruction(at)
            if it is None:
                self.odd.append(at)
                continue
            if it.first in Z80:
                self.of_z80.append(at)
            todo += self.following(it)
        return self


def look(program):
    """What a look at a program's bytes suggests."""
    try:
        walk = Walk(program).go()
    except RecursionError:
        return Look(("8080", "z80"), "in doubt: its routines call each other too deep for the walk")
    seen = f"{counted(len(walk.seen), 'instruction')} reached"
    if walk.odd:
        return Look(("8080", "z80"), f"in doubt: {seen}, and that at {min(walk.odd):04X}h is none")
    if walk.of_z80:
        return Look(("z80",), f"{seen}, {len(walk.of_z80):,} of the Z80 alone, the first at {min(walk.of_z80):04X}h")
    if not walk.stopped or len(walk.seen) >= ENOUGH:
        return Look(("8080",), f"{seen}, none of the Z80 alone")
    return Look(("8080", "z80"), f"in doubt: {seen}, none of the Z80 alone, but {walk.stopped[0]}")
