#!/usr/bin/env python3
"""bench/whole/longsource.py [ROUTINES]

Prints a source of the 8080 for an assembler: so many routines, 240 unless given, of some fifteen lines each, with labels, comments, constants,
texts, tables and calls of one another in both directions. It is the same each time. `cpmhost asm` takes it, and so does ASSEMBLE8080.
"""
import random
import sys

REGISTERS = "B", "C", "D", "E", "H", "L", "M", "A"
PAIRS = "B", "D", "H"
CONDITIONS = "NZ", "Z", "NC", "C", "PO", "PE", "P", "M"
WORDS = "sum", "count", "row", "key", "record", "length", "total", "name"


def instruction(dice, number, last):
    """One instruction, which may name a constant, a table or another routine."""
    register, other = dice.sample(REGISTERS, 2)
    pair, other_routine = dice.choice(PAIRS), dice.randrange(last)
    return dice.choice((
        f"MOV  {register},{other}",
        f"MVI  {register},{dice.randrange(256)}",
        f"MVI  {register},'{dice.choice('ABCxyz;!')}'",
        f"LXI  {pair},TAB{other_routine}+{dice.randrange(8)}",
        f"LXI  {pair},{dice.randrange(0x10000):05X}H",
        f"{dice.choice(('ADD', 'ADC', 'SUB', 'ANA', 'XRA', 'ORA', 'CMP'))}  {register}",
        f"{dice.choice(('ADI', 'SUI', 'ANI', 'ORI', 'CPI'))}  SIZE{number}-1",
        f"{dice.choice(('INR', 'DCR'))}  {register}",
        f"{dice.choice(('INX', 'DCX', 'DAD'))}  {dice.choice((*PAIRS, 'SP'))}",
        f"PUSH {pair} ! POP {pair}",
        f"LDA  TAB{other_routine}",
        f"STA  TAB{number}+SIZE{number}/2",
        f"CALL ROUT{other_routine}",
        f"C{dice.choice(CONDITIONS)}  ROUT{other_routine}",
        f"R{dice.choice(CONDITIONS)}",
        dice.choice(("RLC", "RAR", "CMA", "DAA", "XCHG", "STC", "NOP", "XTHL")),
    ))


def routine(dice, number, last):
    word = dice.choice(WORDS)
    yield f"; ---- Routine {number}: the {word} of what HL points to"
    yield f"SIZE{number} EQU {dice.randrange(4, 12)}*(1+{number}/100)"
    yield f"ROUT{number}: PUSH H            ; keep the {word}"
    for _ in range(dice.randrange(4, 9)):
        comment = f"\t\t; {dice.choice(WORDS)}" if dice.random() < 0.3 else ""
        yield f"        {instruction(dice, number, last)}{comment}"
    yield f"AGAIN{number}: DCR  B"
    yield f"        J{dice.choice(CONDITIONS)}  AGAIN{number}"
    yield "        POP  H"
    yield "        RET"
    yield f"TAB{number}:   DB   {dice.randrange(256)},SIZE{number},'the {word}''s',13,10,'$'"
    yield f"        DW   ROUT{dice.randrange(last)},TAB{dice.randrange(last)},$+{dice.randrange(9)}"
    if not number % 8:
        yield f"        DS   SIZE{number}"


def main():
    last = int(sys.argv[1]) if len(sys.argv) > 1 else 240
    dice = random.Random(8080)
    print("; A long source, made by longsource.py", "        ORG  100H", f"        JMP  ROUT{last - 1}", sep="\n")
    for number in range(last):
        print(*routine(dice, number, last), sep="\n")
    print("        END")


if __name__ == "__main__":
    main()
