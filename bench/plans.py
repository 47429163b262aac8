#!/usr/bin/env python3
"""Counts instructions of the analysis of plans of 255 steps by themselves, without a machine, by valgrind's callgrind.

    python3 bench/plans.py [PROGRAM [WORD..]]
    python3 bench/plans.py --rows

PROGRAM is the proved program that compares tables, crates/worked_rows/out/worked_rows where none is given; with WORDs only the cases in
whose description one of them stands. It prints a row a case: the instructions of the whole process, those with half the views, those with
half the steps, the most memory, and the instructions as a multiple of those of a plain program. With --rows it prints the rows that are
measured.
"""

import os
import sys
import tempfile

import measure

PROGRAM = "crates/worked_rows/out/worked_rows"
# Instructions, in millions, of a plain program without proofs on sessions whose jobs have such plans: it reads and analyses them, and
# runs the first two kinds to their ends. It is not in this repository.
PLAIN = {"subsets": 445, "chain": 236, "chain_and_one": 212, "both_ways": 380}
STEPS = 255


def cond(tests):
    """The cards that end an EXEC statement with these tests."""
    lines = [tests[k:k + 4] for k in range(0, len(tests), 4)]
    text = [",".join(line) for line in lines]
    return [f"// COND=({text[0]}" + ("," if text[1:] else ")")] + [f"// {line})" for line in text[1:]]


def step(name, tests=(), dds=0):
    """The cards of a step with these tests and so many DDs."""
    cards = [f"//{name} EXEC PGM=IEFBR14" + ("," if tests else "")] + (cond(list(tests)) if tests else [])
    return cards + [f"//D{k} DD DSN=A.B{k},DISP=(OLD,KEEP)" for k in range(1, dds + 1)]


def row(name, views, times, cards, sets=0):
    """A row: a plan that finds so many sets and meets no fault, with no view more than the limit."""
    lines = [f"== {name}", "VOLUME VOL001"]
    for k in range(1, sets + 1):
        lines += [f"SET VOL001 A.B{k}", f"ENTRY A.B{k} VOL001"]
    lines += ["PACKED", f"VIEWS {views}"] + [f"TIMES {words}" for words in times]
    return "\n".join(lines + [f"CARD {card}" for card in ["//J JOB 1", *cards]] + ["=>", "SAFE -", ""]) + "\n"


def subsets(steps, tests):
    """Two jobs of {steps} steps of six DDs: {tests} tests of the first steps in the last ones, so that any of them may be met"""
    named = [f"(4,LT,S{k})" for k in range(1, tests + 1)]
    first = [card for k in range(1, tests + 1) for card in step(f"S{k}", (), 6)]
    last = [named[k:k + 8] for k in range(0, tests, 8)]
    cards = first + step("M", (), 6) + [card for k, some in enumerate(last) for card in step(f"L{k}", some, 6)]
    name = f"{steps} steps, {tests} tests of one step each"
    return row(name, 2 << tests, [f"{tests + 1} {steps - tests - len(last)}"], cards, 6) * 2


def chain(steps, tests):
    """A job of {steps} steps: {tests} tests LT of all steps before, so that the codes make a chain of classes"""
    count = tests // 8
    cards = step("M") + step("L", [f"({k},LT)" for k in range(1, 9)])
    return row(f"{steps} steps, {tests} tests LT", 2 * (tests + 1), [f"1 {steps - count}", f"2 {count} 8"], cards)


def chain_and_one(steps, tests):
    """A job of {steps} steps: a chain of {tests} tests LT, and one test EQ of its lowest code, which any of them may be met with"""
    count = tests // 8
    cards = step("M") + step("E", ["(1,EQ)"]) + step("L", [f"({k},LT)" for k in range(1, 9)])
    name = f"{steps} steps, {tests} tests LT and one EQ"
    return row(name, 4 * (tests + 1), [f"1 {steps - count - 1}", f"3 {count} 8"], cards)


def both_ways(steps, tests):
    """A job of {steps} steps: 16 tests GT and {tests} tests LT of higher codes, so that no class has all that another has"""
    count = tests // 8
    low = step("G", [f"({k},GT)" for k in range(1, 9)])
    cards = step("M") + low + step("L", [f"({k},LT)" for k in range(17, 25)])
    return row(f"{steps} steps, 16 tests GT and {tests} LT", 34 * (tests + 1), [f"1 {steps - count - 2}", "2 2 8", f"3 {count} 8"], cards)


# Each case: its size, and the number of tests with which it has half the views.
CASES = [(subsets, 9, 8), (chain, 504, 248), (chain_and_one, 248, 120), (both_ways, 16, 8)]


def on(program, text, measured):
    """What a measure says of the program on this plan."""
    with tempfile.NamedTemporaryFile("w", encoding="ascii", suffix=".rows") as file:
        file.write("A plan for a measurement.\n\n" + text)
        file.flush()
        return measured([program, "paths", file.name])


def description(make, tests):
    return make.__doc__.format(steps=STEPS, tests=tests)


def measured(program, make, tests, half):
    """The row of a case."""
    plans = make(STEPS, tests), make(STEPS, half), make(STEPS // 2, tests)
    whole, views, steps = (on(program, text, measure.instructions) for text in plans)
    most = on(program, plans[0], measure.lines_and_memory)[1]
    name = description(make, tests)
    ratio = whole / PLAIN[make.__name__]
    counts = " | ".join(f"{count:,.0f} M" for count in (whole, views, steps))
    return f"| {name} | {counts} | {most:.1f} MB | {ratio:.1f} |"


def main():
    if sys.argv[1:] == ["--rows"]:
        print("".join(make(STEPS, tests) for make, tests, _ in CASES), end="")
        return
    program = os.path.abspath(sys.argv[1] if len(sys.argv) > 1 else PROGRAM)
    words = sys.argv[2:]
    unknown = [word for word in words if not any(word in description(make, tests) for make, tests, _ in CASES)]
    if unknown or not os.access(program, os.X_OK):
        print(f"No case has in its description: {', '.join(unknown)}" if unknown else f"{program} is no program", file=sys.stderr)
        raise SystemExit(2)
    print("| Plan | Instructions | Half the views | Half the steps | Memory | To the plain program |\n|---|---|---|---|---|---|")
    for make, tests, half in CASES:
        if not words or any(word in description(make, tests) for word in words):
            print(measured(program, make, tests, half), flush=True)


if __name__ == "__main__":
    main()
