#!/usr/bin/env python3
"""Runs the gate, and tells what each crate took: the table of docs/GATE.md.

Usage: tests/gate.py [LOG]            runs it, at the top of a clone; bind it with `taskset -c 0,1` to measure on two processors
       tests/gate.py --budget [LOG]   runs nothing: compares what a run wrote to LOG with the table of the page
       tests/gate.py --ways           runs nothing: tells in how many ways each library stands on others

What the gate prints goes to LOG (gate.log by default). After it stand the processor seconds of each crate: of its proof, of its
tests, of its edits with the proofs that these begin with; then what the other processes took (compilers, programs, `rt` itself).
Where every proof and edit was done in the run, the table after the line `<!-- the table -->` of docs/GATE.md is replaced. Where
some were kept from earlier runs it stays: what was kept took no time.

What took over a tenth more than the page says, and two seconds more, is named, crate by crate. A crate that is not in the table is
named with all that it took.

Before and behind each library's proof `rt` reads the crate and all below it, each as often as crates.txt leads to it by another way.
So a library high above many layers is dear though it is small. --ways tells the ways, and the seconds that this reading takes here.
"""
import functools
import hashlib
import os
import re
import resource
import subprocess
import sys
import time

TICKS = os.sysconf("SC_CLK_TCK")
KINDS = ("proof", "tests", "edits")


def processes():
    """Yields each process: its number, its parent's, when it began, and the seconds that it used."""
    for name in os.listdir("/proc"):
        if name.isdigit():
            try:
                with open(f"/proc/{name}/stat", encoding="utf-8", errors="replace") as it:
                    words = it.read().rpartition(")")[2].split()
            except OSError:
                continue
            yield int(name), int(words[1]), words[19], (int(words[11]) + int(words[12])) / TICKS


def task_of(number):
    """Returns the crate that a process proves, and as what, if it proves one."""
    try:
        with open(f"/proc/{number}/cmdline", "rb") as it:
            words = it.read().decode(errors="replace").split("\0")
        at = os.readlink(f"/proc/{number}/cwd")
    except OSError:
        return None
    if "--crate-name" not in words or not os.path.basename(words[0]).startswith("rattle"):
        return None
    crate = words[words.index("--crate-name") + 1]
    return crate.removesuffix("_tests"), "edits" if "/rt-edit" in at else "tests" if "--test" in words else "proof"


def watched(run):
    """Follows the processes of a run to its end, and returns the seconds of each (crate, kind)."""
    used, tasks = {}, {}
    while run.poll() is None:
        found = list(processes())
        ours = {run.pid}
        for number, parent, _, _ in sorted(found):
            if parent in ours:
                ours.add(number)
        for number, _, began, seconds in found:
            if number in ours:
                key = number, began
                task = task_of(number) or tasks.get(key)
                if task:
                    tasks[key], used[key] = task, seconds
        time.sleep(0.25)
    sums = {}
    for key, seconds in used.items():
        sums[tasks[key]] = sums.get(tasks[key], 0) + seconds
    return sums


def functions_in(log):
    """Returns how many functions of each crate the log tells as proved."""
    counts = {}
    with open(log, encoding="utf-8", errors="replace") as it:
        for line in it:
            found = re.match(r"fn ([a-z_0-9]+)::.*: proved", line)
            if found:
                counts[found[1]] = counts.get(found[1], 0) + 1
    return counts


def table_of(sums, functions):
    lines = ["| Crate | Functions | Proof | Tests | Edits |", "|---|---|---|---|---|"]
    show = lambda seconds: f"{seconds:.0f} s" if seconds else "-"
    for crate in sorted({name for name, _ in sums}, key=lambda it: -sum(sums.get((it, kind), 0) for kind in KINDS)):
        lines.append(f"| `{crate}` | {functions.get(crate, '-')} | " + " | ".join(show(sums.get((crate, kind), 0)) for kind in KINDS) + " |")
    whole = [sum(seconds for (_, of), seconds in sums.items() if of == kind) for kind in KINDS]
    lines.append("| all | " + str(sum(functions.values())) + " | " + " | ".join(f"{it / 60:.1f} min" for it in whole) + " |")
    return lines


def figures_in(lines):
    """Returns what a table says that each crate took in all, in seconds."""
    found = {}
    for line in lines:
        cells = [cell.strip(" `") for cell in line.strip().strip("|").split("|")]
        if line.startswith("| `") and len(cells) == 5:
            found[cells[0]] = sum(float(cell.removesuffix(" s")) for cell in cells[2:] if cell != "-")
    return found


def grown(before, now):
    """Yields a line for each crate that takes over a tenth more, and two seconds more, than before."""
    for crate, seconds in sorted(now.items(), key=lambda it: before.get(it[0], 0) - it[1]):
        was = before.get(crate, 0)
        if seconds > 1.1 * was and seconds > was + 2:
            yield f"{crate}: {seconds:.0f} s, before {was:.0f} s" if was else f"{crate}: {seconds:.0f} s, and it is not in the table"


def told_of(page, table):
    """Returns what is said of a table beside that of the page."""
    before, now = figures_in(page.splitlines()), figures_in(table)
    lines = list(grown(before, now))
    alike = sum(before.get(crate, 0) for crate in now)
    return [f"These {len(now)} crates took {sum(now.values()) / 60:.1f} minutes; by the page {alike / 60:.1f}. Over a tenth more:", *(lines or ["none"])]


def libraries():
    """What crates.txt says: the crates of the repository that each crate names."""
    with open("crates.txt", encoding="utf-8") as it:
        lines = [line.partition("#")[0].split(":", 1) for line in it if ":" in line.partition("#")[0]]
    named = {name.strip(): below.split() for name, below in lines}
    return {name: [it for it in below if it in named] for name, below in named.items()}


def reading(crate):
    """The seconds that it takes to read the files of a crate, and to make a sum of them: the least of three."""
    took = []
    for _ in range(3):
        began, made = time.perf_counter(), hashlib.sha256()
        for part in ("src", "specs", "proofs"):
            for at, _, names in os.walk(f"crates/{crate}/{part}"):
                for name in sorted(names):
                    with open(f"{at}/{name}", "rb") as it:
                        made.update(repr((name, it.read())).encode())
        took.append(time.perf_counter() - began)
    return min(took)


def told_of_ways():
    """Lines that tell the ways of the libraries with the most of them, and what reading them all takes."""
    below = libraries()
    alone = {crate: reading(crate) for crate in below}

    @functools.cache
    def ways(crate):
        return 1 + sum(ways(it) for it in below[crate])

    @functools.cache
    def seconds(crate):
        return alone[crate] + sum(seconds(it) for it in below[crate])

    built = [crate for crate in below if not os.path.exists(f"crates/{crate}/src/main.rt")]
    built.sort(key=seconds, reverse=True)
    lines = [f"| `{crate}` | {ways(crate):,} | {2 * seconds(crate):.0f} s |" for crate in built[:12]]
    whole = 2 * sum(seconds(crate) for crate in built)
    return ["| Library | Ways | Read twice |", "|---|---|---|", *lines, f"All {len(built)} libraries: {whole / 60:.0f} minutes of one processor."]


def run_gate(log):
    """Runs the gate and returns its status, its table, and what is said of the whole."""
    began = time.time()
    with open(log, "w", encoding="utf-8") as out:
        run = subprocess.Popen(["rt", "ci"], stdout=out, stderr=subprocess.STDOUT)
        sums = watched(run)
    took = resource.getrusage(resource.RUSAGE_CHILDREN)
    whole = took.ru_utime + took.ru_stime
    rest = whole - sum(sums.values())
    said = (f"In all {whole / 60:.1f} processor minutes, of which {rest / 60:.1f} went to compilers, programs and the command itself, in "
            f"{(time.time() - began) / 60:.1f} minutes.")
    return run.returncode, table_of(sums, functions_in(log)), said


def main():
    words = sys.argv[1:]
    if "--help" in words:
        print(__doc__)
        return 0
    if words == ["--ways"]:
        print("\n".join(told_of_ways()))
        return 0
    is_budget = words[:1] == ["--budget"]
    names = words[is_budget:]
    if len(names) > 1 or any(name.startswith("-") for name in names):
        print(f"tests/gate.py: {' '.join(words)} is not understood; --help tells what is", file=sys.stderr)
        return 2
    log, page = names[0] if names else "gate.log", "docs/GATE.md"
    with open(page, encoding="utf-8") as it:
        text = it.read()
    if is_budget:
        with open(log, encoding="utf-8", errors="replace") as it:
            print("\n".join(told_of(text, it.read().splitlines())))
        return 0
    status, table, said = run_gate(log)
    with open(log, encoding="utf-8", errors="replace") as it:
        lines = it.read().splitlines()
    with open(log, "a", encoding="utf-8") as out:
        out.write("\n".join(["", *table, "", said, ""]))
    last = next((line for line in reversed(lines) if " passed, " in line), "the gate said nothing")
    print("\n".join([*table, "", said, "", *told_of(text, table), "", last]))
    # A kit that keeps results says in one line which were made in the run; one that keeps none has no such line.
    is_whole = all("every proof and must-fail edit was done" in line for line in lines if " in this run" in line)
    mark = "<!-- the table -->\n"
    if is_whole and not status and mark in text:
        with open(page, "w", encoding="utf-8") as out:
            out.write(text[: text.index(mark) + len(mark)] + "\n".join([*table, "", said]) + "\n")
    else:
        print(f"{page} keeps its table, since {'the gate failed' if status else 'some crates came from kept results'}.")
    return status


if __name__ == "__main__":
    sys.exit(main())
