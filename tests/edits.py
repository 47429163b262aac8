#!/usr/bin/env python3
"""Tries the edits of tests/edits/: of each the prover must say that the crate is not proved with it.

Usage: tests/edits.py --all | --changed | CRATE..  [--jobs N]

--all       tries every edit
--changed   tries those that were not refused yet as they stand: where the edit, the crate's own files, or a contract below it changed since;
            with names, of these crates alone. It names what it did not try
CRATE..     tries every edit of these crates
--jobs N    tries so many crates side by side, each in a copy of its own (1)

What was refused stands in tests/refused.sums, a line each: the edit, and a sum of it, of its crate's own files, and of the contracts below: their
specs, and the signatures that a crate above can read, with their clauses. Bodies below do not count, since no proof above reads them.

The edits of a crate are tried many at once: a function's contract is all that another function's proof reads, so edits of different functions do not
meet, and an edit is refused where the check finds fault with a line of the function that it changes, or with that function's proof. Only the functions
that are changed are checked, and those that they call, once without the edits and once with them. An edit of which that cannot be said is tried alone,
by `rt must-fail`.
"""

import concurrent.futures
import functools
import glob
import hashlib
import os
import re
import shutil
import subprocess
import sys
import tempfile
import threading

import rattle_text

SUMS = "tests/refused.sums"
WRITING = threading.Lock()


@functools.cache
def libraries():
    """What crates.txt says: the crates that each crate names."""
    with open("crates.txt", encoding="utf-8") as file:
        lines = [line.split(":", 1) for line in file if ":" in line and not line.startswith("#")]
    return {name: names.split() for name, names in lines}


def files_of(crate, *parts):
    """The files of these parts of a crate."""
    found = (path for part in parts for path in glob.glob(f"crates/{crate}/{part}/**", recursive=True))
    return sorted(path for path in found if os.path.isfile(path))


def text_of(path):
    with open(path, encoding="utf-8") as file:
        return file.read()


def sum_of(*parts):
    return hashlib.sha256(repr(parts).encode()).hexdigest()[:16]


@functools.cache
def own_sum(crate):
    """Stands for a crate's own files."""
    return sum_of([(path, text_of(path)) for path in files_of(crate, "src", "specs", "proofs")])


@functools.cache
def contracts_of(crate):
    """Stands for the contracts of a crate and of all below it."""
    specs = [(path, text_of(path)) for path in files_of(crate, "specs")]
    code = [(path, rattle_text.contract_of(text_of(path))) for path in files_of(crate, "src")]
    return sum_of(specs, code, [contracts_of(name) for name in sorted(libraries()[crate]) if name in libraries()])


def line_of(edit):
    """The line that says that this edit was refused as it stands."""
    crate = edit.split("/")[2]
    below = [contracts_of(name) for name in sorted(libraries()[crate]) if name in libraries()]
    return f"{edit.removeprefix('tests/edits/')} {sum_of(text_of(edit), own_sum(crate), below)}"


def refused_before():
    """The lines of what was refused before."""
    return set(text_of(SUMS).splitlines()) if os.path.exists(SUMS) else set()


def keep(top, lines):
    """Notes at the top what was refused: an edit has one line."""
    with WRITING:
        path = f"{top}/{SUMS}"
        stands = dict(line.split() for line in text_of(path).splitlines()) if os.path.exists(path) else {}
        stands.update(line.split() for line in lines)
        there = {name: stands[name] for name in sorted(stands) if os.path.exists(f"{top}/tests/edits/{name}")}
        with open(path, "w", encoding="utf-8") as file:
            file.writelines(f"{name} {stamp}\n" for name, stamp in there.items())


class Edit:
    """One change of one function's body: its place in the text, and what stands there then. `function` is None where it is anything else."""

    def __init__(self, copy, path):
        self.path, self.function = path, None
        self.crate = path.split("/")[2]
        lines = [line for line in text_of(path).splitlines() if line]
        words = [line.partition(": ") for line in lines]
        if [word for word, _, _ in words] != ["file", "old", "new"]:
            return
        (_, _, self.file), (_, _, old), (_, _, self.new) = words
        text = text_of(f"{copy}/crates/{self.crate}/{self.file}")
        if text.count(old) != 1 or not self.file.endswith(".rt"):
            return
        self.begin = text.index(old)
        self.end = self.begin + len(old)
        for name, _, start, first, last in rattle_text.functions(text):
            if first <= self.begin and self.end <= last + 1:
                self.function = self.file, start
                self.name, self.lines = name, range(text.count("\n", 0, start) + 1, text.count("\n", 0, last) + 2)
                self.item = self.item_of(rattle_text.owner_at(text, start))

    def item_of(self, owner):
        """Its function as a check names it, or the end of that; of a trait's method its module."""
        if owner:
            return f"{owner}::{self.name}"
        parts = self.file.removeprefix("src/").removesuffix(".rt").removesuffix("/mod").split("/")
        module = [] if parts in (["lib"], ["main"]) else parts
        return "::".join(module if owner is None and module else [*module, self.name])

    def is_refused_by(self, said):
        """Whether a check finds fault with the function that this edit changes: with a line of it, or with its proof."""
        module = self.file.removeprefix("src/").removesuffix(".rt")
        module = "" if module in ("lib", "main") else module.removesuffix("/mod") + "/"
        proof = re.compile(rf"(?:note: )?(?:\./)?proofs/{re.escape(module)}(?:[A-Za-z_0-9]+/)*{self.name}/[A-Za-z]+\.antt:")
        for line in said:
            at = re.match(r"(?:note: )?(?:\./)?(src/[^:]*):(\d+):\d+: ", line)
            if at and at[1] == self.file and int(at[2]) in self.lines and "not proved" in line or proof.match(line):
                return True
        return False


def check(copy, crate, edits):
    """Checks the functions of a crate of a copy that these edits change, and returns its status and what was said."""
    only = [word for item in sorted({edit.item for edit in edits}) for word in ("--only", item)]
    run = subprocess.run(["rt", "check", *only], cwd=f"{copy}/crates/{crate}", stdin=subprocess.DEVNULL, stdout=subprocess.PIPE,
                         stderr=subprocess.STDOUT, text=True, errors="replace", check=False)
    return run.returncode, run.stdout.splitlines()


def with_edits(copy, crate, edits):
    """Checks a crate with these edits, each of another function, and puts its text back."""
    texts = {edit.file: text_of(f"{copy}/crates/{crate}/{edit.file}") for edit in edits}
    try:
        for file, text in texts.items():
            for edit in sorted((edit for edit in edits if edit.file == file), key=lambda edit: -edit.begin):
                text = text[:edit.begin] + edit.new + text[edit.end:]
            with open(f"{copy}/crates/{crate}/{file}", "w", encoding="utf-8") as out:
                out.write(text)
        return check(copy, crate, edits)
    finally:
        for file, text in texts.items():
            with open(f"{copy}/crates/{crate}/{file}", "w", encoding="utf-8") as out:
                out.write(text)


def refused_together(copy, crate, edits):
    """Tries edits of different functions at once, and returns those that are refused. Where the check gives no verdict, it tries halves of them."""
    _, said = with_edits(copy, crate, edits)
    if any(line.startswith(("logic=", "only=")) for line in said):
        return [edit for edit in edits if edit.is_refused_by(said)]
    if len(edits) == 1:
        return []
    half = len(edits) // 2
    return refused_together(copy, crate, edits[:half]) + refused_together(copy, crate, edits[half:])


def is_refused_alone(copy, edit):
    """Tries an edit as the gate does."""
    folder = f"{copy}/crates/{edit.crate}/must-fail"
    shutil.rmtree(folder, ignore_errors=True)
    os.mkdir(folder)
    shutil.copy(f"{copy}/{edit.path}", folder)
    run = subprocess.run(["rt", "must-fail", edit.crate], cwd=copy, stdin=subprocess.DEVNULL, stdout=subprocess.PIPE, stderr=subprocess.STDOUT,
                         text=True, errors="replace", check=False)
    shutil.rmtree(folder)
    told = [line for line in run.stdout.splitlines() if "must-fail " in line] or run.stdout.splitlines()[-3:]
    is_refused = run.returncode == 0 and any(": refused" in line for line in told)
    if not is_refused:
        print("\n".join(told), flush=True)
    return is_refused


def rounds_of(edits):
    """Puts edits into rounds, in each of which a function has one at most."""
    rounds = []
    for edit in edits:
        free = next((it for it in rounds if all(edit.function != other.function for other in it)), None)
        if free is None:
            rounds.append(free := [])
        free.append(edit)
    return rounds


def try_crate(top, copies, crate, paths, lines):
    """Tries these edits of a crate, and returns those that were not refused."""
    copy = copies.pop()
    try:
        edits = [Edit(copy, path) for path in paths]
        refused = []
        status, said = check(copy, crate, [edit for edit in edits if edit.function])
        if status:
            print(f"{crate}: it is not proved as it stands", *said[-3:], sep="\n", flush=True)
            return paths
        for together in rounds_of([edit for edit in edits if edit.function]):
            refused += refused_together(copy, crate, together)
            keep(top, [lines[edit.path] for edit in refused])
        alone = [edit for edit in edits if edit not in refused]
        for edit in alone:
            if is_refused_alone(copy, edit):
                refused.append(edit)
                keep(top, [lines[edit.path]])
        print(f"{crate}: {len(refused)} of {len(edits)} refused, {len(alone)} tried alone", flush=True)
        return [edit.path for edit in edits if edit not in refused]
    finally:
        copies.append(copy)


def left_out(folder, names):
    """What of a folder no copy needs: of what earlier runs made it takes the libraries alone."""
    return {".git"} if folder == "." else set(names) - {"rlib"} if os.path.basename(folder) == "out" else set()


def take(source, target):
    """Copies a file; a file of a library, which nothing writes in its place, gets a second name where it can."""
    try:
        if "/out/rlib/" not in source:
            raise OSError
        os.link(source, target)
    except OSError:
        shutil.copy2(source, target)


def words_of(arguments):
    """What the command line asks for: whether all or the changed ones, how many side by side, and which crates."""
    names, jobs, ways = [], 1, set()
    words = list(arguments)
    while words:
        word = words.pop(0)
        if word == "--help":
            print(__doc__)
            sys.exit(0)
        elif word in ("--all", "--changed"):
            ways.add(word)
        elif word == "--jobs" and words and words[0].isdigit() and int(words[0]):
            jobs = int(words.pop(0))
        elif os.path.isdir(f"tests/edits/{word}") and word in libraries():
            names.append(word)
        else:
            sys.exit(f"tests/edits.py: {word} is no option and no crate that has edits in tests/edits/; --help tells more")
    if len(ways) > 1 or "--all" in ways and names or not ways and not names:
        sys.exit("tests/edits.py: say one of --all, --changed and names of crates; --help tells more")
    return "--changed" in ways, jobs, names


def main():
    os.chdir(os.path.join(os.path.dirname(os.path.abspath(__file__)), ".."))
    only_changed, jobs, names = words_of(sys.argv[1:])
    before = refused_before() if only_changed else set()
    lines = {path: line_of(path) for path in sorted(glob.glob("tests/edits/*/*.edit"))}
    wanted = {crate: [path for path in lines if path.split("/")[2] == crate] for crate in names or sorted(os.listdir("tests/edits"))}
    asked = {crate: [path for path in paths if lines[path] not in before] for crate, paths in wanted.items()}
    passed = sum(len(paths) for paths in wanted.values()) - sum(map(len, asked.values()))
    with tempfile.TemporaryDirectory(prefix="edits-") as work:
        copies = [os.path.join(work, str(number)) for number in range(jobs)]
        for copy in copies:
            shutil.copytree(".", copy, symlinks=True, ignore=left_out, copy_function=take)
        with concurrent.futures.ThreadPoolExecutor(jobs) as pool:
            tries = [pool.submit(try_crate, os.getcwd(), copies, crate, paths, lines) for crate, paths in asked.items() if paths]
            failed = [path for it in tries for path in it.result()]
    whole = [crate for crate, paths in wanted.items() if not asked[crate]]
    if passed:
        print(f"not tried, since they were refused as they stand: {passed} edits; all of {' '.join(whole) or 'no crate'}")
    print(f"{sum(map(len, asked.values())) - len(failed)} refused, {len(failed)} not")
    sys.exit("\n".join(["not refused:", *failed]) if failed else 0)


if __name__ == "__main__":
    main()
