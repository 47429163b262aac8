"""What the texts of a crate say: where its functions stand, and what a crate above can read of it.

A function is a name, the place of its first character, and its body's first and last one. A contract is what stays of a text where the bodies of
functions, private functions, comments and imports that no signature names are cut out.
"""

import re

QUIET = re.compile(r'//[^\n]*|/\*.*?\*/|b?"(?:[^"\\]|\\.)*"|b?\'(?:[^\'\\]|\\.[^\']*)\'', re.DOTALL)
HEAD = re.compile(r"\b(?:(pub)(\([a-z ]+\))?\s+)?(?:const\s+|unsafe\s+)*fn\s+([A-Za-z_0-9]+)")
CLAUSE = re.compile(r"\b(?:requires|ensures|ghost|decreases)\*?(?:\s+[a-z_0-9]+)?\s*(?::\s*)?$")
OPEN_FOR_ALL = re.compile(r"\b(?:trait\s+[^{};]*|impl\b[^{};]*\bfor\s[^{};]*)\{")


def quiet(text):
    """The text with blanks in place of comments and of what stands in quotes."""
    return QUIET.sub(lambda found: re.sub(r"[^\n]", " ", found[0]), text)


def closing(text, at):
    """The place of the brace that closes the one here."""
    depth = 0
    for found in re.compile(r"[{}]").finditer(text, at):
        depth += 1 if found[0] == "{" else -1
        if not depth:
            return found.start()
    raise ValueError(f"a brace at {at} does not close")


def body_of(text, at):
    """The first and last place of the body of the function whose name ends here, or the place of its semicolon twice."""
    while True:
        found = re.compile(r"[{;]").search(text, at)
        # A semicolon in an array's type is no end.
        if found[0] == ";" and text.count("[", at, found.start()) > text.count("]", at, found.start()):
            at = found.end()
        elif found[0] == ";":
            return found.start(), found.start()
        elif CLAUSE.search(text, at, found.start()):
            at = closing(text, found.start()) + 1
        else:
            return found.start(), closing(text, found.start())


def functions(text):
    """Yields each function of a text: its name, whether a crate above can call it, its first place, and its body's first and last one."""
    plain = quiet(text)
    shared = [(found.start(), closing(plain, found.end() - 1)) for found in OPEN_FOR_ALL.finditer(plain)]
    at = 0
    while found := HEAD.search(plain, at):
        first, last = body_of(plain, found.end())
        is_public = bool(found[1]) and not found[2] or any(begin < found.start() < end for begin, end in shared)
        yield found[3], is_public, found.start(), first, last
        at = max(last, found.end())


def owner_at(text, at):
    """The type whose methods stand here, or an empty text; none where they are those of a trait."""
    plain = quiet(text)
    for found in re.finditer(r"^(impl|(?:pub )?trait)\b([^{};]*)\{", plain, re.MULTILINE):
        if found.start() < at < closing(plain, found.end() - 1):
            if found[1] != "impl" or re.search(r"\bfor\s", found[2]):
                return None
            return re.search(r"(\w+)\s*(?:<[^>]*>)?\s*$", found[2])[1]
    return ""


def imports(text):
    """The names that the imports of a text bring, each with where it comes from."""
    for found in re.finditer(r"(?<!ghost )\buse\s+([^;]*);", text):
        path, _, names = found[1].partition("{")
        for name in names.rstrip("} \n").split(","):
            whole = (path + name.strip()).rstrip()
            if not whole.endswith("::"):
                yield re.split(r"::|\s", whole)[-1], whole


def contract_of(text):
    """What a crate above can read of a text."""
    plain = QUIET.sub(lambda found: " " if found[0].startswith(("//", "/*")) else found[0], text)
    kept, at = [], 0
    for _, is_public, start, first, last in functions(plain):
        kept += [plain[at:start], plain[start:first] if is_public else ""]
        at = last + 1
    kept = "".join([*kept, plain[at:]])
    brought = list(imports(kept))
    kept = re.sub(r"(?<!ghost )\b(?:pub\s+)?use\s+[^;]*;", lambda found: found[0] if found[0].startswith("pub") else "", kept)
    used = sorted(path for name, path in brought if re.search(rf"\b{re.escape(name)}\b", kept))
    return " ".join(kept.split() + used)
