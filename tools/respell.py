#!/usr/bin/env python3
"""Gives the repository's own definitions and lemmas the spelling of today's Rattle: words in snake case. Types, facts and modules keep their capitals.

usage: python3 tools/respell.py [--check] [FOLDER]

It was run once, right after the kit's port.py, on the files that this one had turned. FOLDER is the top of the repository (default: here). A name is turned if
it stands in a file of specs/ or proofs/, begins with a small letter, has a dash or a capital, is imported from no library, and is no label that Rattle makes.
Then each file of specs/ and proofs/, the clauses of src/, the edits of must-fail/ and the code spans of the pages follow. --check writes nothing.
Where two names fall together, as `letters-agree` and `lettersAgree`, the one with a dash is a lemma or the name of a fact, and gets `_lem` behind it. So do the
names of MET, which port.py had turned already. It says which these are.
"""
import collections
import pathlib
import re
import sys

WORD = re.compile(r'[^\s(){}.;,@"«»`]+')
COMMENT = re.compile(r"(?<![^\s(){}.;,@«»])--[^\n]*|\{-.*?-\}|//[^\n]*", re.S)
USE = re.compile(r"\buse\s+([^\s;{]+)\.\s*\{([^}]*)\}")
SPAN = re.compile(r"`[^`\n]+`")
OWN_LABEL = re.compile(r"^\s*(?:abbrev )?(?:pub )?(\S+) : (?:\{M : Type 1\} → statement M|(?:tie|goal)\.\S+.*)$", re.M)
# Lemmas that port.py gave the spelling that a definition gets now: each with the crates where it stands.
MET = {"goes_on": ("solver",), "letter_at": ("rules", "promises"), "kept_step": ("promises",), "sets_of": ("solver",), "row_read": ("records",)}


def in_snake_case(name):
    words = re.sub(r"(?<=[a-z0-9])[A-Z]", lambda m: "_" + m[0].lower(), name)
    return words.replace("-", "_").replace("′", "'")


def parts(text):
    """The text cut into code and comments: pairs of (is code, text)."""
    at = 0
    for m in COMMENT.finditer(text):
        yield True, text[at : m.start()]
        yield False, m[0]
        at = m.end()
    yield True, text[at:]


def turns(word):
    """Has this word a spelling of the older Rattle? A word between circles, as `◌orElse◌`, is looked at too."""
    inner = word.strip("◌")
    return bool(re.match(r"[a-z]", inner)) and "◌" not in inner and in_snake_case(inner) != inner and bool(re.fullmatch(r"[\w'′₀-₉ᴰ-]+", inner))


def main():
    words = [w for w in sys.argv[1:] if w != "--check"]
    check = "--check" in sys.argv
    top = pathlib.Path(words[0] if words else ".")
    own = {p.name for p in (top / "crates").iterdir() if p.is_dir()}
    files = sorted(p for p in (top / "crates").glob("*/*/**/*.antt") if "/out/" not in str(p))
    theory = [p for p in files if p.parent.name in ("specs", "proofs")]
    proofs = [p for p in files if p not in theory]

    imported, seen, library_word = set(), collections.Counter(), set()
    for p in files + sorted((top / "crates").glob("*/src/**/*.rt")):
        text = p.read_text(encoding="utf-8")
        for path, names in USE.findall(text):
            steps = path.split(".")
            if not (steps[0] == "package" or (steps[0] == "Rattle" and len(steps) > 1 and steps[1] in own)):
                for item in names.split(","):
                    for w in item.split(" as ")[:1]:
                        imported.add(w.strip())
    for p in theory:
        text = p.read_text(encoding="utf-8")
        for is_code, part in parts(text):
            if not is_code:
                continue
            part = re.sub(USE, lambda m: m[0] if m[1].split(".")[0] == "Rattle" and m[1].split(".")[1] in own else " ", part)
            for m in WORD.finditer(part):
                seen[m[0]] += 1
    table = {}
    for w in seen:
        if turns(w) and w not in imported and w.strip("◌") not in imported:
            table[w] = in_snake_case(w)

    falls = collections.defaultdict(set)
    for old, new in table.items():
        falls[new].add(old)
    said = 0
    for new, olds in sorted(falls.items()):
        if len(olds) > 1 or new in seen or new in imported:
            said += 1
            for old in olds:
                if "-" in old:
                    table[old] = new + "_lem"
            there = [w for w, yes in (("is there already", new in seen), ("is a library's", new in imported)) if yes]
            print(f"look: {', '.join(sorted(olds))} -> {new} {' and '.join(there)}")

    crate = ""

    def word(m):
        if crate in MET.get(m[0], ()):
            return m[0] + "_lem"
        return table.get(m[0], m[0])

    def turned(m):
        """The same in an edit or a page, which port.py had left as it was."""
        new = in_snake_case(m[0])
        return new if m[0] not in table and turns(m[0]) and new in seen and re.search("[A-Z′]|[a-z]-[a-z]", m[0]) else word(m).replace("′", "'")

    def span(m):
        return "`" + WORD.sub(word, m[0][1:-1]) + "`"

    def page_span(m):
        return "`" + WORD.sub(lambda w: turned(w) if "-" not in w[0] or w[0] in table else w[0], m[0][1:-1]) + "`"

    def whole(text, keep=()):
        """Code, word by word; a comment's code spans. A label of `keep`, and what stands behind a dot with a dash, stays."""
        out = []
        for is_code, part in parts(text):
            if not is_code:
                out.append(SPAN.sub(span, part))
                continue
            out.append(WORD.sub(lambda m: m[0] if m[0] in keep or (keep and m.start() and part[m.start() - 1] == "." and "-" in m[0]) else word(m), part))
        return "".join(out)

    changed = 0

    def read(path):
        nonlocal crate
        steps = path.relative_to(top).parts
        crate = steps[1] if steps[0] == "crates" else ""
        return path.read_text(encoding="utf-8")

    def write(path, text):
        nonlocal changed
        if text != path.read_text(encoding="utf-8"):
            changed += 1
            if not check:
                path.write_text(text, encoding="utf-8")

    for p in theory:
        write(p, whole(read(p)))
    for p in proofs:
        text = read(p)
        write(p, whole(text, set(OWN_LABEL.findall(text)) | {""}))
    for p in sorted((top / "crates").glob("*/src/**/*.rt")):
        write(p, whole(read(p)))
    for p in sorted((top / "crates").glob("*/must-fail/*.edit")):
        lines = read(p).split("\n")
        write(p, "\n".join(WORD.sub(turned, line) if re.match(r"(old|new): ", line) else line for line in lines))
    pages = [top / "README.md"] + sorted((top / "docs").glob("*.md"))
    for p in pages:
        if p.name not in ("tender.md", "document-01.md"):
            write(p, SPAN.sub(page_span, read(p)))
    print(f"respell: {len(table)} names, {changed} files, {said} to look at")


main()
