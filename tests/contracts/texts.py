"""What both languages have in common: comments, tokens, brackets, imports. A tree is a dict from a file's path to its text."""
import functools
import pathlib
import re

FILES = ("crates/*/src/**/*.rt", "crates/*/specs/**/*.antt", "crates/*/proofs/**/*.antt", "docs/CONTRACTS.md")
COMMENTS = {
    ".rt": r'"(?:\\.|[^"\\])*"|\'(?:\\.|[^\'\\\n])\'|(//[^\n]*|/\*.*?\*/)',
    ".antt": r'"(?:\\.|[^"\\])*"|((?<![^\s(){}.;,@«»])--[^\n]*|\{-.*?-\})',
}
TOKEN = re.compile(r'«[^»]*»|"(?:\\.|[^"\\])*"|[(){}.;,@]|[^\s(){}.;,@"«»]+')
CLOSING = {"(": ")", "{": "}", "[": "]"}
USE = re.compile(r"^\s*(?:ghost\s+|pub\s+|unfoldable\s+)*use\s+(?:package\.)?([^\s{;]+)\.\s*\{([^}]*)\}", re.M)
MODULE = re.compile(r"Rattle\.(\w+)\.(specs|proofs)\.(.+)")


def tree_of(root):
    return {str(path.relative_to(root)): path.read_text(encoding="utf-8") for form in FILES for path in sorted(pathlib.Path(root).glob(form))}


@functools.lru_cache(maxsize=None)
def blanked(text, kind):
    """The text with blanks for its comments: every other character stays at its place."""
    return re.sub(COMMENTS[kind], lambda m: re.sub(r"[^\n]", " ", m[1]) if m[1] else m[0], text, flags=re.S)


def code(tree, path):
    return blanked(tree[path], pathlib.PurePath(path).suffix)


def tokens(text):
    """An escaped name is the bare word."""
    return [t.strip("«»") for t in TOKEN.findall(blanked(text, ".antt"))]


def behind(text, at):
    """The place behind the bracket that closes the one at this place."""
    opening, depth = text[at], 0
    for here in range(at, len(text)):
        depth += (text[here] == opening) - (text[here] == CLOSING[opening])
        if depth == 0:
            return here + 1
    raise ValueError("a bracket is left open")


def split(parts, *symbols):
    """The tokens between these symbols, where they stand outside of all brackets."""
    depth, found = 0, [[]]
    for part in parts:
        depth += (part in CLOSING) - (part in CLOSING.values())
        if depth == 0 and part in symbols:
            found.append([])
        else:
            found[-1].append(part)
    return found


def groups(parts):
    """An application: its head and arguments, a bracket with what it holds as one, and a projection with what it is of."""
    found, at = [], 0
    while at < len(parts):
        end = behind(parts, at) if parts[at] in CLOSING else at + 1
        while parts[end : end + 1] == ["."]:
            end += 2
        found.append(parts[at:end])
        at = end
    return found


def bare(parts):
    while parts and parts[0] == "(" and behind(parts, 0) == len(parts):
        parts = parts[1:-1]
    return parts


def origins(tree, path, name):
    """From where a file has a name: citations `FILE: NAME`, or modules outside of the crates. More than one, or none, is for the caller to refuse."""
    found = []
    text = code(tree, path)
    for module, items in USE.findall(text):
        for item in filter(None, map(str.strip, items.split(","))):
            whole, _, local = (part.strip() for part in item.partition(" as "))
            place, _, last = f"{module}.{whole}".rpartition(".")
            if (local or last) == name:
                crate = MODULE.fullmatch(place)
                found.append(f"crates/{crate[1]}/{crate[2]}/{crate[3].replace('.', '/')}.antt: {last}" if crate else f"{place}: {last}")
    own = rf"^\s*(?:(?:pub|abbrev|unfoldable|axiom)\s+)*(?:(?:record|data)\s+{re.escape(name)}(?=[\s:])|{re.escape(name)}\s+(?:\{{[^}}]*\}}\s+)*:\s)"
    if path.endswith(".antt") and re.search(own, text, re.M):
        found.append(f"{path}: {name}")
    return found
