"""What is compared: the public functions, the rows of docs/CONTRACTS.md, the statements of theorems, the promises."""
import re
from collections import namedtuple

from texts import bare, behind, code, groups, split, tokens

PAGE = "docs/CONTRACTS.md"
PROMISES = "crates/promises/specs/Promises.antt"

# An entry for C is public whatever stands before it; pub(crate) and its like are not.
PUBLIC = re.compile(r'\b(?:pub(?!\s*\()(?:\s+(?:const|unsafe|extern\s*"C"))*|extern\s*"C")\s+fn\s+(\w+)')
# where: `FILE: NAME`; parameters: name and type; result: its type, or ''; clauses: word, and from and to where its text stands in the file; at: where it begins
Function = namedtuple("Function", "where at parameters result clauses")
Row = namedtuple("Row", "function predicate theorem")
# variables: name and type of each that is bound; premises and conclusion: tokens
Statement = namedtuple("Statement", "variables premises conclusion")


def parameters(text):
    found = []
    for part in filter(None, ("".join(p).strip() for p in split(list(text.replace("->", "  ")), ","))):
        name, _, kind = (half.strip() for half in part.partition(":"))
        itself = re.fullmatch(r"(&?\s*(?:'\w+\s+)?(?:mut\s+)?)self", name)
        found.append(("self", itself[1] + "Self") if itself else (re.sub(r"^mut\s+", "", name), kind))
    return found


def functions(tree):
    found = []
    for path in (p for p in tree if p.endswith(".rt")):
        text = code(tree, path)
        for match in PUBLIC.finditer(text):
            start = text.index("(", match.end())
            at = behind(text, start)
            result = re.compile(r"\s*->(.*?)(?=\b(?:requires|ensures)\b|\{|;)|", re.S).match(text, at)
            given, at, clauses = parameters(text[start + 1 : at - 1]), result.end(), []
            while word := re.compile(r"\s*(\w+)(?:\s+\w+)?\s*\{").match(text, at):
                at = behind(text, word.end() - 1)
                clauses.append((word[1], word.end(), at - 1))
            found.append(Function(f"{path}: {match[1]}", match.start(), given, (result[1] or "").strip(), clauses))
    return found


def section(tree, heading):
    found = re.search(rf"^## {heading}\n(.*?)(?=^## |\Z)", tree[PAGE] + "\n", re.M | re.S)
    return found[1] if found else ""


def rows(tree):
    """The rows of the functions, and the lines that begin like one and are none."""
    found, strange = [], []
    cite, excepted = r"`(crates/[^`:,]+: [^`:,]+)`", section(tree, "Exceptions")
    for line in tree[PAGE].splitlines():
        if re.match(r"\|\s*`crates/\w+/src/", line) and line not in excepted:
            row = re.match(rf"\| {cite} \| {cite}; determined: {cite} \|", line)
            found.append(Row(*row.groups())) if row else strange.append(line)
    return found, strange


def listed(tree, heading):
    """The rows of the one table in a section: lists of cells, without the table's head."""
    lines = [line for line in section(tree, heading).splitlines() if line.startswith("|")]
    return [[cell.strip() for cell in line.strip("|").split(" | ")] for line in lines[2:]]


def without_let(parts):
    return split(parts, "in")[-1] if parts[:1] == ["let"] else parts


def bound(parts):
    """The variables of a segment `(x y : T) (z : S)`; None where it is no such thing."""
    found = []
    for group in groups(parts):
        names, *kind = split(group[1:-1], ":") if group[0] in "({" else ([],)
        if len(kind) != 1 or not names:
            return None
        found += [(name, kind[0]) for name in names]
    return found


def statement(parts):
    """What a type binds, takes and concludes. What its conclusion binds and takes in its turn, through products too, counts as the whole's."""
    *segments, last = split(bare(parts), "→")
    variables, premises, last = [], [], bare(without_let(last))
    for segment in segments:
        names = bound(segment)
        if names is None:
            premises.append(bare(without_let(segment)))
        else:
            variables += names
    for part in split(last, "×", "⊎", "↔"):
        if len(split(bare(part), "→")) > 1:
            inner = statement(part)
            variables, premises = variables + inner.variables, premises + inner.premises
    return Statement(variables, premises, last)


def theorem(tree, where):
    """The statement of a theorem that stands at the outermost level of its file and is no axiom; None where there is none."""
    path, name = where.split(": ")
    found = path in tree and re.search(rf"^(?:pub\s+)?{re.escape(name)}\s+:\s(.*?)(?=^\S|\Z)", code(tree, path), re.M | re.S)
    return statement(tokens(found[1])) if found else None


def definition(tree, where):
    """The arguments and the body of a name that is defined by one equation; None where it is not."""
    path, name = where.split(": ")
    found = re.findall(rf"^{re.escape(name)}\s([^=\n]*)=\s(.*?)(?=^\S|\Z)", code(tree, path), re.M | re.S) if path in tree else []
    return (tokens(found[0][0]), groups(tokens(found[0][1]))) if len(found) == 1 else None


def promises(tree):
    """The fields of all records of the promises, as record, field and statement (None where the field cannot be read)."""
    found = []
    for name, body in re.findall(r"^(?:pub\s+)?record\s+(\S+).*?\bwhere[ \t]*\n(.*?)(?=^\S|\Z)", code(tree, PROMISES), re.M | re.S):
        indent = re.match(r"\s*\n( +)|( *)", "\n" + body)[1]
        for item in re.findall(rf"^{indent}(\S.*?)(?=^{indent}\S|\Z)", body, re.M | re.S):
            field = re.fullmatch(r"(?:pub\s+)?(\S+)\s+:\s(.*)", item, re.S)
            found.append((name, field[1] if field else item.split("\n")[0], statement(tokens(field[2])) if field else None))
    return found


def named(tree):
    """What the comment at the top of the promises names: each predicate with the function that ensures it."""
    top = " ".join(line.lstrip("- ") for line in tree[PROMISES].split("\nuse ")[0].splitlines())
    found = []
    for predicate, function in re.findall(r"`(\S+)`: ((?:\w+::)+\w+)", top):
        crate, *modules, name = function.split("::")
        found.append((predicate, f"crates/{crate}/src/{'/'.join(modules) or 'lib'}.rt: {name}"))
    return found
