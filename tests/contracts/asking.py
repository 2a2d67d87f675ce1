"""What is asked. Each answer is a list of sentences that say what is wrong; `findings` has them by what was looked at."""
import re

from reading import PAGE, PROMISES, definition, functions, listed, named, promises, rows, theorem
from texts import bare, groups, origins, split, tokens

THROUGH, TAKES, ONLY = "determined through", "takes", "ensures only"
START, END, RESULT = "at the start", "at the end", "the result"


def name_of(where):
    return where.split(": ")[1]


def from_elsewhere(tree, path, name, where):
    """Is this name, in this file, the one that is meant?"""
    found = origins(tree, path, name)
    return [] if found == [where] else [f"{name} is that of {' and of '.join(found) or 'nowhere'}, and not that of {where}"]


# ---- what a function ensures


def owed(function):
    """What the predicate must be given: each parameter, a lent one as it was at the start and, where it can be written, as it is at the end; the result."""
    found = []
    for name, kind in function.parameters:
        lent = re.fullmatch(r"&\s*(?:'\w+\s+)?(mut\b)?[^&']*", kind)
        if not re.fullmatch(r"\w+", name) or (not lent and re.search("[&']", kind)):
            return None
        found += [(name, START)] + [(name, END)] * bool(lent[1]) if lent else [(name, "")]
    return found + [(RESULT, "")] * (function.result not in ("", "()"))


def given(argument):
    """What an argument of the predicate says, in the same words; None where it is anything else."""
    if len(argument) == 1:
        return (RESULT if argument[0] == "result" else argument[0], "")
    if len(argument) == 3 and argument[1] == ".":
        return (argument[0], {"now": START, "old": START, "new": END}.get(argument[2]))
    return None


def ensured(tree, function):
    """Of `ensures { P x.now y.new result }`: the name of the predicate, and what it is given; None where there is not just one clause."""
    path = function.where.split(": ")[0]
    clauses = [tokens(tree[path][start:end]) for word, start, end in function.clauses if word == "ensures"]
    if len(clauses) != 1:
        return None
    head, *arguments = groups(clauses[0]) or [[""]]
    return head[0], [given(argument) for argument in arguments]


def outcome(tree, function):
    """For each argument of a function's predicate: is it of the outcome, or of the input?"""
    said = ensured(tree, function)
    return [one is not None and (one == (RESULT, "") or one[1] == END) for one in said[1]] if said else []


def wrong_ensures(tree, function, predicate):
    """Is what a function ensures this predicate, given all that comes in and all that goes out?"""
    name, said, due = name_of(predicate), ensured(tree, function), owed(function)
    wrong = [f"has a {word}" for word in sorted({word for word, _, _ in function.clauses} - {"ensures"})]
    if said is None or said[0] != name:
        return wrong + [f"does not ensure {name}, and that alone"]
    if due is None:
        return wrong + ["has a parameter of a kind that this test does not know"]
    _, arguments = said
    wrong += from_elsewhere(tree, function.where.split(": ")[0], name, predicate)
    if "result" in [parameter for parameter, _ in function.parameters]:
        wrong.append("has a parameter of the name that a clause gives the result")
    for one in dict.fromkeys(due + arguments):
        what, times = " ".join(one) if one else "what is neither a parameter nor the result", arguments.count(one)
        if one not in due:
            wrong.append(f"gives {name} {what.strip()}, which is not asked")
        elif times != 1:
            wrong.append(f"gives {name} {what.strip()} {times} times, and not once")
    return wrong


def wrong_only(tree, function, predicate):
    """Does a function whose outcome is left open ensure this predicate, and does it say something of all that goes out?"""
    name, said, due, path = name_of(predicate), ensured(tree, function), owed(function), function.where.split(": ")[0]
    wrong = [f"has a {word}" for word in sorted({word for word, _, _ in function.clauses} - {"ensures"})]
    clause = [token for word, start, end in function.clauses if word == "ensures" for token in tokens(tree[path][start:end])]
    if said is None or said[0] != name or not all(re.match(r"[\w(]", part[0]) for part in groups(clause)):
        return wrong + [f"does not ensure {name}, and that alone"]
    if due is None:
        return wrong + ["has a parameter of a kind that this test does not know"]
    wrong += from_elsewhere(tree, path, name, predicate)
    spoken = f" {' '.join(clause)} "
    for what, when in due:
        if (when == END and f" {what} . new " not in spoken) or (what == RESULT and " result " not in spoken):
            wrong.append(f"says nothing of {what} {when}".strip())
    return wrong


# ---- that the outcome is determined


def wrong_theorem(tree, where, predicate, out):
    """Does the theorem say that two outcomes of one input are equal? `out` tells which arguments of the predicate are of the outcome."""
    name, said = name_of(predicate), theorem(tree, where)
    if said is None:
        return [f"{where} is not stated"]
    wrong = from_elsewhere(tree, where.split(": ")[0], name, predicate)
    if [premise[:1] for premise in said.premises] != [[name], [name]]:
        return wrong + [f"{where} does not take {name} twice, and nothing else"]
    one, two = (["".join(argument) for argument in groups(premise)[1:]] for premise in said.premises)
    if [a != b for a, b in zip(one, two)] != out or not len(one) == len(two) == len(out):
        return wrong + [f"{where} does not take one input and two outcomes"]
    variables = one + [b for b, differs in zip(two, out) if differs]
    if sorted(variables) != sorted(variable for variable, _ in said.variables) or len(set(variables)) != len(variables):
        wrong.append(f"{where} is not about every input and outcome: it has other variables than the arguments of {name}")
    if [bare(part) for part in split(said.conclusion, "×")] != [[a, "≡", b] for a, b, differs in zip(one, two, out) if differs]:
        wrong.append(f"{where} does not conclude that each part of the outcome is equal")
    return wrong


def wrong_determined(tree, function, row, through):
    """Is the outcome determined by the theorem of the row: about its predicate, or `through` one that the predicate only gives some arguments?"""
    out = outcome(tree, function)
    if through is None:
        return wrong_theorem(tree, row.theorem, row.predicate, out)
    path, name = row.predicate.split(": ")
    arguments, (head, *fixed) = definition(tree, row.predicate) or ([], [[""]])
    if head != [name_of(through)] or from_elsewhere(tree, path, head[0], through) or any(out[: len(arguments)]):
        return [f"{name} is not {name_of(through)} with some arguments of the input"]
    return wrong_theorem(tree, row.theorem, through, [False] * len(fixed) + out[len(arguments) :])


# ---- the promises


def named_premises(premise):
    """The named predicates that a premise is made of. Equations and bounds say in the open what they say."""
    premise = bare(premise)
    if premise[:1] == ["¬"]:
        return named_premises(premise[1:])
    parts = split(premise, "⊎", "×", "↔")
    if len(parts) > 1:
        return [found for part in parts for found in named_premises(part)]
    return [] if len(split(premise, "≡", "≤", "<")) == 2 else [premise]


def wrong_outcomes(applied, contracts, variables):
    """Has each outcome that a promise takes a variable of its own? Then it is any outcome that the predicate allows, and no other."""
    wrong, met = [], set()
    for (head,), *arguments in applied:
        out = [a[0] for a, is_out in zip(arguments, contracts[head]) if is_out]
        come_in = [word for a, is_out in zip(arguments, contracts[head]) if not is_out for word in a]
        if len(set(out)) < len(out) or not set(out) <= set(variables) - met - set(come_in):
            wrong.append(f"takes {head} with an outcome that is not a variable of its own")
        met |= set(out)
    return wrong


def wrong_promise(said, contracts, facts, excepted, results):
    """Does a promise take the contracts, and beside them only facts about the input? `contracts` has which arguments of a predicate are of the outcome."""
    if said is None:
        return ["cannot be read"]
    applied = [groups(found) for premise in said.premises for found in named_premises(premise)]
    contracted = [groups(premise) for premise in said.premises if premise[0] in contracts]
    wrong = wrong_outcomes(contracted, contracts, [variable for variable, _ in said.variables])
    if len(contracted) < sum(one[0][0] in contracts for one in applied):
        wrong.append("takes what a function ensures only as denied, or beside something else")
    given_here = {word for one in applied if one[0][0] in [*contracts, *excepted] for word in sum(one[1:], [])}
    outcomes = {a[0] for one in contracted for a, is_out in zip(one[1:], contracts[one[0][0]]) if is_out}
    for (head, *_), *arguments in applied:
        if head not in [*contracts, *facts, *excepted]:
            wrong.append(f"takes {head}, which is neither what a function ensures nor a fact that {PAGE} lists")
        elif head in facts and outcomes & set(sum(arguments, [])):
            wrong.append(f"takes {head} of an outcome")
    for name, kind in said.variables:
        if name in contracts:
            wrong.append(f"gives the name {name} to something else")
        if kind in results and name not in given_here:
            wrong.append(f"speaks of {name} : {' '.join(kind)}, which is no function's outcome")
    return wrong


def promised(tree, public, table, exceptions):
    """The findings about the promises, and the names that each promise takes."""
    found, contracts, facts, taken, results = {}, {}, {}, {}, []
    for name, where in named(tree):
        ensures = where in public and where in table and name_of(table[where].predicate) == name
        found[f"{PROMISES}: {name}"] = from_elsewhere(tree, PROMISES, name, table[where].predicate) if ensures else [f"{where} does not ensure it"]
        if where in public:
            contracts[name] = outcome(tree, public[where])
            results.append([public[where].result])
    for cell, *_ in listed(tree, "What a promise takes"):
        where = cell.strip("`")
        facts[name_of(where)] = where
        found[f"{PROMISES}: {name_of(where)}"] = from_elsewhere(tree, PROMISES, name_of(where), where)
    for record, field, said in promises(tree):
        excepted = [name_of(what) for where, kind, what in exceptions if (where, kind) == (f"{PROMISES}: {field}", TAKES)]
        found[f"{PROMISES}: {record}.{field}"] = wrong_promise(said, contracts, facts, excepted, results)
        taken[field] = {one[0] for premise in (said.premises if said else []) for one in named_premises(premise)}
    for name in [*contracts, *facts]:
        if not any(name in heads for heads in taken.values()):
            found[f"{PROMISES}: {name}"].append("no promise takes it")
    return found, taken


# ---- all of it


def exceptions(tree):
    """The exceptions, as what they are about, their kind, and what they name; and the lines that are none."""
    found, strange = [], []
    for cells in listed(tree, "Exceptions"):
        form = re.fullmatch(rf"`([^`]+)` \| ({THROUGH}|{TAKES}|{ONLY}) `([^`]+)` \| \S.*", " | ".join(cells))
        found.append(form.groups()) if form else strange.append(" | ".join(cells))
    return found, strange


def findings(tree):
    """What was looked at, each with all that is wrong with it."""
    (lines, strange), (excepted, odd) = rows(tree), exceptions(tree)
    found = {f"{PAGE}: {line.strip('| ').split(' | ')[0]}": ["is no row that this test can read"] for line in strange + odd}
    table, public = {row.function: row for row in lines}, {}
    for row in lines:
        if lines.count(row) > 1 or table[row.function] != row:
            found[f"{PAGE}: {row.function}"] = ["has two rows"]
    for function in functions(tree):
        where, wrong = function.where, []
        if where in public:
            wrong.append("is the name of two functions, and a row cannot say which")
        public[where] = function
        through, only = (next((what for about, kind, what in excepted if (about, kind) == (where, form)), None) for form in (THROUGH, ONLY))
        if where in table:
            wrong += wrong_ensures(tree, function, table[where].predicate) or wrong_determined(tree, function, table[where], through)
        elif only:
            wrong += wrong_only(tree, function, only)
        found[where] = wrong + [f"has no row in {PAGE}"] * (where not in table and only is None)
    found.update({f"{PAGE}: {where}": ["is no public function"] for where in table if where not in public})
    about, taken = promised(tree, public, table, excepted)
    found.update(about)
    for where, kind, what in excepted:
        taken_here = name_of(what) in taken.get(name_of(where), ()) and origins(tree, PROMISES, name_of(what)) == [what]
        used = {THROUGH: where in public, ONLY: where in public and where not in table, TAKES: taken_here}[kind]
        found[f"{PAGE}: {where} {kind} {what}"] = [] if used else ["is an exception to nothing"]
    return found
