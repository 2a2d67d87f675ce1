"""Changed copies of the tree, each with the lines that the test must say of it. The last one is harmless."""
import re

from reading import PAGE, PROMISES, functions, rows

ENTRY = "mortarleaf_solve"
ENTRIES = "crates/solver_c/src/lib.rt"
OPEN = "crates/text/src/reading.rt: read_full"


def swapped(tree, path, old, new):
    """A copy in which a form of the file's text is replaced. It must be there, or nothing would be tried."""
    text, done = re.subn(old, new, tree[path], count=1, flags=re.M | re.S)
    if not done:
        raise LookupError(f"{path} has nothing like {old}")
    return {**tree, path: text}


def within(tree, path, start, end, old, new):
    """A copy in which a form is replaced between two places of a file."""
    text = tree[path]
    inner = swapped({path: text[start:end]}, path, old, new)[path]
    return {**tree, path: text[:start] + inner + text[end:]}


def entry(tree):
    return next(function for function in functions(tree) if function.where == f"{ENTRIES}: {ENTRY}")


def row_of(tree, name=f"{ENTRIES}: {ENTRY}"):
    return next(row for row in rows(tree)[0] if row.function.endswith(name))


def head(old, new):
    """Changes the entry, from its name to the end of its `ensures`."""

    def change(tree):
        function = entry(tree)
        return within(tree, function.where.split(": ")[0], function.at, function.clauses[-1][2] + 1, old, new)

    return change


def source(old, new):
    """Changes the file that the entry stands in."""
    return lambda tree: swapped(tree, entry(tree).where.split(": ")[0], old, new)


def stated(old, new):
    """Changes the statement of the entry's determination theorem."""

    def change(tree):
        path, name = row_of(tree).theorem.split(": ")
        found = re.search(rf"^pub {name} :.*?(?=^{name} )", tree[path], re.M | re.S)
        return within(tree, path, found.start(), found.end(), old, new)

    return change


def page(old, new):
    return lambda tree: swapped(tree, PAGE, old, new)


def promise(old, new):
    return lambda tree: swapped(tree, PROMISES, old, new)


def no_exception(name):
    return page(rf"(^## Exceptions\n.*?\n)\| `[^`]*: {name}` [^\n]*\n", r"\1")


def harmless(tree):
    """Comments with what would be refused, other line breaks, and a function that is not public."""
    copy = dict(tree)
    for path, text in tree.items():
        if path.endswith(".rt"):
            text = re.sub(r"(ensures \{[^{}]*) \}", r"\1 -- result or not\n  }", text)
            text = text.replace("ensures {", "// requires { never }\n  /* pub fn gone() */ ensures\n  {\n")
            text += '\n// extern "C" fn gone()\npub(crate) fn inner(n: u32) -> u32\n    requires { n ≡ 0 }\n{\n    n\n}\n'
        if path.endswith(".antt"):
            lines = [line if line.lstrip().startswith("--") else line.replace(" → ", "\n      → {- Solved → -} ") for line in text.split("\n")]
            text = "\n".join(lines)
        copy[path] = re.sub(r"(use [^\n{]*\.\{)", r"\1\n    ", text)
    return copy


def of_functions(tree):
    function = entry(tree).where
    predicate = row_of(tree).predicate
    file = predicate.split(": ")[0]
    other = [f"{function}: does not ensure Solved, and that alone"]
    no_end = f"{function}: gives Solved next at the end 0 times, and not once"
    no_mode = f"{function}: gives Solved mode 0 times, and not once"
    return [
        ("the entry of solving says only that its reply has a small number", head(r"\{ Solved.*\}", "{ result.number ≤ 16 }"), other),
        ("it ensures another predicate", head("Solved", "SolvedReply"), other),
        ("it ensures nothing", head(r"ensures \{.*\}", ""), other),
        ("it ensures something else beside", head("(ensures)", r"ensures { result ≡ result } \1"), other),
        ("it ensures its predicate or nothing", head(r" \}\Z", " ⊎ ⊤ }"), [f"{function}: gives Solved {word}, which is not asked" for word in "⊎⊤"]),
        ("its predicate is of another file", source(r"Rattle\.\w+\.specs\.Solve\.", "Rattle.solver.specs.Weak."),
            [f"{function}: Solved is that of crates/solver/specs/Weak.antt: Solved, and not that of {predicate}"]),
        ("its predicate is another one under its name", source(r"(use [^;]*)\bSolved\b", r"\1SolvedReply as Solved"),
            [f"{function}: Solved is that of {file}: SolvedReply, and not that of {predicate}"]),
        ("it says nothing of a buffer at the end", head(r" next\.new", ""), [no_end]),
        ("it gives a buffer at the start in place of the end", head(r"next\.new", "next.old"),
            [no_end, f"{function}: gives Solved next at the start 2 times, and not once"]),
        ("it gives a number in place of a parameter", head(r"Solved \w+", "Solved 0"),
            [no_mode, f"{function}: gives Solved 0, which is not asked"]),
        ("a parameter hides its result", head(r"\bmode\b", "result"),
            [f"{function}: gives Solved mode, which is not asked", f"{function}: gives Solved result 0 times, and not once",
             f"{function}: has a parameter of the name that a clause gives the result"]),
        ("it has a requires", head("(ensures)", r"requires { mode ≤ 1 } \1"), [f"{function}: has a requires"]),
        ("it lends in a way that is not known", head(r"sets: &mut \[u64\]", "sets: (&mut [u64], u8)"),
            [f"{function}: has a parameter of a kind that this test does not know"]),
    ]


def of_rows(tree):
    function = entry(tree).where
    path, row = function.split(": ")[0], rf"\| `{function}` \| `[^`]*`"
    gone, thing = f"{path}: gone", row_of(tree).predicate
    return [
        ("a method has no row", source(r"\Z", "\nimpl Reply {\n    pub fn unlisted(self) -> u32 {\n        0\n    }\n}\n"),
            [f"{path}: unlisted: has no row in {PAGE}"]),
        ("an entry for C has no row", source(r"\Z", '\n#[unsafe(no_mangle)]\nextern "C" fn unlisted() {}\n'), [f"{path}: unlisted: has no row in {PAGE}"]),
        ("a row has no function", page(rf"\| `{function}`", f"| `{gone}`"),
            [f"{function}: has no row in {PAGE}", f"{PAGE}: {gone}: is no public function"]),
        ("an exception is not needed", page(r"(^## Exceptions\n.*?---\|\n)", rf"\1| `{gone}` | determined through `{thing}` | none |\n"),
            [f"{PAGE}: {gone} determined through {thing}: is an exception to nothing"]),
        ("an exception has another form", page(r"(^## Exceptions\n.*?---\|\n)", rf"\1| `{gone}` | has a requires | none |\n"),
            [f"{PAGE}: `{gone}`: is no row that this test can read"]),
        ("a row names no theorem", page(rf"({row}); determined: `[^`]*`", r"\1"),
            [f"{PAGE}: `{function}`: is no row that this test can read", f"{function}: has no row in {PAGE}"]),
        ("a function has two rows", page(rf"(^{row}[^\n]*\n)", r"\1\1"), [f"{PAGE}: {function}: has two rows"]),
        ("a row has two functions", source(r"\Z", f"\nimpl Reply {{\n    pub fn {ENTRY}() {{}}\n}}\n"),
            [f"{function}: is the name of two functions, and a row cannot say which", f"{function}: does not ensure Solved, and that alone"]),
    ]


def of_open(tree):
    path, name = OPEN.split(": ")
    other = [f"{OPEN}: does not ensure FullyRead, and that alone"]

    def reading(old, new):
        return lambda tree: swapped(tree, path, old, new)

    return [
        ("what leaves something open ensures another predicate", reading("ensures { FullyRead", "ensures { FrontRead"), other),
        ("it ensures its predicate or nothing", reading(r"(ensures \{.*?) \}", r"\1 ⊎ ⊤ }"), other),
        ("it says nothing of the buffer at the end", reading(r"buffer\.new", "buffer.old"), [f"{OPEN}: says nothing of buffer at the end"]),
        ("it says nothing of its result", reading(" result ", " (Err 0) "), [f"{OPEN}: says nothing of the result"]),
        ("it has a requires", reading("(ensures)", r"requires { 0 ≤ length buffer.old } \1"), [f"{OPEN}: has a requires"]),
        ("its predicate is of another file", reading(r"Rattle\.text\.specs\.Reading\.", "Rattle.text.specs.Weak."),
            [f"{OPEN}: FullyRead is that of crates/text/specs/Weak.antt: FullyRead, and not that of crates/text/specs/Reading.antt: FullyRead"]),
        ("no exception says that it leaves something open", no_exception(name), [f"{OPEN}: has no row in {PAGE}"]),
    ]


def of_theorems(tree):
    theorem, text = row_of(tree).theorem, row_of(tree, ": solve_text")

    def all_say(wrong):
        return [f"{row.function}: {theorem} {wrong}" for row in rows(tree)[0] if row.theorem == theorem]

    other = all_say("does not take Solved twice, and nothing else")
    return [
        ("a theorem is about another predicate", stated("→ Solved (.*→ )Solved ", r"→ SolvedFor \1SolvedFor "), other),
        ("a theorem is about another predicate once", stated("→ Solved ", "→ SolvedFor "), other),
        ("a theorem takes something else beside", stated("→ Solved ", "→ r ≡ s → Solved "), other),
        ("a theorem is about one mode only", stated(r"(→ Solved )mode(.*?→ Solved )mode", r"\g<1>zero\g<2>zero"),
            all_say("is not about every input and outcome: it has other variables than the arguments of Solved")),
        ("a theorem is about two inputs", stated(r"(.*→ Solved )mode", r"\1other"), all_say("does not take one input and two outcomes")),
        ("a theorem leaves out a buffer", stated(r" × \([^()]*\)\s*\Z", "\n"), all_say("does not conclude that each part of the outcome is equal")),
        ("a theorem is only assumed", stated("pub", "axiom pub"), all_say("is not stated")),
        ("a predicate is not what its theorem is about", lambda tree: swapped(tree, text.predicate.split(": ")[0], "(^SolveTextPut .*?)TextPut", r"\1Weak"),
            [f"{text.function}: SolveTextPut is not TextPut with some arguments of the input"]),
        ("a theorem is about another predicate, and no exception says so", no_exception("solve_text"),
            [f"{text.function}: SolveTextPut is that of nowhere, and not that of {text.predicate}",
             f"{text.function}: {text.theorem} does not take SolveTextPut twice, and nothing else"]),
    ]


def of_promises(tree):
    predicate = row_of(tree).predicate
    elsewhere, solving = f"{PROMISES}: Solved: Solved is that of ", f"{PROMISES}: Promises.solving: "
    lost, neither = "speaks of reply : Reply, which is no function's outcome", f"which is neither what a function ensures nor a fact that {PAGE} lists"
    other = "crates/rules/specs/RoundTrips.antt: ReadBack"
    weak = r"\1Solved as Other\2\nuse Rattle.words.specs.Weak.{Solved}"
    return [
        ("a promise takes a weaker predicate of the same name", promise(r"(^use [^{]*\{[^}]*)\bSolved\b([^}]*\})", weak),
            [f"{elsewhere}crates/words/specs/Weak.antt: Solved, and not that of {predicate}"]),
        ("a promise takes one that its own file has", promise("^pub record OfSolving", "Solved : ℕ → Type 0\nSolved n = n ≡ n\n\npub record OfSolving"),
            [f"{elsewhere}{predicate} and of {PROMISES}: Solved, and not that of {predicate}"]),
        ("a promise takes another predicate", promise(r"(pub solving : .*?→ )Solved ", r"\1SolvedReply "),
            [f"{solving}{lost}", f"{solving}takes SolvedReply, {neither}"]),
        ("a promise takes the predicate as denied", promise(r"(pub solving : .*?→ )Solved ", r"\1¬ Solved "),
            [f"{solving}takes what a function ensures only as denied, or beside something else"]),
        ("a promise takes an equation in place of the predicate", promise(r"(pub solving : .*?→ )Solved [^→]*", r"\1reply.number ≡ 0 "),
            [f"{solving}{lost}"]),
        ("a promise takes a fact of an outcome", promise(r"(pub solving : .*?→ Solved [^→]*→ )", r"\1Bytes sets' → "), [f"{solving}takes Bytes of an outcome"]),
        ("a promise gives the predicate's name to a variable", promise(r"(pub solving : \()", r"\1Solved "), [f"{solving}gives the name Solved to something else"]),
        ("a fact is listed that no promise takes", page(r"(^## What a promise takes\n.*?---\|\n)", rf"\1| `{other}` | none |\n"),
            [f"{PROMISES}: ReadBack: no promise takes it"]),
        ("a promise is about outcomes that leave the buffers alone", promise(r"(pub solving : .*?→ Solved [^→]*) sets' next' →", r"\1 sets next →"),
            [f"{solving}takes Solved with an outcome that is not a variable of its own"]),
        ("a promise takes what is promised, and no exception says so", no_exception("one_outcome"),
            [f"{PROMISES}: Promises.one_outcome: {wrong}" for wrong in (lost, lost.replace("reply", "reply₁"), f"takes OfSolving, {neither}")]),
        ("the promises name another function", promise(r"solver::solving::solve\b", "solver::solving::solve_for"),
            [f"{PROMISES}: Solved: crates/solver/src/solving.rt: solve_for does not ensure it"]),
    ]


def cases(tree):
    """A name for each copy, how it is made, and what is to be said of it."""
    last = ("harmless: comments, line breaks, a function that is not public", harmless, [])
    return of_functions(tree) + of_rows(tree) + of_open(tree) + of_theorems(tree) + of_promises(tree) + [last]
