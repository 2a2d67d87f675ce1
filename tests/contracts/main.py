"""Asks it of the tree, then of the changed copies; the last line is the counts."""
import sys

from asking import findings
from texts import tree_of
from weakened import cases


def lines(found):
    return [f"{where}: {wrong}" for where, all_wrong in found.items() for wrong in all_wrong]


def wrong_case(tree, found, change, due):
    """What is wrong with how the test takes a changed copy: with what it says, or with what it looks at in a harmless one."""
    try:
        copied = findings(change(tree))
    except LookupError as missed:
        return f"the copy cannot be made: {missed}"
    said = sorted(set(lines(copied)))
    if said != sorted(due):
        return "it says\n    " + ("\n    ".join(said) or "nothing") + "\n  and not\n    " + ("\n    ".join(sorted(due)) or "nothing")
    if not due and copied.keys() != found.keys():
        return "it looks at something else"
    return ""


def main():
    tree = tree_of(".")
    found = findings(tree)
    failed = sum(1 for wrong in found.values() if wrong)
    tried = []
    if failed:
        print(*lines(found), "the changed copies are not tried: they are copies of what is refused", sep="\n")
    else:
        tried = cases(tree)
    for name, change, due in tried:
        wrong = wrong_case(tree, found, change, due)
        if wrong:
            failed += 1
            print(f"changed copy: {name}: {wrong}")
    print(f"{len(found) + len(tried) - failed} passed, {failed} failed")
    return failed > 0


sys.exit(main())
