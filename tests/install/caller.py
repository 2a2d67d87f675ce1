"""K1 and K12 of document 01 from Python: solve, write the answer, check it and two other tables. answers.txt is what this prints.

    python3 caller.py PREFIX/lib/libmortarleaf.so
"""
import ctypes
import sys

ABSENT, UNBLOCKED = 65535, 1
CONTEXT = bytes.fromhex("1F00 4358 02020202 01 000000000000 000001000100 000100010000 000101010100")
SPECIFICATION = bytes.fromhex("0D00 5350 0202 01 00000000 00010100")
ONE_ROW = bytes.fromhex("0C00 4354 0202 0100 000000000000")
ALWAYS_1 = bytes.fromhex("1200 4354 0202 0100 000000010000 000001010000")


class Reply(ctypes.Structure):
    _fields_ = [(name, ctypes.c_uint32) for name in ("number", "record", "row", "states", "rounds")]


library = ctypes.CDLL(sys.argv[1])
for entry in (library.mortarleaf_solve, library.mortarleaf_check, library.mortarleaf_write_controller):
    entry.restype = Reply

sets = (ctypes.c_uint64 * 512)()
next_states = (ctypes.c_uint16 * 8192)()
record = (ctypes.c_uint8 * 49160)()


def lent(buffer):
    """A buffer for C: a pointer, and the count of what it points to."""
    return buffer, ctypes.c_size_t(len(buffer))


def check(what, controller):
    reply = library.mortarleaf_check(*lent(CONTEXT), *lent(SPECIFICATION), *lent(controller), *lent(sets))
    print(f"check of {what}: {reply.number}, states {reply.states}")


solved = library.mortarleaf_solve(ctypes.c_uint32(UNBLOCKED), *lent(CONTEXT), *lent(SPECIFICATION), *lent(sets), *lent(next_states))
print(f"solve: {solved.number}, states {solved.states}, rounds {solved.rounds}")
for place, to in enumerate(next_states[: 4 * solved.states]):
    if to != ABSENT:
        print(place // 4, place // 2 % 2, place % 2, to)
print(f"set of state 0: {sets[0]}")
counts = [ctypes.c_uint32(count) for count in (2, 2, solved.states)]
if library.mortarleaf_write_controller(*counts, *lent(next_states), *lent(record), ctypes.c_size_t(0)).number != 0:
    sys.exit(1)
answer = bytes(record[: 2 + record[0] + 256 * record[1]])
print("record:", answer.hex(" ").upper())
check("the answer", answer)
check("row 0 0 0 0 alone", ONE_ROW)
check("always 1", ALWAYS_1)
