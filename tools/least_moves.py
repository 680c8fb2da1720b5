"""Least number of moves for argument lists on a small machine, by breadth-first search.

The machine: registers 0, 1, 2 take the first three arguments; register 3 is the scratch; local slots 0 and 1;
outgoing slots 0 and 1 take the fourth and fifth argument. Every register and local slot may be spoiled.
Prints each list with its least number of moves, then the same rows as Rattle source of a const table.
Assumes nothing but Python 3.
"""

# Cells of the machine, by index: registers 0..3, local slots 4..5, outgoing slots 6..7.
REGISTERS = [0, 1, 2, 3]
LOCALS = [4, 5]
OUTGOING = [6, 7]
CELLS = 8
PLACES = [0, 1, 2, 6, 7]  # the place of argument 0, 1, 2, 3, 4
SOURCE_CELL = {"r0": 0, "r1": 1, "r2": 2, "l0": 4, "l1": 5}  # numbers have no cell

BITS = 3  # a cell of a state is one value in three bits: 0 for junk, else 1 + index of a named source
MASK = (1 << BITS) - 1
JUNK = 0


def outgoing_slots(arguments):
    """The outgoing slots reserved: 8 bytes for each argument past the third, rounded up to 16."""
    reserved = (8 * max(0, arguments - 3) + 15) // 16 * 16
    return OUTGOING[: reserved // 8]


def copies(arguments):
    """The moves from cell to cell, as (from, to)."""
    outgoing = outgoing_slots(arguments)
    moves = [(s, d) for d in REGISTERS for s in REGISTERS if s != d]  # copy d s
    moves += [(n, d) for d in REGISTERS for n in LOCALS]  # fetch d n
    moves += [(o, d) for d in REGISTERS for o in outgoing]  # back d o
    moves += [(s, o) for o in outgoing for s in REGISTERS]  # store o s
    moves += [(s, n) for n in LOCALS for s in REGISTERS]  # keep n s
    return moves


def least(sources):
    """The least number of moves that brings every source's first value to its argument's place.

    A state gives each cell's origin. Two cuts keep it small, and neither changes the answer:
    1. Every origin that the list does not name is one value, JUNK (unknown too). Moves only carry values from cell
       to cell and never look at them, so renaming origins commutes with every move; and the goal asks for named
       origins only, so a list of moves is right before the renaming if and only if it is right after it.
    2. A move that writes JUNK is left out (so also `set` of a number not named). Drop such a move from a right list
       of moves: only values that come from that write change, and no place ends with one of those, as it would be
       JUNK. So the rest is right too and is shorter, and a least list has no such move.
    A move that leaves the state as it is leads to a state already seen.
    """
    named = sorted(set(sources))
    value = {source: 1 + index for index, source in enumerate(named)}
    start = sum(value[s] << BITS * SOURCE_CELL[s] for s in named if s in SOURCE_CELL)
    places = [BITS * place for place in PLACES]
    goal = sum(value[s] << place for s, place in zip(sources, places))
    goal_mask = sum(MASK << place for _, place in zip(sources, places))
    full = (1 << BITS * CELLS) - 1
    carry = [(BITS * s, full ^ (MASK << BITS * d), BITS * d) for s, d in copies(len(sources))]
    sets = [(full ^ (MASK << BITS * d), value[k] << BITS * d)
            for d in REGISTERS for k in named if k not in SOURCE_CELL]  # set d k

    seen = bytearray(1 << BITS * CELLS)
    seen[start] = 1
    level, depth = [start], 0
    while level:
        if any(state & goal_mask == goal for state in level):
            return depth
        following = []
        for state in level:
            for source, others, place in carry:
                moved = state >> source & MASK
                if moved != JUNK:
                    after = state & others | moved << place
                    if not seen[after]:
                        seen[after] = 1
                        following.append(after)
            for others, number in sets:
                after = state & others | number
                if not seen[after]:
                    seen[after] = 1
                    following.append(after)
        level, depth = following, depth + 1
    raise ValueError("no list of moves is right: " + " ".join(sources))


# The rows: all lists of three registers, then chosen lists, parted by commas (the empty text is the empty list).
THREE_REGISTERS = [[a, b, c] for a in ("r0", "r1", "r2") for b in ("r0", "r1", "r2") for c in ("r0", "r1", "r2")]
CHOSEN = [
    # none, one and two arguments
    "", "r0, r1, r2, l0, k5",
    "r0 r0, r0 r1, r1 r0, r1 r1, r1 r2, r2 r0, l0 r0, r1 l0, l0 l1, k5 k5, k7 l0, r1 k5",
    # values among three arguments in registers
    "r1 r0 k5, l0 r0 r1, l1 r2 r1, k5 k7 l1",
    # exchanges and rings, with a fourth argument
    "r1 r0 r2 r0, r1 r0 r2 r1, r1 r0 r2 r2, r1 r0 r2 k5, r1 r0 r2 l0, r2 r1 r0 r1, r2 r1 r0 r2, r0 r2 r1 r0, r0 r2 r1 r2",
    "r1 r2 r0 r0, r1 r2 r0 r1, r1 r2 r0 r2, r1 r2 r0 k5, r1 r2 r0 l1, r2 r0 r1 r1",
    # exchanges and rings, with a fourth and a fifth argument
    "r1 r0 r2 r0 r1, r1 r0 r2 r2 r2, r1 r0 r2 r2 r0, r1 r0 r2 k5 k7, r1 r0 r2 l0 l0, r1 r0 r2 r1 k5, r1 r0 k5 k5 k7",
    "r2 r1 r0 r1 l0, r1 r2 r0 r0 r1, r1 r2 r0 l0 k5, r1 r2 r0 k7 r2, r2 r0 r1 l0 l1, r2 r0 r1 k7 k7",
    # values in outgoing slots only
    "r0 r1 r2 k5, r0 r1 r2 l0, r0 r1 r2 k5 k5, r0 r1 r2 k5 k7, r0 r1 r2 l0 l0, r0 r1 r2 l0 l1, r0 r1 r2 l1 k7",
    # values in outgoing slots and in registers, and mixed lists
    "k5 r1 r2 k5, l0 r0 r1 l0, r1 r0 l1 l1, l0 r1 r2 l0 l0, k5 k7 r0 k7 k5, l1 k5 r2 l1 k7, k5 k5 k5 k5 k5",
    "l1 l0 l1 l0 l1, l0 l1 k5 k7 r0, l0 l1 k5 r2 r1, k7 r0 r1 l0 k7, r2 l0 r0 l0 l1, r0 r0 r0 r0 r0, r1 r2 k5 r0 r0",
]


def rows():
    """All rows, each a list of sources."""
    return THREE_REGISTERS + [row.split() for line in CHOSEN for row in line.split(",")]


RATTLE = {"r": "R{}", "l": "L{}", "k": "K{}"}


def main():
    table = [(row, least(row)) for row in rows()]
    for row, count in table:
        print(" ".join(row + ["=", str(count)]))
    print()
    for row, count in table:
        sources = ", ".join(RATTLE[source[0]].format(source[1:]) for source in row)
        print(f"(&[{sources}], {count}),")


if __name__ == "__main__":
    main()
