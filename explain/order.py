"""What each variable reads, the dependency order, and the cycle shown (refusal 9)."""
from explain import words as w


def tests(formula):
    """The test words of a condition."""
    if w.kind(formula.word) == w.TEST:
        return [formula]
    return [test for operand in formula.operands for test in tests(operand)]


def watched(event):
    """The test words inside c of an event's changes; those in d read the past."""
    if w.kind(event.word) == w.CHANGE:
        return tests(event.operands[0])
    return [test for operand in event.operands for test in watched(operand)]


def reads(reading, variable):
    """Each variable read, with the index of the first word that names it."""
    table = reading.table_of(variable)
    if table is None:
        return {}
    condition = table.sort == w.CONDITION_TABLE
    named = {table.mode_class: table.index} if condition and table.mode_class is not None else {}
    for row in table.rows:
        for test in tests(row.formula) if condition else watched(row.formula):
            named.setdefault(w.field(test.word, 27, 20), test.index)
    return named


def dependency_order(reading):
    """The variables taken, the lowest first whose reads are all taken; those left out are stuck."""
    read = [reads(reading, variable) for variable in range(len(reading.variables))]
    taken = []
    while True:
        ready = (v for v in range(len(read)) if v not in taken and all(b in taken for b in read[v]))
        lowest = next(ready, None)
        if lowest is None:
            return taken
        taken.append(lowest)


def cycle(reading):
    """The variables of the cycle shown, from the one carried on, and the word by which each reads the next; none without a cycle."""
    taken = dependency_order(reading)
    stuck = [v for v in range(len(reading.variables)) if v not in taken]
    if not stuck:
        return []
    move = {v: min(b for b in reads(reading, v) if b in stuck) for v in stuck}
    shown = stuck[0]
    for _ in range(w.CYCLE_MOVES):
        shown = move[shown]
    moves = [shown]
    while move[moves[-1]] != shown:
        moves.append(move[moves[-1]])
    return [(v, reads(reading, v)[move[v]]) for v in moves]
