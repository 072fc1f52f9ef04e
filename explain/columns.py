"""Text in columns, and long lines broken where a reader would break them."""
import itertools

# A formula is broken before one of these, which then starts the next line.
OPERATORS = ("or", "and", "WHEN")


def aligned(rows):
    """Rows of cells as lines, indented by two blanks. A cell is a text or a list of lines, one below the other."""
    rows = [[[cell] if isinstance(cell, str) else cell for cell in row] for row in rows]
    widths = [max(len(line) for cell in column for line in cell) for column in zip(*rows)]
    return [
        "  " + "  ".join(map(str.ljust, parts, widths)).rstrip()
        for row in rows
        for parts in itertools.zip_longest(*row, fillvalue="")
    ]


def filled(parts, width):
    """The parts in lines, in each as many as fit and one at least."""
    lines = []
    for part in parts:
        if lines and len(lines[-1]) + 1 + len(part) <= width:
            lines[-1] += f" {part}"
        else:
            lines.append(part)
    return lines


def broken(formula, width):
    """A formula's text in lines: broken before its outermost operators, and a part that is still too long before those inside it."""
    if len(formula) <= width:
        return [formula]
    words = formula.split(" ")
    depths = itertools.accumulate((word.count("(") - word.count(")") for word in words), initial=0)
    operators = [(depth, at) for at, (word, depth) in enumerate(zip(words, depths)) if at and word in OPERATORS]
    if not operators:
        return [formula]
    outermost = min(operators)[0]
    cuts = [0, *(at for depth, at in operators if depth == outermost), len(words)]
    lines = []
    for line in filled([" ".join(words[start:end]) for start, end in zip(cuts, cuts[1:])], width):
        first, *others = [line] if len(line) <= width else broken(line, width - 2)
        lines += [first, *(f"  {other}" for other in others)]
    return lines
