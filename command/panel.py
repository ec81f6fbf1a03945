"""The bits of a panel program as a table: address, name, the word that it was written with, and start value."""
NOTHING = "-"
HEADING = ("address", "name", "word", "start")


def row(cells):
    """Where there is no value, the table says so."""
    return tuple(NOTHING if cell is None else str(cell) for cell in cells)


def laid_out(lines):
    widths = [max(map(len, column)) for column in zip(*lines)]
    return "".join("  ".join(cell.ljust(width) for cell, width in zip(line, widths)).rstrip() + "\n" for line in lines)


def table(bits):
    return laid_out([HEADING, *map(row, bits)])
