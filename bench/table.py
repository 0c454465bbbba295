"""Tables in Markdown, whose rows are printed as they come."""


class Table:
    """A table with these columns, each a name and a width."""

    def __init__(self, *columns):
        self.widths = [max(width, len(name)) for name, width in columns]
        self.print_row([name for name, _ in columns])
        self.print_row(["-" * width for width in self.widths])

    def print_row(self, cells):
        """Prints a row at once, so that a long run shows how far it is."""
        first, *numbers = zip(cells, self.widths)
        padded = [first[0].ljust(first[1])] + [cell.rjust(width) for cell, width in numbers]
        print("| " + " | ".join(padded) + " |", flush=True)


def ratios(values):
    """How many times each of the other values the last one is."""
    *others, last = values
    return [f"{last / other:.2f}" if other else "-" for other in others]


def ratio_columns(names):
    """The columns of `ratios`."""
    *others, last = names
    return [(f"{last}/{other}", 7) for other in others]
