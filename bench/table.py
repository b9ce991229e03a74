"""Tables in Markdown."""


def shown(rows):
    """A table of rows of words, the first of them its head; numbers are aligned to the right."""
    rows = list(rows)
    widths = [max(map(len, column)) for column in zip(*rows)]
    are_numbers = [all(map(is_number, column[1:])) for column in zip(*rows)]
    rule = [ruled(width, numbers) for width, numbers in zip(widths, are_numbers)]
    return "\n".join(shown_row(row, widths, are_numbers) for row in [rows[0], rule, *rows[1:]])


def is_number(cell):
    return cell[:1].isdigit()


def ruled(width, numbers):
    """The cells below the head of a column."""
    return "-" * (width - 1) + ":" if numbers else "-" * width


def shown_row(cells, widths, are_numbers):
    padded = map(padded_cell, cells, widths, are_numbers)
    return f"| {' | '.join(padded)} |"


def padded_cell(cell, width, is_right):
    return cell.rjust(width) if is_right else cell.ljust(width)
