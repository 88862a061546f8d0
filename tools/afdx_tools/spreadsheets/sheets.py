"""Tables as spreadsheets write them: CSV with commas, semicolons or tabs, or a workbook (.xlsx).
The first row names the columns."""
from __future__ import annotations

import csv
import io
from dataclasses import dataclass, field
from decimal import Decimal
from fractions import Fraction
from typing import Collection, Iterator, Mapping, NamedTuple

from afdx_tools.faults import Refused, shown
from afdx_tools.spreadsheets.heads import Head, columns_of
from afdx_tools.spreadsheets.workbooks import cells_of_workbook, is_workbook

DELIMITERS = ",;\t"
LONGEST = 40  # characters of a cell that are shown
LONGEST_CELL = 4_000  # characters of a cell
MOST_ROWS = 10_000


class Row(NamedTuple):
    """A row of a table: where it begins, the column that names it, its cells by their columns, and
    the heads of these columns."""

    place: str
    key: str
    cells: dict[str, str]
    heads: Mapping[str, Head]

    @property
    def name(self) -> str:
        """The row's name, as its cell has it."""
        return self.cells[self.key]

    def at(self, column: str) -> str:
        """The row and one of its cells, for a line to its user."""
        named = f"{self.place}, {shown(self.name)}" if self.name else self.place
        head = self.heads.get(column)
        return f"{named}: {head.written if head else column} {self.shown(column)}"

    def shown(self, column: str) -> str:
        """A cell as it can be printed."""
        text = self.cells[column]
        return shown(text if len(text) <= LONGEST else f"{text[:LONGEST]}..") or "(empty)"

    def factor(self, column: str) -> Fraction:
        """By what the numbers of a column are multiplied."""
        return self.heads[column].factor if column in self.heads else Fraction(1)

    def in_head(self, column: str, amount: Fraction | int) -> str:
        """An amount of a column in the unit of its head, which a power of ten makes of it."""
        number = Fraction(amount) / self.factor(column)
        return f"{(Decimal(number.numerator) / number.denominator).normalize():f}"


@dataclass
class Sheet:
    """A table: its file, its rows, its columns that no one asked for, and how many empty cells were
    filled from above."""

    path: str
    rows: list[Row] = field(default_factory=list)
    others: list[str] = field(default_factory=list)
    filled: int = 0

    @property
    def name(self) -> str:
        """The file's name as it can be printed."""
        return shown(self.path)

    def fill(self, above: Row | None, row: Row, column: str) -> None:
        """Gives an empty cell what stands in the row above."""
        if above and not row.cells[column] and above.cells[column]:
            row.cells[column] = above.cells[column]
            self.filled += 1


def text_of(path: str) -> str:
    """A file's text without a byte order mark, each line with a line feed at its end."""
    with open(path, "rb") as file:
        content = file.read()
    try:
        return content.decode("utf-8-sig").replace("\r\n", "\n").replace("\r", "\n")
    except UnicodeDecodeError as error:
        line = content.count(b"\n", 0, error.start) + 1
        text = f"{shown(path)} line {line}: it isn't UTF-8; save the table as CSV in UTF-8"
        raise Refused(text) from error


def delimiter_of(text: str) -> str:
    """What stands between the cells: the one of which the first line has most."""
    first = text.lstrip().partition("\n")[0]
    return max(DELIMITERS, key=first.count)


def cells_of(path: str) -> Iterator[tuple[int, list[str]]]:
    """The rows that aren't empty: the line at which each begins, its cells without the spaces
    around them."""
    rows = cells_of_workbook(path) if is_workbook(path) else cells_of_text(path, text_of(path))
    for line, cells in rows:
        if len(max(cells, key=len, default="")) > LONGEST_CELL:
            text = f"a cell has more than {LONGEST_CELL:,} characters"
            raise Refused(f"{shown(path)} line {line}: {text}")
        if any(cells):
            yield line, cells


def cells_of_text(path: str, text: str) -> Iterator[tuple[int, list[str]]]:
    """The rows of a CSV file."""
    reader = csv.reader(io.StringIO(text), delimiter=delimiter_of(text), strict=True)
    begin = 1
    try:
        for row in reader:
            yield begin, [cell.strip() for cell in row]
            begin = reader.line_num + 1
    except csv.Error as error:
        raise Refused(f"{shown(path)} line {begin}: {error}") from error


def row_of(
    place: str, heads: list[Head | None], columns: Mapping[str, bool], cells: list[str]
) -> Row:
    """A row; a column without a cell is empty."""
    if any(cells[len(heads) :]):
        raise Refused(f"{place}: it has more cells than the table has columns")
    found = dict.fromkeys(columns, "")
    found.update((head.column, cell) for head, cell in zip(heads, cells) if head)
    return Row(place, next(iter(columns)), found, {head.column: head for head in heads if head})


def read_sheet(
    path: str, columns: Mapping[str, bool], filled: Collection[str] = (), most: int = MOST_ROWS
) -> Sheet:
    """Reads a table. `columns` are those that are asked for, the first of which names a row, and
    whether each has to be there; of one that isn't the cells are empty. An empty cell of a column
    of `filled` gets the content of the one above."""
    sheet = Sheet(path)
    rows = cells_of(path)
    first = next(rows, (1, [""]))[1]
    heads = columns_of(path, first, columns)
    sheet.others = [shown(name.lower()) for name, head in zip(first, heads) if name and not head]
    above = None
    for line, cells in rows:
        row = row_of(f"{sheet.name} line {line}", heads, columns, cells)
        for column in filled:
            sheet.fill(above, row, column)
        sheet.rows.append(row)
        if len(sheet.rows) > most:
            raise Refused(f"{sheet.name}: it has more than {most:,} rows")
        above = row
    if not sheet.rows:
        raise Refused(f"{sheet.name}: no row stands below the names of the columns")
    return sheet
