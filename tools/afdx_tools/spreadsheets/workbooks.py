"""Tables as workbooks (.xlsx), read by openpyxl within bounds: of bytes, rows and columns."""
from __future__ import annotations

import datetime
import os
import warnings
import zipfile
from typing import Iterator

from afdx_tools.faults import Refused, shown

BEGIN = b"PK\x03\x04"
MOST_BYTES = 16_777_216  # of all that is packed in a workbook
MOST_PARTS = 1_000
MOST_LINES, MOST_COLUMNS = 20_000, 100  # of the first sheet, empty ones too


def is_workbook(path: str) -> bool:
    """Does a file begin as a workbook does? A pipe can be read only once, and is none."""
    if not os.path.isfile(path):
        return False
    with open(path, "rb") as file:
        return file.read(len(BEGIN)) == BEGIN


def refuse_packed(path: str) -> None:
    """Refuses what is no sound archive, or unpacks to more than a table is. No part unpacks to more
    than the archive says: zipfile stops there."""
    with zipfile.ZipFile(path) as packed:
        parts = packed.infolist()
    if len(parts) > MOST_PARTS or sum(part.file_size for part in parts) > MOST_BYTES:
        text = f"unpacked it has more than {MOST_BYTES:,} bytes or {MOST_PARTS:,} parts"
        raise Refused(f"{shown(path)}: {text}")


def text_of(value: object) -> str:
    """A cell as it would stand in a CSV file."""
    if value is None:
        return ""
    if isinstance(value, float):
        return str(int(value)) if value.is_integer() else repr(value)
    if isinstance(value, datetime.datetime) and value.time() == datetime.time():
        return value.date().isoformat()
    return str(value)


def rows_of(path: str) -> Iterator[tuple[int, list[str]]]:
    """The rows of the first sheet: the number of each, its cells."""
    try:
        import openpyxl
    except ModuleNotFoundError as error:
        text = "to read .xlsx python3-openpyxl is needed (apt-get install python3-openpyxl)"
        raise Refused(f"{shown(path)}: {text}") from error
    with warnings.catch_warnings():
        warnings.simplefilter("ignore")
        book = openpyxl.load_workbook(path, read_only=True, data_only=True, keep_links=False)
        try:
            sheet = book.worksheets[0]
            rows = sheet.iter_rows(max_col=MOST_COLUMNS + 1, values_only=True)
            for number, row in enumerate(rows, 1):
                if number > MOST_LINES or (len(row) > MOST_COLUMNS and row[-1] is not None):
                    text = f"more than {MOST_LINES:,} rows or {MOST_COLUMNS} columns"
                    raise Refused(f"{shown(path)}: its first sheet has {text}")
                yield number, [text_of(value).strip() for value in row]
        finally:
            book.close()


def cells_of_workbook(path: str) -> Iterator[tuple[int, list[str]]]:
    """The rows of the first sheet; Refused where it isn't a workbook that can be read."""
    try:
        refuse_packed(path)
        yield from rows_of(path)
    except (Refused, OSError, GeneratorExit):
        raise
    except Exception as error:  # openpyxl has no one fault for what is no workbook
        text = f"it can't be read as a workbook ({type(error).__name__})"
        raise Refused(f"{shown(path)}: {text}") from error
