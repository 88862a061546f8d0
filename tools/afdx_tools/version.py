"""Which release the tools belong to. Its number stands in one place, the program's source."""
from __future__ import annotations

import os
import re

# In an install the number lies beside the tools, where bin/install put it. No other module of the
# package is imported here: setuptools reads NUMBER before there is a package.
TOOLS = os.path.dirname(os.path.dirname(os.path.realpath(__file__)))
INSTALLED = os.path.join(TOOLS, "version")
SOURCE = os.path.join(TOOLS, "..", "crates", "afdx_command_words", "src", "words.rt")


def number() -> str:
    """The release's number, as 0.1.0."""
    for path, form in ((INSTALLED, r"^(\S+)"), (SOURCE, r'VERSION: &str = "(\S+) ')):
        try:
            with open(path, encoding="utf-8") as file:
                found = re.search(form, file.read())
        except OSError:
            continue
        if found:
            return found[1]
    from importlib import metadata  # of a package that pip installed

    try:
        return metadata.version("afdx-tools")
    except metadata.PackageNotFoundError:
        return "of unknown version"


NUMBER = number()
