"""The JSON schema of a configuration, for editors that check TOML by one, from the tables of keys
of afdx_config: names, ranges, words and what each key is."""
from __future__ import annotations

import json
import re

from printing.sources import TOP, text_of

TABLES = [TOP / f"crates/afdx_config/src/{name}.rt" for name in ("key_tables", "cascade_keys")]
TABLE = re.compile(r"^pub const ([A-Z]+)_KEYS: \[Key; \d+\] = \[(.*?)^\];", re.S | re.M)
TEXT = r'"(?:[^"\\]|\\.)*"'
KEY = re.compile(rf'\(\s*"(\w+)",\s*(\d+),\s*(\d+),\s*({TEXT}),\s*([A-Z_]+|{TEXT}),?\s*\)', re.S)
CONSTANT = rf"const {{}}: &str = ({TEXT});"
TABLES_OF = {"system": "SYSTEM", "link": "LINK", "port": "PORT", "neighbour": "NEIGHBOUR",
             "switch": "CASCADE"}  # fmt: skip
SOLVED = ("buffer", "jitter_us", "latency_us", "skew_us")  # `afdx solve` finds these
NAME = {"type": "string", "pattern": "^[A-Za-z0-9]{1,16}$"}
NAMED = ("name", "from", "system")  # keys whose value is a name
Schema = dict


def plain(text: str) -> str:
    """A text of the source as the program prints it."""
    return re.sub(r"\\\n\s*", "", text.strip('"')).replace('\\"', '"').replace("\\n", "\n")


def value_of(name: str, least: int, most: int, text: str) -> Schema:
    """What a key's value may be."""
    said = text.split(": ", 1)[-1].split("\n")[0]
    if name in TABLES_OF and "tables" in said:
        items = {"$ref": f"#/definitions/{name}"}
        return {"type": "array", "minItems": least, "maxItems": most, "items": items}
    if name == "to":
        return {"type": "array", "minItems": least, "maxItems": most, "uniqueItems": True,
                "items": NAME}  # fmt: skip
    if words := re.findall(r'"(\w+)"', said):
        return {"enum": words}
    if name in NAMED:
        return dict(NAME)
    if found := re.search(r"((?:\d+, )*\d+ or \d+)(?:; with profile 2 also (\d+))?", said):
        numbers = " ".join(filter(None, found.groups()))
        return {"enum": [int(each) for each in re.findall(r"\d+", numbers)]}
    return {"type": "integer", "minimum": least, "maximum": most}


def part_of(body: str, source: str) -> tuple[Schema, list[str]]:
    """The keys of a part, and those that have to be there."""
    keys: Schema = {}
    needed: list[str] = []
    for name, least, most, forms, text in KEY.findall(body):
        if not text.startswith('"'):
            found = re.search(CONSTANT.format(text), source, re.S)
            assert found is not None
            text = found[1]
        said = plain(text)
        keys[name] = {**value_of(name, int(least), int(most), said),
                      "description": said.replace("\n", " ")}
        if name not in SOLVED and ("Missing" in forms or "BadProfile" in forms):
            needed.append(name)
    return keys, needed


def closed(keys: Schema, needed: list[str]) -> Schema:
    """A table with these keys and no others."""
    return {"type": "object", "properties": keys, "required": needed, "additionalProperties": False}


def printed() -> str:
    """The schema."""
    source = "\n".join(text_of(table) for table in TABLES)
    parts = {part: part_of(body, source) for part, body in TABLE.findall(source)}
    switches = parts["CASCADE"][0].pop("switch")
    top, profile = parts["TOP"][0], parts["TOP"][0]["profile"]
    of_switch = {"profile": profile, **parts["CASCADE"][0]}
    needed = ["name", "profile"]
    schema = {
        "$schema": "http://json-schema.org/draft-07/schema#",
        "title": "A configuration of afdx",
        "description": "Printed by bin/pages. What keys have to be together, afdx check says. "
                       "buffer, jitter_us, latency_us and skew_us may be absent for afdx solve.",
        **closed({**top, "switch": switches}, []),
        "oneOf": [{"required": ["profile"], "not": {"required": ["switch"]}},
                  {"required": ["switch"], "maxProperties": 1}],
        "definitions": {
            "switch": closed(of_switch, needed),
            **{name: closed(*parts[part]) for name, part in TABLES_OF.items() if name != "switch"},
        },
    }
    return json.dumps(schema, indent=2) + "\n"
