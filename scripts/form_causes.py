"""What is behind a break of a topology's form: what its key may hold, and what it holds, by the schema for editors."""
import difflib
import json
import os

from schemas import is_of

# The keys that stand only beside others.
BESIDE = {
    "columns": "a stock body has columns, and nothing else in a component",
    "split": "only the stock body split has it",
    "keys": "only the stock body latest has it",
    "key": "the modes pass and seal have it, and no other",
    "gate": "only the notes OR and OW have it",
    "inputs": "only a component without a body has it",
    "outputs": "only a component without a body has it",
    "module": "a component has one body, module or stock",
    "stock": "a component has one body, module or stock",
    "types": "only a file of format 2 has it",
}


def read_schema(scripts):
    with open(os.path.join(scripts, "editors", "topology.schema.json"), encoding="utf-8") as file:
        return json.load(file)


class Form:
    """What the schema tells of the tables of a topology."""

    def __init__(self, schema):
        self.schema, self.definitions = schema, schema["definitions"]

    def fits(self, value, part):
        return is_of(value, part, self.schema)

    def followed(self, part):
        """A part of the schema with what stands where it leads."""
        leads = [it["$ref"] for it in [part, *part.get("allOf", [])] if "$ref" in it]
        return {**self.definitions[leads[0].rpartition("/")[2]], **part} if leads else part

    def told_of_top(self, topology, key):
        """A break at a key of the top."""
        known = self.schema["properties"]
        if key in topology and key in self.definitions:
            return f"write [[{key}]], with two brackets on either side, for each {key}"
        return self.told_of_key(topology, known, key)

    def told_of_key(self, table, known, key):
        """A break at a key of a table, told the keys that are known there."""
        if key not in known:
            near = difflib.get_close_matches(key, known, 1)
            return f"there is no key `{key}`; " + (f"the nearest is `{near[0]}`" if near else f"there are {', '.join(known)}")
        part = self.followed(known[key])
        if key not in table:
            others = difflib.get_close_matches(key, [it for it in table if it not in known], 1)
            why = f"`{others[0]}` is no key" if others else BESIDE.get(key) or f"it is {self.form_of(part)}"
            return f"the key `{key}` is missing; {why}"
        lengths = [len(table[it]) for it in ("types", "columns") if isinstance(table.get(it), list)]
        if key == "types" and len(set(lengths)) == 2:
            return f"types has {lengths[0]} of them, and columns has {lengths[1]}"
        if key in BESIDE and self.fits(table[key], known[key]):
            return BESIDE[key]
        if key == "notes" and isinstance(table[key], list):
            return self.told_of_notes(table[key])
        return self.told_of_value(part, key, table[key])

    @staticmethod
    def form_of(part):
        return f"one of {', '.join(map(str, part['enum']))}" if "enum" in part else part.get("title", part["type"])

    def told_of_value(self, part, key, value):
        items = part.get("items")
        bad = [it for it in value if not self.fits(it, items)] if items and isinstance(value, list) else []
        here = f"and {json.dumps(bad[0], default=str)} is none" if bad else f"and here it is {json.dumps(value, default=str)}"
        if items and self.fits(value, items):
            here = f"also where there is one: {json.dumps([value])}"
        return f"{key} is {self.form_of(part)}, {here}"

    def told_of_notes(self, notes):
        """The first break in a list of notes."""
        part = self.definitions["note"]
        number, note = next((number, it) for number, it in enumerate(notes, 1) if not self.fits(it, part))
        if not isinstance(note, dict):
            return self.told_of_value(part, f"note {number}", note)
        known = part["properties"]
        missing = [it for it in part["required"] if it not in note]
        unknown = [it for it in note if it not in known]
        wrong = [it for it in note if it in known and not self.fits(note[it], known[it])]
        return f"note {number}: {self.told_of_key(note, known, [*missing, *wrong, *unknown, 'gate'][0])}"

    def told(self, topology, kind, number, key):
        """A break in an entry."""
        return self.told_of_key(topology[kind][number - 1], self.definitions[kind]["properties"], key)

    def about(self, kind, key):
        """What a key is for, or nothing."""
        description = self.definitions[kind]["properties"].get(key, {}).get("description")
        return f"{key}: {description}" if description else None
