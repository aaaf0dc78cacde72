"""Where the rows and parts of each source stand in the text of data."""
import json
import re

BLANK = re.compile(r"[ \t\r\n]*")


class Rows:
    """Of each source the pieces of text that are its rows and parts, as (from, to), in the order in which they
    are counted. A text that is no data of the form may be an IndexError, a KeyError or a ValueError."""

    def __init__(self, text):
        self.text, self.entries, self.of_source = text, {}, {}
        for name, start in self.members(0):
            self.entries[name] = start
            if text[start] == "[":
                self.of_source[name] = list(self.items(start))
            elif text[start] == "{":
                lists = dict(self.members(start))
                self.of_source[name] = [it for key in ("rows", "parts") if key in lists for it in self.items(lists[key])]

    def skip(self, place):
        return BLANK.match(self.text, place).end()

    def end_of(self, place):
        return json.JSONDecoder().raw_decode(self.text, place)[1]

    def members(self, place):
        """The names of an object, and where their values begin."""
        place = self.skip(self.skip(place) + 1)
        while self.text[place] != "}":
            name, place = json.JSONDecoder().raw_decode(self.text, place)
            value = self.skip(self.skip(place) + 1)
            yield name, value
            place = self.skip(self.end_of(value))
            place = self.skip(place + (self.text[place] == ","))

    def items(self, place):
        """Where the items of a list begin and end."""
        place = self.skip(place + 1)
        while self.text[place] != "]":
            end = self.end_of(place)
            yield place, end
            place = self.skip(end)
            place = self.skip(place + (self.text[place] == ","))
