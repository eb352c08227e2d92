"""A slow model of the program `universe`: a founding text and a script come in, answers and a dump go out.

    model.py [dump] [plainly] < INPUT > OUTPUT

With `plainly` every second passes by itself. Without it the seconds in which nothing is due pass at once.
"""

import re
import sys
import time
from collections import Counter
from dataclasses import dataclass, field

from fleets import OUT
from tables import BUILDINGS, DOMES, KINDS, SHIPS, TECHNOLOGIES, UNITS, WORKS
from universe import GRAINS, MOST_STOCK, MOST_UNITS, Account, Planet, Refused, Universe, line

LAST_SECOND = 2**40 - 1
LONGEST_LINE = 400
BAD_FOUNDING = 11


class BadLine(Exception):
    """A line that is not one of the forms, or that is not good by the lines before it."""


# Words.


def number(word, least, most):
    if not re.fullmatch("0|[1-9][0-9]*", word) or not least <= int(word) <= most:
        raise BadLine
    return int(word)


def temperature(word):
    if re.fullmatch("-[1-9][0-9]*", word):
        return -number(word[1:], 1, 130)
    return number(word, 0, 260)


def coordinate(word):
    parts = word.split(":")
    if len(parts) != 3:
        raise BadLine
    return tuple(number(part, 1, most) for part, most in zip(parts, (9, 499, 15)))


def one_of(words):
    def read(word):
        if word not in words:
            raise BadLine
        return word

    return read


def from_to(least, most):
    return lambda word: number(word, least, most)


def system(word):
    parts = word.split(":")
    if len(parts) != 2:
        raise BadLine
    return tuple(number(part, 1, most) for part, most in zip(parts, (9, 499)))


def some_ships(word):
    """UNIT=COUNT joined by commas, the kinds rising by number."""
    ships, last = Counter(), -1
    for part in word.split(","):
        ship, _, count = part.partition("=")
        if ship not in SHIPS or SHIPS.index(ship) <= last:
            raise BadLine
        last = SHIPS.index(ship)
        ships[ship] = number(count, 1, MOST_UNITS)
    return ships


player_number = from_to(1, 65535)
amount = from_to(0, MOST_STOCK)
FORMS = {
    "planet": [coordinate],
    "account": [],
    "build": [coordinate, one_of(BUILDINGS)],
    "research": [coordinate, one_of(TECHNOLOGIES)],
    "yard": [coordinate, one_of(UNITS), from_to(1, MOST_UNITS)],
    "set": [coordinate, one_of(WORKS), from_to(0, 10)],
    "fleets": [],
    "system": [system],
    "send": [coordinate, coordinate, one_of(["transport", "deploy", "harvest", "attack"]), from_to(1, 10), some_ships, amount, amount, amount],
    "join": [from_to(1, LAST_SECOND), coordinate, coordinate, from_to(1, 10), some_ships, amount, amount, amount],
    "recall": [from_to(1, LAST_SECOND)],
}


def read_words(words, readers):
    if len(words) != len(readers):
        raise BadLine
    return [read(word) for read, word in zip(readers, words)]


def read_request(text):
    """The reading, the player, the form and its further words of a line of the script."""
    words = text.split(" ")
    reading = None
    if words[0].startswith("@"):
        reading = number(words.pop(0)[1:], 0, LAST_SECOND)
    if len(words) < 2 or words[1] not in FORMS:
        raise BadLine
    player = player_number(words[0])
    return reading, player, words[1], read_words(words[2:], FORMS[words[1]])


def split_lines(data):
    """The lines of an input. A last line counts if it isn't empty, and keeps all its bytes."""
    *lines, last = data.decode("latin-1").split("\n")
    lines = [text.removesuffix("\r") for text in lines]
    return lines + [last] if last else lines


# The founding text.


def demand(holds):
    if not holds:
        raise BadLine


class Founding:
    def __init__(self, first_line):
        words = first_line.split(" ")
        demand(words[0] == "universe")
        readers = [from_to(0, 2**64 - 1), from_to(1, 100), from_to(1, 262144), from_to(0, LAST_SECOND)]
        seed, speed, _, moment = read_words(words[1:], readers)
        self.universe = Universe(seed, speed, moment)
        self.said = set()

    def say_once(self, *what):
        demand(what not in self.said)
        self.said.add(what)

    def read(self, text):
        form, *words = text.split(" ")
        readers = {
            "player": [player_number],
            "planet": [coordinate, player_number, temperature, from_to(1, 400)],
            "stock": [coordinate] + [from_to(0, MOST_STOCK)] * 3,
            "level": [coordinate, one_of(BUILDINGS), from_to(1, 30)],
            "tech": [player_number, one_of(TECHNOLOGIES), from_to(1, 20)],
            "units": [coordinate, one_of(UNITS), from_to(1, MOST_UNITS)],
        }
        demand(len(text) <= LONGEST_LINE and form in readers)
        getattr(self, form)(*read_words(words, readers[form]))

    def player(self, player):
        demand(player not in self.universe.accounts and len(self.universe.accounts) < 10000)
        self.universe.accounts[player] = Account(player)

    def planet(self, place, owner, degrees, fields):
        demand(place not in self.universe.planets and owner in self.universe.accounts)
        demand(len(self.universe.planets) < 20000 and len(self.universe.planets_of(owner)) < 9)
        self.universe.planets[place] = Planet(place, owner, degrees, fields)

    def named_planet(self, place):
        demand(place in self.universe.planets)
        return self.universe.planets[place]

    def stock(self, place, *stock):
        planet = self.named_planet(place)
        self.say_once("stock", place)
        planet.grains = [units * GRAINS for units in stock]

    def level(self, place, word, level):
        planet = self.named_planet(place)
        self.say_once("level", place, word)
        planet.levels[word] = level
        demand(level <= KINDS[word].cap and planet.used() <= planet.fields)

    def tech(self, player, word, level):
        demand(player in self.universe.accounts and level <= KINDS[word].cap)
        self.say_once("tech", player, word)
        self.universe.accounts[player].levels[word] = level

    def units(self, place, unit, count):
        planet = self.named_planet(place)
        self.say_once("units", place, unit)
        demand(unit not in DOMES or count == 1)
        planet.units[unit] = count
        demand(self.universe.units_of(planet.owner) <= MOST_UNITS)


def found(lines):
    """The universe of the founding text, and the lines after it; or the number of the first bad line."""
    founding = None
    for index, text in enumerate(lines):
        try:
            if founding is None:
                founding = Founding(text)
            elif text == ".":
                return founding.universe, lines[index + 1 :]
            else:
                founding.read(text)
        except BadLine:
            return None, index + 1
    return None, len(lines) + 1


# The script.


@dataclass
class Stand:
    """How a cell stood at its last touch: the second, its lines, its fleets, and the research of an account."""

    second: int
    lines: list
    fleets: list
    research: list = field(default_factory=list)


@dataclass
class Link:
    """A fleet that belongs to a cell: its number, who owns it, whether it flies out, when it lands, and all its cells."""

    number: int
    owner: int
    outbound: bool
    second: int
    cells: set


def link_of(fleet):
    cells = {("planet", fleet.origin), ("account", fleet.owner)}
    if fleet.stage == OUT:
        cells |= {("planet", fleet.target), ("account", fleet.target_owner)}
    return Link(fleet.number, fleet.owner, fleet.stage == OUT, fleet.second, cells)


class Run:
    """A universe that is asked, with the last touch of each of its cells."""

    def __init__(self, universe, plainly=False):
        self.universe = universe
        self.plainly = plainly
        self.last_number = 0
        self.stands = {}
        self.touch([("account", player) for player in universe.accounts])
        self.touch([("planet", place) for place in universe.planets])

    def answer(self, text):
        if len(text) > LONGEST_LINE:
            return ["bad 2"]
        try:
            reading, player, form, words = read_request(text)
        except BadLine:
            return ["bad 1"]
        reading = int(time.time()) if reading is None else reading
        return self.answer_request(max(reading, self.universe.moment), player, form, words)

    def answer_request(self, moment, player, form, words):
        cells = self.touched_cells(moment, player, form, words)
        self.universe.pass_to(moment, self.plainly)
        self.last_number += 1
        try:
            lines = [f"ok {self.last_number} {moment}", *self.act(player, form, words), "."]
        except Refused as refused:
            lines = [f"no {self.last_number} {moment} {refused.code}"]
        self.touch(cells)
        return lines

    def act(self, player, form, words):
        universe = self.universe
        if form == "planet":
            return universe.ask_planet(player, *words)
        if form == "account":
            return universe.ask_account(player)
        if form == "set":
            return universe.set_work(player, *words)
        asks = {"fleets": universe.ask_fleets, "system": universe.ask_system, "recall": universe.recall}
        if form in asks:
            return asks[form](player, *words)
        orders = {
            "build": universe.order_building,
            "research": universe.order_research,
            "yard": universe.order_units,
            "send": universe.send,
            "join": universe.join,
        }
        return orders[form](self.last_number, player, *words)

    def touched_cells(self, moment, player, form, words):
        """What a request touches: what it names, and all without which this can't be brought to the moment."""
        if player not in self.universe.accounts:
            return set()
        touched, new = set(), {("account", player), *self.named_cells(player, form, words)}
        while new:
            touched |= new
            new = {cell for known in new for cell in self.needed_cells(known, moment)} - touched
        return touched

    def named_cells(self, player, form, words):
        """The planets at the places that it names, those of a system, or the cells of a fleet that flies out."""
        planets = self.universe.planets
        if form == "system":
            return [("planet", place) for place in planets if place[:2] == words[0]]
        if form == "recall":
            fleets = self.stands["account", player].fleets
            flown = [link for link in fleets if link.number == words[0] and link.owner == player and link.outbound]
            return [cell for link in flown for cell in link.cells]
        return [("planet", place) for place in words[:3] if isinstance(place, tuple) and place in planets]

    def needed_cells(self, cell, moment):
        """The owner of a planet, the planets of research that waits, and the cells of fleets that land, by the last touch."""
        kind, name = cell
        stand = self.stands[cell]
        if kind == "planet":
            yield "account", self.universe.planets[name].owner
        if stand.research and stand.research[0][0] <= moment:
            yield from (("planet", place) for _, place in stand.research[1:])
        for link in stand.fleets:
            if link.second <= moment:
                yield from link.cells

    def touch(self, cells):
        for cell in cells:
            self.stands[cell] = self.stand_of(cell)

    def stand_of(self, cell):
        universe, (kind, name) = self.universe, cell
        fleets = [link for link in map(link_of, universe.fleets) if cell in link.cells]
        others = [link for link in fleets if kind == "planet" or link.owner != name]
        links = [line("link", link.number, link.second) for link in others]
        if kind == "planet":
            return Stand(universe.moment, universe.planet_lines(universe.planets[name]) + links, fleets)
        account = universe.accounts[name]
        research = [(item.second, item.place) for item in account.research]
        lines = universe.account_lines(account) + universe.fleet_lines(name) + links
        return Stand(universe.moment, lines, fleets, research)

    def dump(self):
        for cell, stand in sorted(self.stands.items()):
            kind, name = cell
            named = name if kind == "account" else ":".join(map(str, name))
            yield line("cell", kind, named, "at", stand.second)
            yield from stand.lines
        yield "."


def output_of(data, dumped, plainly):
    """All lines of the output, and the status."""
    universe, rest = found(split_lines(data))
    if universe is None:
        return [f"bad founding {rest}"], BAD_FOUNDING
    run = Run(universe, plainly)
    lines = [answer for text in rest for answer in run.answer(text)]
    return lines + list(run.dump()) if dumped else lines, 0


def main():
    words = sys.argv[1:]
    lines, status = output_of(sys.stdin.buffer.read(), "dump" in words, "plainly" in words)
    sys.stdout.write("".join(text + "\n" for text in lines))
    return status


if __name__ == "__main__":
    sys.exit(main())
