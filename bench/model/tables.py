"""The tables of the game, read from docs/RULES.md."""

import re
from pathlib import Path

RULES = Path(__file__).resolve().parents[2] / "docs" / "RULES.md"
WORD = re.compile(r"`([a-z]+)`")
DRIVES = ["combustion", "impulse", "hyperspace"]
WORD_AND_LEVEL = re.compile(r"`([a-z]+)` ([0-9]+)")


class Kind:
    """A building, a technology, a ship or a defence."""

    def __init__(self, number, word, first_cost, growth, cap):
        self.number = number
        self.word = word
        self.first_cost = first_cost
        self.growth = growth
        self.cap = cap
        self.cargo = 0
        self.attack = 0
        self.shield = 0
        self.engines = []
        self.needed_building = None
        self.needed_technologies = []

    def cost(self, level):
        above, below = self.growth
        return [first * above ** (level - 1) // below ** (level - 1) for first in self.first_cost]


def table_rows():
    """The cells of each row of each table of the page."""
    for line in RULES.read_text().splitlines():
        if line.startswith("| ") and line.endswith(" |"):
            yield [cell.strip() for cell in line[2:-2].split(" | ")]


def numbers(cells):
    return [int(cell) for cell in cells]


def growth_of(cell):
    above, _, below = cell.partition("/")
    return int(above), int(below or 1)


def kind_of(row):
    number, word, first_cost = int(row[0]), WORD.fullmatch(row[1])[1], numbers(row[2:5])
    if number <= 11:
        return Kind(number, word, first_cost, growth_of(row[5]), int(row[6]))
    if number <= 34:
        return Kind(number, word, first_cost, (2, 1), int(row[5]))
    unit = Kind(number, word, first_cost, (1, 1), None)
    unit.attack, unit.shield = numbers(row[5:7])
    unit.cargo = int(row[7]) if len(row) == 8 else 0
    return unit


def is_kind(row):
    return len(row) >= 6 and row[0].isdigit() and WORD.fullmatch(row[1])


def is_limit(row):
    return len(row) == 2 and row[0].isdigit() and row[1].isdigit()


def is_need(row):
    return len(row) == 3 and WORD.fullmatch(row[0]) and (row[1] == "—" or WORD_AND_LEVEL.fullmatch(row[1]))


def is_engine(row):
    return len(row) == 4 and row[0].startswith("`") and row[1] in DRIVES


def read_engine(row, kinds):
    """An engine: its drive, its speed and its fuel. The second one of a kind is that from a level of impulse technology on."""
    kinds[WORD.match(row[0])[1]].engines.append((row[1], *numbers(row[2:])))


def read_needs(row, kinds):
    kind = kinds[WORD.fullmatch(row[0])[1]]
    if building := WORD_AND_LEVEL.fullmatch(row[1]):
        kind.needed_building = (building[1], int(building[2]))
    kind.needed_technologies = [(word, int(level)) for word, level in WORD_AND_LEVEL.findall(row[2])]


def is_rapid(row):
    return len(row) == 2 and row[0].startswith("`") and re.match("[0-9]+: `", row[1])


def read_rapid_fire(row):
    for part in row[1].split("; "):
        times, targets = part.split(": ")
        for shooter in WORD.findall(row[0]):
            for target in WORD.findall(targets):
                yield (shooter, target), int(times)


def read_tables():
    rows = list(table_rows())
    kinds = {kind.word: kind for kind in map(kind_of, filter(is_kind, rows))}
    for row in filter(is_need, rows):
        read_needs(row, kinds)
    for row in filter(is_engine, rows):
        read_engine(row, kinds)
    limits = dict(numbers(row) for row in rows if is_limit(row))
    rapid_fire = dict(pair for row in rows if is_rapid(row) for pair in read_rapid_fire(row))
    return kinds, limits, rapid_fire


KINDS, LIMITS, RAPID_FIRE = read_tables()
BUILDINGS = [word for word, kind in KINDS.items() if kind.number <= 11]
TECHNOLOGIES = [word for word, kind in KINDS.items() if 21 <= kind.number <= 34]
UNITS = [word for word, kind in KINDS.items() if kind.number >= 41]
SHIPS = [word for word, kind in KINDS.items() if kind.engines]
WORKS = ["metalmine", "crystalmine", "deuteriumsynth", "solarplant", "satellite"]
STORES = ["metalstore", "crystalstore", "deuteriumtank"]
DOMES = ["smalldome", "largedome"]
