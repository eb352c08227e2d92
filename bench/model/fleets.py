"""Fleets: how far, how fast and with how much fuel they fly, and what they carry."""

from collections import Counter
from dataclasses import dataclass
from math import isqrt

from tables import KINDS, SHIPS

TENTHS = {"combustion": 1, "impulse": 2, "hyperspace": 3}
TECHNOLOGY_OF = {"combustion": "combustion", "impulse": "impulse", "hyperspace": "hyperdrive"}
SECOND_ENGINE_LEVEL = 5
OUT, BACK = "out", "back"


@dataclass
class Fleet:
    """A fleet; its second is that at which it arrives or is back."""

    number: int
    owner: int
    mission: str
    origin: tuple
    target: tuple
    target_owner: int
    launch: int
    second: int
    cargo: list
    ships: Counter
    group: int = 0
    stage: str = OUT

    def __post_init__(self):
        self.group = self.group or self.number

    def attacks(self):
        return self.stage == OUT and self.mission == "attack"

    def landing(self):
        return self.target if self.stage == OUT else self.origin

    def turn_back(self, second):
        self.stage, self.second = BACK, second

    def line_words(self):
        course = [self.number, self.group, self.mission, place_text(self.origin), place_text(self.target)]
        return [*course, self.stage, self.second, *self.cargo, ships_text(self.ships)]


def place_text(place):
    return ":".join(map(str, place))


def ships_text(ships):
    return ",".join(f"{ship}={ships[ship]}" for ship in SHIPS if ships[ship])


def distance(one, other):
    for index, (least, each) in enumerate([(0, 20000), (2700, 95), (1000, 5)]):
        if one[index] != other[index]:
            return least + each * abs(one[index] - other[index])
    return 5


def engine(ship, levels):
    engines = KINDS[ship].engines
    return engines[-1] if levels["impulse"] >= SECOND_ENGINE_LEVEL else engines[0]


def ship_speed(ship, levels):
    drive, speed, _ = engine(ship, levels)
    return speed * (10 + TENTHS[drive] * levels[TECHNOLOGY_OF[drive]]) // 10


def flight_seconds(way, levels, ships, setting, speed):
    slowest = min(ship_speed(ship, levels) for ship in ships)
    root = isqrt(35000**2 * 10 * way // (setting**2 * slowest))
    return max(1, -(-(10 + root) // speed))


def flight_fuel(way, levels, ships, setting):
    all_fuel = sum(count * engine(ship, levels)[2] for ship, count in ships.items())
    return 1 + all_fuel * way * (setting + 10) ** 2 // 3500000


def room(ships):
    return sum(count * KINDS[ship].cargo for ship, count in ships.items())
