"""Battles and what they leave, by docs/RULES.md, "Battle" and "Spoils"."""

from collections import Counter
from dataclasses import dataclass

from tables import KINDS, RAPID_FIRE, SHIPS, UNITS

ROUNDS = 6
MOST_SHOTS = 4096
MULTIPLIER = 6364136223846793005
WORD = 2**32
STATE = 2**64


class Draws:
    """Numbers below a bound, from the words of PCG32."""

    def __init__(self, seed, stream):
        self.increment = (2 * stream + 1) % STATE
        self.state = (seed + self.increment) % STATE
        self.step()

    def step(self):
        self.state = (self.state * MULTIPLIER + self.increment) % STATE

    def word(self):
        old = self.state
        self.step()
        shifted = ((old >> 18 ^ old) >> 27) % WORD
        turn = old >> 59
        return (shifted >> turn | shifted << (32 - turn) % 32) % WORD

    def below(self, bound):
        return self.word() * bound // WORD


@dataclass
class Part:
    """The units of one fleet, or of a planet, with the levels of their owner's technologies."""

    levels: Counter
    units: Counter


class Unit:
    def __init__(self, part, kind):
        table = KINDS[kind]
        self.part = part
        self.kind = kind
        self.attack = table.attack * (10 + part.levels["weapons"])
        self.full_shield = table.shield * (10 + part.levels["shielding"])
        self.full_hull = sum(table.first_cost[:2]) // 10 * (10 + part.levels["armour"])
        self.shield = self.full_shield
        self.hull = self.full_hull
        self.destroyed = False

    def meet_shot(self, attack, draws):
        if self.destroyed or 100 * attack < self.full_shield:
            return
        absorbed = min(self.shield, attack)
        self.shield -= absorbed
        self.hull -= min(self.hull, attack - absorbed)
        if self.hull == 0:
            self.destroyed = True
        elif 10 * self.hull <= 7 * self.full_hull:
            self.destroyed = draws.below(self.full_hull) >= self.hull


def units_of(parts):
    return [Unit(part, kind) for part in parts for kind in UNITS for _ in range(part.units[kind])]


def alive(units):
    return [unit for unit in units if not unit.destroyed]


def fire(shooters, targets, draws):
    for shooter in shooters:
        shots = MOST_SHOTS if shooter.attack else 0
        for shot in range(1, shots + 1):
            target = targets[draws.below(len(targets))]
            target.meet_shot(shooter.attack, draws)
            rapid = RAPID_FIRE.get((shooter.kind, target.kind))
            if not rapid or shot == MOST_SHOTS or draws.below(rapid) == 0:
                break


def fight(attackers, planet, seed, number):
    """What is left of each attacker and of the planet, and whether the attackers have won."""
    ours, theirs = units_of(attackers), units_of([planet])
    draws = Draws(seed, number)
    for _ in range(ROUNDS):
        our_alive, their_alive = alive(ours), alive(theirs)
        if not our_alive or not their_alive:
            break
        for unit in our_alive + their_alive:
            unit.shield = unit.full_shield
        fire(our_alive, their_alive, draws)
        fire(their_alive, our_alive, draws)
    left = [Counter(unit.kind for unit in alive(ours) if unit.part is part) for part in attackers]
    planet_left = Counter(unit.kind for unit in alive(theirs))
    return left, planet_left, bool(alive(ours)) and not alive(theirs)


def debris_of(lost):
    """Three tenths of what lost ships and satellites cost, of metal and of crystal."""
    wrecks = {kind: count for kind, count in lost.items() if kind in SHIPS or kind == "satellite"}
    return [3 * sum(count * KINDS[kind].first_cost[part] for kind, count in wrecks.items()) // 10 for part in (0, 1)]


def is_defence(kind):
    return kind not in SHIPS and kind != "satellite"


def rebuilt(lost):
    return Counter({kind: 7 * count // 10 for kind, count in lost.items() if is_defence(kind)})


def fitting(room, cargo):
    """As much of a cargo as fits: metal, then crystal, then deuterium."""
    fits = []
    for part in cargo:
        fits.append(min(room - sum(fits), part))
    return fits


def loot(room, most):
    """The five steps of loading."""
    taken = [0, 0, 0]
    for index, share in ((0, 3), (1, 2), (2, 1), (0, 2), (1, 1)):
        taken[index] += min((room - sum(taken)) // share, most[index] - taken[index])
    return taken


def scraped(room, debris):
    """The three steps of a harvest."""
    taken = [0, 0]
    for index, share in ((0, 2), (1, 1), (0, 1)):
        taken[index] += min((room - sum(taken)) // share, debris[index] - taken[index])
    return taken
