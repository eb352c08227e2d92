"""Draws an input for `model.py dump`: a founding text and a script of all eleven forms.

    generate.py SEED LINES > INPUT

The script is made of scenes of a few lines each. Most readings lie close to the next event, which the model tells.
"""

import random
import sys
from collections import Counter

from model import Run, found
from fleets import BACK, OUT, distance, flight_fuel, flight_seconds, room, ships_text
from tables import BUILDINGS, DOMES, KINDS, SHIPS, TECHNOLOGIES, UNITS, WORKS
from universe import MOST_STOCK, MOST_UNITS, QUEUE_LENGTH, text

PLAYERS = [1, 2, 300]
STRANGER = 4711
EMPTY_PLACE = "4:4:4"
PLACES = ["1:2:15", "1:10:1", "1:10:2", "1:10:3", "1:10:7", "1:10:15", "1:499:15", "2:1:1", "9:499:15"]
WARRIORS = ["lightfighter", "heavyfighter", "cruiser", "recycler", "recycler"]
RICH, MIDDLE, POOR, NEW = "rich", "middle", "poor", "new"
HIGHEST_LEVELS = {RICH: 14, MIDDLE: 8, POOR: 3, NEW: 1}
STOCKS = {RICH: (10**5, 10**8), MIDDLE: (3000, 60000), POOR: (0, 900)}


def founding_lines(rng):
    yield f"universe {rng.randrange(2**64)} {rng.choice([1, 5, 100, 100])} 1000 {rng.choice([0, 0, 1000])}"
    for player in PLAYERS:
        yield f"player {player}"
        yield from technology_lines(rng, player)
    energy_place, race_place, full_place, *places = rng.sample(PLACES, rng.randint(7, 9))
    yield from graviton_planet_lines(energy_place)
    yield from race_planet_lines(race_place)
    yield from planet_lines(rng, full_place, 1, 2)
    owners = [1, 2, 300, 300] + rng.choices(PLAYERS, k=2)
    for place, owner in zip(places, owners):
        yield from planet_lines(rng, place, owner, rng.randint(5, 200))
    yield "."


def technology_lines(rng, player):
    """Player 2 begins without technologies, and with many units."""
    if player != 2:
        for word in sorted({"shielding", *rng.sample(TECHNOLOGIES[:-1], rng.randint(3, 10))} - {"computer"}):
            yield f"tech {player} {word} {rng.randint(1, 12)}"
        yield f"tech {player} computer {rng.choice([3, 5, 9])}"


def graviton_planet_lines(place):
    """A planet of player 2 that gives enough energy for graviton at ten tenths, and not at nine."""
    yield f"planet {place} 2 40 163"
    yield f"stock {place} 3000 9000 6000"
    yield f"level {place} lab 12"
    yield f"level {place} robotics 2"
    yield f"level {place} shipyard 2"
    yield f"level {place} crystalstore 16"
    yield f"units {place} satellite 10100"
    yield f"units {place} launcher 75000"


def race_planet_lines(place):
    """A planet of player 2 on which the first store takes as long as the first energy research."""
    yield f"planet {place} 2 40 163"
    yield f"stock {place} 2000 1200 1000"
    yield f"level {place} lab 1"


def planet_lines(rng, place, owner, free_fields):
    wealth = RICH if owner == 2 else rng.choice([RICH, MIDDLE, MIDDLE, POOR, NEW])
    words = rng.sample(BUILDINGS, rng.randint(1, 7)) + rng.choice([["lab", "shipyard"], ["lab"], ["shipyard"]])
    levels = {word: rng.randint(1, min(HIGHEST_LEVELS[wealth], KINDS[word].cap)) for word in words}
    fields = sum(levels.values()) + free_fields
    yield f"planet {place} {owner} {rng.choice([-130, -129, -20, 0, 40, 260])} {fields}"
    if wealth == RICH and rng.random() < 0.3:
        yield f"stock {place} {MOST_STOCK - rng.choice([0, 3, 900])} {MOST_STOCK} 5000000"
    elif wealth in STOCKS:
        yield "stock " + place + "".join(f" {rng.randint(*STOCKS[wealth])}" for _ in range(3))
    for word, level in levels.items():
        yield f"level {place} {word} {level}"
    if wealth != NEW:
        some = rng.sample(UNITS, rng.randint(1, 4)) + rng.sample(WARRIORS, 2)
        for unit in sorted({*some, "probe", rng.choice(["smallcargo", "largecargo"])}):
            yield f"units {place} {unit} {1 if unit in DOMES else rng.choice([1, 7, 30, 700])}"


class Script:
    """Lines that are written one by one, and the model that answers them."""

    def __init__(self, rng):
        self.rng = rng
        self.lines = list(founding_lines(rng))
        universe, _ = found(self.lines)
        self.run = Run(universe)
        self.answers = []

    def say(self, player, request, reading=None):
        """Writes a line, and keeps its answer. If no reading is given, one is drawn."""
        reading = self.reading() if reading is None else reading
        self.write(f"@{reading} {player} {request}", request)

    def write(self, line, request):
        self.lines.append(line)
        self.answers.append((request, self.run.answer(line)))

    def now(self):
        return self.run.universe.moment

    def reading(self):
        """Now, earlier, a little later, near the next event, or much later."""
        rng, now = self.rng, self.now()
        seconds = [event[0] for event in self.run.universe.events()]
        draw = rng.random()
        if draw < 0.35 or (draw < 0.8 and not seconds):
            return now
        if draw < 0.42:
            return max(0, now - rng.choice([1, 50]))
        if draw < 0.75:
            return min(seconds) + rng.choice([-1, 0, 0, 1])
        if draw < 0.80:
            return rng.choice(seconds)
        if draw < 0.97:
            return now + rng.choice([1, 7, 60, 600])
        return now + rng.choice([3600, 20000])

    def places_of(self, player):
        return [text(planet.place) for planet in self.run.universe.planets_of(player)]

    def player_and_place(self):
        """Mostly a player and a planet of his."""
        rng = self.rng
        player = rng.choice(PLAYERS)
        draw = rng.random()
        if draw < 0.02:
            return STRANGER, rng.choice(PLACES)
        if draw < 0.04 or not self.places_of(player):
            return player, EMPTY_PLACE
        if draw < 0.06:
            return player, rng.choice(PLACES)
        return player, rng.choice(self.places_of(player))

    def planet_at(self, place):
        return self.run.universe.planets.get(tuple(map(int, place.split(":"))))

    def allowed(self, place, words):
        """Those of the kinds that the planet at a place may order."""
        planet = self.planet_at(place)
        return [word for word in words if planet and not self.run.universe.lacks_needs(planet, word)]

    def kind(self, place, words):
        """One of the kinds, mostly one that may be ordered."""
        allowed = self.allowed(place, words)
        return self.rng.choice(allowed if allowed and self.rng.random() < 0.85 else words)


# Scenes.


def ask(script):
    player, place = script.player_and_place()
    script.say(player, "account" if script.rng.random() < 0.4 else f"planet {place}")


def build(script):
    player, place = script.player_and_place()
    script.say(player, f"build {place} {script.kind(place, BUILDINGS)}")


def build_too_much(script):
    """A building that is at its cap or needs something else first."""
    universe = script.run.universe
    for planet in script.rng.sample(list(universe.planets.values()), len(universe.planets)):
        place = text(planet.place)
        allowed = script.allowed(place, BUILDINGS)
        words = [word for word in BUILDINGS if word not in allowed or planet.levels[word] == KINDS[word].cap]
        if words and len(planet.buildings) < QUEUE_LENGTH:
            return script.say(planet.owner, f"build {place} {script.rng.choice(words)}")


def fill_fields(script):
    """One building more than a planet has fields for."""
    for planet in script.run.universe.planets.values():
        free = planet.fields - planet.used() - len(planet.buildings)
        if free < 4:
            for _ in range(free + 1):
                script.say(planet.owner, f"build {text(planet.place)} {script.rng.choice(BUILDINGS[:4])}", script.now())


def build_often(script):
    """More items than a queue takes."""
    player, place = script.player_and_place()
    for _ in range(script.rng.randint(4, 7)):
        script.say(player, f"build {place} {script.rng.choice(BUILDINGS[:8])}", script.now())


def research(script):
    player, place = script.player_and_place()
    script.say(player, f"research {place} {script.kind(place, TECHNOLOGIES)}")


def research_often(script):
    """Research for several planets of one player."""
    research_of(script, script.rng.choice(PLAYERS))


def research_of(script, player):
    for place in script.rng.choices(script.places_of(player), k=script.rng.randint(3, 6)):
        script.say(player, f"research {place} {script.kind(place, TECHNOLOGIES)}", script.now())


def order_units(script):
    player, place = script.player_and_place()
    unit = script.kind(place, UNITS + ["satellite"] * 3)
    script.say(player, f"yard {place} {unit} {script.rng.choice([1, 1, 2, 3, 8, 40, 900, 100000])}")


def affordable(script, planet):
    """The kinds of units that a planet may order and pay, each with the greatest count, the dearest batch first."""
    batches = []
    for unit in script.allowed(text(planet.place), UNITS):
        cost = KINDS[unit].cost(1)
        count = min(stock // part for stock, part in zip(planet.stock(), cost) if part)
        if count:
            batches.append((unit, min(count, MOST_UNITS)))
    return sorted(batches, key=lambda batch: -batch[1] * sum(KINDS[batch[0]].cost(1)))


def rich_planets(script, kinds):
    """The planets that can pay a unit of one of the kinds, in any order, and the units that each can pay."""
    planets = list(script.run.universe.planets.values())
    script.rng.shuffle(planets)
    for planet in planets:
        units = [unit for unit, _ in affordable(script, planet) if unit in kinds]
        if units:
            yield planet, units


def order_domes(script):
    for planet, domes in rich_planets(script, DOMES):
        place, dome = text(planet.place), script.rng.choice(domes)
        script.say(planet.owner, f"yard {place} {dome} 1")
        return script.say(planet.owner, f"yard {place} {dome} {script.rng.choice([1, 1, 2])}")


def yard_often(script):
    """More batches than a yard takes."""
    for planet, units in rich_planets(script, UNITS):
        cheap = [unit for unit, count in affordable(script, planet) if count > 10 and unit not in DOMES]
        for unit in script.rng.choices(cheap or units, k=script.rng.randint(4, 7)):
            count = script.rng.choice([1, 1, 1, 2])
            script.say(planet.owner, f"yard {text(planet.place)} {unit} {count}", script.now())
        return


def improve_yard(script):
    """A shipyard is ordered while units are built in it."""
    for planet, units in rich_planets(script, UNITS):
        place = text(planet.place)
        script.say(planet.owner, f"yard {place} {script.rng.choice(units)} {script.rng.randint(3, 9)}", script.now())
        return script.say(planet.owner, f"build {place} shipyard", script.now())


def race(script):
    """A building and a research are done in one second, and of what waits behind them only one can be paid."""
    planet = next(planet for planet in script.run.universe.planets.values() if planet.owner == 2 and planet.used() == 1)
    orders = [("build", "metalstore", "metalmine"), ("research", "energy", "computer")]
    script.rng.shuffle(orders)
    for turn in (1, 2):
        for order in orders:
            script.say(2, f"{order[0]} {text(planet.place)} {order[turn]}", script.now())


def spend_all(script):
    """A planet becomes poor while research waits for it."""
    universe = script.run.universe
    waiting = [(account, item) for account in universe.accounts.values() for item in account.research[1:]]
    if not waiting:
        return research_often(script)
    account, item = script.rng.choice(waiting)
    for unit, count in affordable(script, universe.planets[item.place])[: script.rng.randint(1, 3)]:
        count = 1 if unit in DOMES else count
        script.say(account.player, f"yard {text(item.place)} {unit} {count}", script.now())
    if account.research:
        script.say(account.player, "account", account.research[0].second)


def graviton_place(script):
    planets = script.run.universe.planets.values()
    return next(text(planet.place) for planet in planets if planet.units["satellite"] > 10000)


def graviton(script):
    """Graviton is ordered where there is energy for it, and the satellites are turned down or not."""
    rng, place = script.rng, graviton_place(script)
    script.say(2, f"research {place} {rng.choice(['energy', 'computer', 'armour'])}", script.now())
    for tenths in (9, 10, 10):
        script.say(2, f"set {place} satellite {tenths}", script.now())
        script.say(2, f"research {place} graviton", script.now())
    script.say(2, f"set {place} satellite {rng.choice([9, 9, 10])}", script.now())
    script.say(2, "account", script.now())


def beginning(script):
    """A shipyard is done while units are built. Of what waits behind it only the last can be paid."""
    place, start = graviton_place(script), script.now()
    race(script)
    script.say(2, f"yard {place} satellite 3", start)
    for word in ("shipyard", "lab", "metalmine"):
        script.say(2, f"build {place} {word}", start)
    graviton(script)
    [batch] = script.planet_at(place).yard
    script.say(2, f"planet {place}", start + 2 * batch.each + 1)


def ceiling(script):
    """A rich planet asks for as many units as its player may have, and for more."""
    universe = script.run.universe
    for planet in script.rng.sample(list(universe.planets.values()), len(universe.planets)):
        free = MOST_UNITS - universe.units_of(planet.owner)
        dear = [unit for unit, count in affordable(script, planet) if count > free > 0 and unit not in DOMES]
        if dear and len(planet.yard) < QUEUE_LENGTH:
            for count in script.rng.sample([free + 1, free - 1], script.rng.randint(1, 2)):
                script.say(planet.owner, f"yard {text(planet.place)} {script.rng.choice(dear)} {count}", script.now())
            return


# Scenes of fleets.


def flyers(script, player=None):
    """A planet with ships, mostly one that has deuterium, if there is one."""
    planets = [it for it in script.run.universe.planets.values() if any(it.units[ship] for ship in SHIPS)]
    planets = [it for it in planets if player in (None, it.owner)]
    rich = [it for it in planets if it.stock()[2] > 3]
    return script.rng.choice(rich if rich and script.rng.random() < 0.9 else planets) if planets else None


def target_of(script, origin):
    """Mostly a planet of the same system, if there is one."""
    places = [place for place in script.run.universe.planets if place != origin.place]
    near = [place for place in places if place[:2] == origin.place[:2]]
    return script.rng.choice(near if near and script.rng.random() < 0.85 else places)


def some_ships(script, origin):
    kinds = [ship for ship in SHIPS if origin.units[ship] > 0]
    some = script.rng.sample(kinds, script.rng.choice([1, 1, 1, min(2, len(kinds))]))
    return Counter({ship: script.rng.choice([1, 1, 2, origin.units[ship]]) if origin.units[ship] > 1 else 1 for ship in some})


def some_cargo(script, origin, ships, fuel):
    """Mostly a cargo that fits and can be paid, at times one of just as much as fits, or more."""
    rng, free = script.rng, max(0, room(ships) - fuel)
    draw = rng.random()
    if draw < 0.06:
        return [free + 1 - free // 2, free // 2, 0]
    if draw < 0.12:
        return [0, free, 0]
    stock = origin.stock()
    shares = [min(part // 3, free // rng.choice([3, 4, 50])) for part in (stock[0], stock[1], max(0, stock[2] - fuel))]
    return [rng.choice([0, share, share]) for share in shares]


def errand(script, origin, target, ships, setting):
    levels = script.run.universe.accounts[origin.owner].levels
    way = distance(origin.place, target)
    seconds = flight_seconds(way, levels, ships, setting, script.run.universe.speed)
    return seconds, flight_fuel(way, levels, ships, setting)


def missions_for(own, ships):
    harvest = ["harvest"] * 3 if ships["recycler"] else []
    return ["transport", "deploy", *harvest] if own else ["transport", "attack", "attack", *harvest]


def send_from(script, origin, target, reading=None):
    rng = script.rng
    ships, setting = some_ships(script, origin), rng.choice([10, 10, 10, 5, 1])
    seconds, fuel = errand(script, origin, target, ships, setting)
    own = script.run.universe.planets[target].owner == origin.owner
    mission = rng.choice(missions_for(own or rng.random() < 0.1, ships))
    cargo = some_cargo(script, origin, ships, fuel)
    if reading == "meeting":
        ends = [event[0] for event in script.run.universe.events() if event[0] - seconds >= script.now()]
        reading = rng.choice(ends) - seconds if ends else None
    words = ["send", text(origin.place), text(target), mission, setting, ships_text(ships), *cargo]
    script.say(origin.owner, " ".join(map(str, words)), reading)


def send(script):
    origin = flyers(script)
    if origin:
        send_from(script, origin, target_of(script, origin))


def send_to_meet(script):
    """A fleet arrives in the second of another event."""
    origin = flyers(script)
    if origin:
        send_from(script, origin, target_of(script, origin), "meeting")


def send_often(script):
    """More fleets than a player may have; some land in one second."""
    origin = flyers(script)
    target = origin and target_of(script, origin)
    for _ in range(script.rng.randint(2, 5)):
        if origin and any(origin.units[ship] > 0 for ship in SHIPS):
            send_from(script, origin, target, script.now())


def send_wrongly(script):
    """One that is refused for nearly each reason."""
    rng, origin = script.rng, flyers(script)
    if not origin:
        return
    place, near = text(origin.place), text(target_of(script, origin))
    ship = next(ship for ship in SHIPS if origin.units[ship] > 0)
    foreign = [text(it.place) for it in script.run.universe.planets.values() if it.owner != origin.owner]
    tails = [
        f"{place} {near} transport 10 {ship}={origin.units[ship] + 1} 0 0 0",
        f"{place} {EMPTY_PLACE} transport 10 {ship}=1 0 0 0",
        f"{place} {place} deploy 10 {ship}=1 0 0 0",
        f"{place} {rng.choice(foreign)} deploy 10 {ship}=1 0 0 0",
        f"{place} {near} harvest 10 {'probe' if ship == 'recycler' else ship}=1 0 0 0",
        f"{place} {rng.choice(script.places_of(origin.owner))} attack 10 {ship}=1 0 0 0",
        f"{place} {near} transport 10 {ship}=1 {MOST_STOCK} 0 0",
        f"{place} {near} transport 10 {ship}=1 0 0 {max(0, room({ship: 1}) - 900)}",
        f"{EMPTY_PLACE} {near} transport 10 {ship}=1 0 0 0",
        f"{rng.choice(foreign)} {near} transport 10 {ship}=1 0 0 0",
    ]
    for tail in rng.sample(tails, 4):
        script.say(rng.choice([origin.owner] * 9 + [STRANGER]), f"send {tail}", script.now())


def foreign_to(script, origin):
    """A planet of somebody else, mostly of the same system."""
    others = [it for it in script.run.universe.planets.values() if it.owner != origin.owner]
    near = [it for it in others if it.place[:2] == origin.place[:2]]
    return script.rng.choice(near if near and script.rng.random() < 0.9 else others)


def attack(script):
    """A fleet attacks, and others may join it."""
    origin = flyers(script)
    if not origin:
        return
    ships = some_ships(script, origin)
    words = ["send", text(origin.place), text(foreign_to(script, origin).place), "attack", script.rng.choice([1, 1, 2, 5, 10])]
    script.say(origin.owner, " ".join(map(str, [*words, ships_text(ships), 0, 0, script.rng.choice([0, 0, 5])])), script.now())
    for _ in range(script.rng.choice([0, 1, 1, 2, 3])):
        join(script)


def raids(script):
    return [fleet for fleet in script.run.universe.fleets if fleet.attacks()]


def join(script):
    """A fleet joins a group, mostly one that flies out to attack, and mostly in time."""
    rng, some = script.rng, raids(script)
    origin = flyers(script)
    if not some or not origin:
        return
    raid = rng.choice(some)
    if script.run.universe.planets[raid.target].owner == origin.owner and rng.random() < 0.8:
        return
    ships = some_ships(script, origin)
    setting = rng.choice([10, 10, 10, 1])
    cargo = rng.choice([[0, 0, 0]] * 6 + [[0, 1, 2], [room(ships), 0, 0], [MOST_STOCK, 0, 0]])
    target = raid.target if rng.random() < 0.9 else target_of(script, origin)
    group = raid.group if rng.random() < 0.95 else script.run.last_number
    words = ["join", group, text(origin.place), text(target), setting, ships_text(ships), *cargo]
    reading = rng.choice([script.now(), script.now(), None])
    script.say(origin.owner, " ".join(map(str, words)), reading)


def join_wrongly(script):
    """One that is refused for nearly each reason."""
    rng, some = script.rng, raids(script)
    if not some:
        return attack(script)
    raid = rng.choice(some)
    group, place = raid.group, text(raid.target)
    victim = script.run.universe.planets[raid.target].owner
    for origin in script.run.universe.planets.values():
        ship = next((ship for ship in SHIPS if origin.units[ship] > 0), "probe")
        home = text(origin.place)
        if origin.owner == victim or rng.random() < 0.4:
            tail = rng.choice([f"{ship}={origin.units[ship] + 1} 0 0 0", f"{ship}=1 {MOST_STOCK} 0 0", f"{ship}=1 0 0 0", f"{ship}=1 0 0 {room({ship: 1})}"])
            script.say(origin.owner, f"join {group} {home} {place} 10 {tail}", script.now())
    script.say(rng.choice(PLAYERS + [STRANGER]), f"join {group + 1} {text(raid.origin)} {place} 10 probe=1 0 0 0", script.now())


def crowd(script):
    """More fleets than a group may have."""
    origin = flyers(script, script.rng.choice([1, 300]))
    ship = origin and next((ship for ship in SHIPS if origin.units[ship] > 10), None)
    if not ship:
        return
    target = text(foreign_to(script, origin).place)
    script.say(origin.owner, f"send {text(origin.place)} {target} attack 3 {ship}=1 0 0 0", script.now())
    group = script.run.last_number
    for _ in range(9):
        script.say(origin.owner, f"join {group} {text(origin.place)} {target} 10 {ship}=1 0 0 0", script.now())


def harvest(script):
    """Debris is taken, where there is some."""
    universe = script.run.universe
    fields = [planet for planet in universe.planets.values() if any(planet.debris)]
    homes = [planet for planet in universe.planets.values() if planet.units["recycler"]]
    if fields and homes:
        origin, target = script.rng.choice(homes), script.rng.choice(fields)
        count = script.rng.randint(1, origin.units["recycler"])
        tail = f"harvest 10 recycler={count} {script.rng.choice([0, 0, 7])} 0 0"
        script.say(origin.owner, f"send {text(origin.place)} {text(target.place)} {tail}")


def recall(script):
    """Of a fleet that flies out, mostly; of one that flies back, of somebody else's or of none."""
    rng, fleets = script.rng, script.run.universe.fleets
    out = [fleet for fleet in fleets if fleet.stage == OUT]
    back = [fleet for fleet in fleets if fleet.stage == BACK]
    some = rng.choice([out, out, out, back, fleets])
    if not some or rng.random() < 0.1:
        return script.say(rng.choice(PLAYERS + [STRANGER]), f"recall {rng.choice([1, script.run.last_number, 2**40 - 1])}")
    fleet = rng.choice(some)
    player = fleet.owner if rng.random() < 0.9 else rng.choice(PLAYERS)
    reading = rng.choice([None, script.now(), fleet.second, fleet.second - 1])
    script.say(player, f"recall {fleet.number}", reading)


def ask_fleets(script):
    rng = script.rng
    system = ":".join(rng.choice(PLACES).split(":")[:2])
    script.say(rng.choice(PLAYERS * 6 + [STRANGER]), rng.choice(["fleets", "fleets", f"system {system}", "system 4:4"]))


def set_work(script):
    player, place = script.player_and_place()
    script.say(player, f"set {place} {script.rng.choice(WORKS)} {script.rng.randint(0, 10)}")


def ask_wrongly(script):
    """In each form a stranger asks, and a player for a place without a planet and for somebody else's planet."""
    player, stranger_to_it = script.rng.sample(PLAYERS, 2)
    for request in ("account", "fleets", "system 1:10", "recall 1"):
        script.say(STRANGER, request)
    send = " 1:10:1 transport 10 probe=1 0 0 0"
    words = {"planet": "", "build": " lab", "research": " energy", "yard": " launcher 1", "set": " satellite 5", "send": send}
    for form, word in words.items():
        script.say(STRANGER, f"{form} {EMPTY_PLACE}{word}")
        script.say(player, f"{form} {EMPTY_PLACE}{word}")
        script.say(stranger_to_it, f"{form} {script.rng.choice(script.places_of(player))}{word}")
    for place in (EMPTY_PLACE, script.rng.choice(script.places_of(player))):
        script.say(stranger_to_it, f"join 1 {place} 1:10:1 10 probe=1 0 0 0")


def bad_line(script):
    lines = [
        "",
        "@5 1 fleets 1",
        "@5 1 join 0 1:10:1 1:10:2 10 probe=1 0 0 0",
        "@5 1 send 1:10:1 1:10:2 raid 10 probe=1 0 0 0",
        "@5 1 send 1:10:1 1:10:2 transport 10 probe=1,smallcargo=1 0 0 0",
        "@5 1 recall 0",
        "@5 1 planet 1:1:16",
        f"@{script.now()} 1 planet 1:1:1 ",
        "@5 1 research 1:1:1 lab",
        "@5 1 yard 1:1:1 launcher 0",
        "@5 1 account 1",
        "@1099511627776 1 account",
        *["@5 1 planet " + "1" * 400] * 5,
    ]
    script.write(script.rng.choice(lines), "")


def last_touches(script):
    """The end: accounts whose research is done or isn't, a stranger, and a planet that somebody else asks for."""
    for player in PLAYERS:
        research_of(script, player)
    for player in PLAYERS:
        queue = script.run.universe.accounts[player].research
        script.say(player, "account", queue[0].second if queue else script.now())
    script.say(300, "account", script.now() + 1)
    script.say(1, "account", script.now() + 1)
    script.say(1, f"planet {script.places_of(2)[0]}", script.now() + 1)
    script.say(STRANGER, f"planet {script.places_of(300)[0]}", script.now() + 1)


SCENES = {
    ask: 10,
    build: 5,
    build_too_much: 2.5,
    fill_fields: 1,
    build_often: 2,
    research: 3,
    research_often: 2,
    order_units: 5,
    order_domes: 1,
    yard_often: 3,
    improve_yard: 1,
    spend_all: 3,
    graviton: 1.5,
    ceiling: 1,
    set_work: 3,
    send: 9,
    send_to_meet: 5,
    send_often: 4,
    send_wrongly: 2.5,
    attack: 9,
    join: 5,
    join_wrongly: 2,
    crowd: 3,
    harvest: 3,
    recall: 5,
    ask_fleets: 5,
    bad_line: 2,
}


def draw_script(seed, lines):
    script = Script(random.Random(seed))
    most = len(script.lines) + lines - 20
    beginning(script)
    ask_wrongly(script)
    while len(script.lines) < most:
        [scene] = script.rng.choices(list(SCENES), SCENES.values())
        scene(script)
    last_touches(script)
    return script


def main():
    seed, lines = map(int, sys.argv[1:])
    sys.stdout.write("".join(text + "\n" for text in draw_script(seed, lines).lines))


if __name__ == "__main__":
    main()
