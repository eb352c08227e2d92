"""The universe of docs/RULES.md: planets, accounts and fleets that all stand at one second."""

from collections import Counter
from dataclasses import dataclass, field

from battle import Part, debris_of, fight, fitting, loot, rebuilt, scraped
from fleets import BACK, OUT, Fleet, distance, flight_fuel, flight_seconds, place_text, room
from tables import BUILDINGS, DOMES, KINDS, LIMITS, STORES, TECHNOLOGIES, UNITS, WORKS

GRAINS = 3600
QUEUE_LENGTH = 5
MOST_UNITS = 100000
MOST_STOCK = 4 * 10**12
MOST_IN_GROUP = 8
SCOOP = 20000
GRAVITON_ENERGY = 300000


class Refused(Exception):
    """A request that is refused, with its code."""

    def __init__(self, code):
        self.code = code


def refuse_first(reasons):
    """Refuses with the first code whose reason holds."""
    for code, holds in reasons:
        if holds:
            raise Refused(code)


def rounded_up(above, below):
    return -(-above // below)


@dataclass
class Item:
    """A building or a research that runs or waits. One that waits has no level and no second yet."""

    number: int
    kind: str
    place: tuple
    level: int = 0
    second: int = 0


@dataclass
class Batch:
    """Units that are built or wait in a yard."""

    number: int
    unit: str
    left: int
    each: int = 0
    second: int = 0


@dataclass
class Planet:
    place: tuple
    owner: int
    temperature: int
    fields: int
    grains: list = field(default_factory=lambda: [500 * GRAINS, 500 * GRAINS, 0])
    debris: list = field(default_factory=lambda: [0, 0])
    levels: Counter = field(default_factory=Counter)
    tenths: dict = field(default_factory=lambda: dict.fromkeys(WORKS, 10))
    units: Counter = field(default_factory=Counter)
    buildings: list = field(default_factory=list)
    yard: list = field(default_factory=list)

    def stock(self):
        return [grains // GRAINS for grains in self.grains]

    def used(self):
        return sum(self.levels.values())

    def limits(self):
        return [LIMITS[self.levels[store]] for store in STORES]

    def made(self, work, rate):
        """The parts above and below the line of rate · L · (11/10)^L · n/10."""
        level = self.levels[work]
        return rate * level * 11**level * self.tenths[work], 10**level * 10

    def mines(self):
        metal, below_metal = self.made("metalmine", 30)
        crystal, below_crystal = self.made("crystalmine", 20)
        deuterium, below_deuterium = self.made("deuteriumsynth", 10)
        deuterium *= 1280 - 2 * self.temperature
        return [metal // below_metal, crystal // below_crystal, deuterium // (below_deuterium * 1000)]

    def energy_needed(self):
        rates = {"metalmine": 10, "crystalmine": 10, "deuteriumsynth": 20}
        return sum(rounded_up(*self.made(mine, rate)) for mine, rate in rates.items())

    def energy_given(self):
        above, below = self.made("solarplant", 20)
        one = (self.temperature + 140) // 6
        return above // below + self.units["satellite"] * one * self.tenths["satellite"] // 10

    def hourly(self, speed):
        given, need = self.energy_given(), self.energy_needed()
        basic = [20 * speed, 10 * speed, 0]
        if need == 0:
            return basic
        return [income + mine * speed * min(given, need) // need for income, mine in zip(basic, self.mines())]

    def gain(self, speed, seconds):
        """So many seconds of production, in none of which a level, a setting or a satellite changes."""
        for index, (limit, hourly) in enumerate(zip(self.limits(), self.hourly(speed))):
            if self.grains[index] < limit * GRAINS:
                self.grains[index] = min(self.grains[index] + hourly * seconds, limit * GRAINS)

    def can_pay(self, price):
        return all(stock >= part for stock, part in zip(self.stock(), price))

    def pay(self, price):
        self.grains = [grains - part * GRAINS for grains, part in zip(self.grains, price)]

    def take(self, cargo):
        """The cargo of a fleet comes into the stocks. What goes above the cap is lost."""
        self.grains = [min(grains + part * GRAINS, MOST_STOCK * GRAINS) for grains, part in zip(self.grains, cargo)]

    def ordered(self, unit):
        return sum(batch.left for batch in self.yard if batch.unit == unit)

    def all_units(self):
        return sum(self.units.values()) + sum(batch.left for batch in self.yard)


@dataclass
class Account:
    player: int
    levels: Counter = field(default_factory=Counter)
    research: list = field(default_factory=list)


class Universe:
    def __init__(self, seed, speed, moment):
        self.seed = seed
        self.speed = speed
        self.moment = moment
        self.accounts = {}
        self.planets = {}
        self.fleets = []
        self.seen = Counter()

    # What a thing costs and how long it takes.

    def duration(self, price, below):
        return max(1, GRAINS * (price[0] + price[1]) // (below * self.speed))

    def building_time(self, planet, price):
        return self.duration(price, 2500 * (1 + planet.levels["robotics"]) * 2 ** planet.levels["nanite"])

    def unit_time(self, planet, unit):
        below = 2500 * (1 + planet.levels["shipyard"]) * 2 ** planet.levels["nanite"]
        return self.duration(KINDS[unit].cost(1), below)

    def research_time(self, planet, price):
        return self.duration(price, 1000 * (1 + planet.levels["lab"]))

    def lacks_needs(self, planet, word):
        kind, account = KINDS[word], self.accounts[planet.owner]
        lacks_building = kind.needed_building and planet.levels[kind.needed_building[0]] < kind.needed_building[1]
        return lacks_building or any(account.levels[need] < level for need, level in kind.needed_technologies)

    # Time.

    def pass_to(self, moment, plainly=False):
        """Passes every second up to a moment. If it isn't done plainly, quiet seconds pass at once."""
        while self.moment < moment:
            next_second = self.moment + 1
            if not plainly:
                next_second = min([moment] + [second for second, *_ in self.events()])
            self.pass_quiet(next_second)
            self.events_happen()

    def pass_quiet(self, next_second):
        for planet in self.planets.values():
            planet.gain(self.speed, next_second - self.moment)
        self.moment = next_second

    def events(self):
        """What is due: second, number of the order, step, and whose it is."""
        for planet in self.planets.values():
            if planet.buildings:
                yield planet.buildings[0].second, planet.buildings[0].number, 1, planet
            if planet.yard:
                yield planet.yard[0].second, planet.yard[0].number, 3, planet
        for account in self.accounts.values():
            if account.research:
                yield account.research[0].second, account.research[0].number, 2, account
        groups = set()
        for fleet in self.fleets:
            if not fleet.attacks():
                yield fleet.second, fleet.number, 4 if fleet.stage == OUT else 6, fleet
            elif fleet.group not in groups:
                groups.add(fleet.group)
                yield fleet.second, fleet.group, 5, fleet

    def events_happen(self):
        due = sorted((event for event in self.events() if event[0] == self.moment), key=lambda event: event[:3])
        self.seen["second of several events"] += len(due) > 1
        steps = {1: self.building_done, 2: self.research_done, 3: self.unit_done, 4: self.arrive, 5: self.battle, 6: self.come_back}
        for _, _, step, owner in due:
            steps[step](owner)
        self.note(due)

    def note(self, due):
        """What a comparison is to have met."""
        kinds = [step for _, _, step, _ in due]
        landings = [owner for _, _, step, owner in due if step >= 4]
        self.seen["landing and another event in one second"] += bool(landings) and len(due) > 1
        self.seen["landing and item in one second"] += bool(landings) and min(kinds) < 4

    def building_done(self, planet):
        item = planet.buildings.pop(0)
        planet.levels[item.kind] += 1
        while planet.buildings and not self.start_building(planet):
            planet.buildings.pop(0)
            self.seen["building dropped"] += 1

    def start_building(self, planet):
        """Pays and starts the first item of the queue. Is false if the planet can't pay it."""
        item = planet.buildings[0]
        level = planet.levels[item.kind] + 1
        price = KINDS[item.kind].cost(level)
        if not planet.can_pay(price):
            return False
        planet.pay(price)
        item.level, item.second = level, self.moment + self.building_time(planet, price)
        return True

    def research_done(self, account):
        item = account.research.pop(0)
        account.levels[item.kind] += 1
        self.seen[item.kind + " done"] += 1
        while account.research and not self.start_waiting_research(account):
            dropped = account.research.pop(0)
            self.seen["graviton dropped" if dropped.kind == "graviton" else "research dropped"] += 1

    def start_waiting_research(self, account):
        item = account.research[0]
        dark = item.kind == "graviton" and self.planets[item.place].energy_given() < GRAVITON_ENERGY
        return not dark and self.start_research(account)

    def start_research(self, account):
        """Pays and starts the first item of the queue. Is false if its planet can't pay it."""
        item = account.research[0]
        planet = self.planets[item.place]
        level = account.levels[item.kind] + 1
        price = KINDS[item.kind].cost(level)
        if not planet.can_pay(price):
            return False
        planet.pay(price)
        item.level, item.second = level, self.moment + self.research_time(planet, price)
        return True

    def unit_done(self, planet):
        batch = planet.yard[0]
        planet.units[batch.unit] += 1
        batch.left -= 1
        batch.second += batch.each
        self.seen[batch.unit + " done"] += 1
        if batch.left == 0:
            planet.yard.pop(0)
            self.start_batch(planet)

    def start_batch(self, planet):
        if planet.yard:
            batch = planet.yard[0]
            batch.each = self.unit_time(planet, batch.unit)
            batch.second = self.moment + batch.each

    def arrive(self, fleet):
        """A fleet arrives at its target: a transport turns back, empty, and a deployed fleet stays."""
        target = self.planets[fleet.target]
        if fleet.mission == "harvest":
            return self.harvest(fleet, target)
        full = MOST_STOCK * GRAINS
        self.seen["stock full"] += any(part * GRAINS + grains > full for part, grains in zip(fleet.cargo, target.grains))
        target.take(fleet.cargo)
        self.seen[fleet.mission + " arrives"] += 1
        if fleet.mission == "deploy":
            return self.stay(fleet, target)
        fleet.cargo = [0, 0, 0]
        fleet.turn_back(fleet.second + (fleet.second - fleet.launch))

    def harvest(self, fleet, target):
        """A fleet takes debris from around its target, whoever owns that, and turns back."""
        free = min(room(fleet.ships) - sum(fleet.cargo), SCOOP * fleet.ships["recycler"])
        taken = scraped(free, target.debris)
        self.seen["harvest of all" if taken == target.debris else "harvest of a part"] += 1
        target.debris = [there - part for there, part in zip(target.debris, taken)]
        fleet.cargo = [part + more for part, more in zip(fleet.cargo, [*taken, 0])]
        fleet.turn_back(fleet.second + (fleet.second - fleet.launch))

    def battle(self, first):
        """The fleets of a group fight at their target."""
        target = self.planets[first.target]
        raid = [fleet for fleet in self.fleets if fleet.attacks() and fleet.group == first.group]
        parts = [Part(self.accounts[fleet.owner].levels, fleet.ships) for fleet in raid]
        home = Part(self.accounts[target.owner].levels, target.units)
        lefts, left, won = fight(parts, home, self.seed, first.group)
        self.seen[f"battle of {min(len(raid), 3)} fleets, {'won' if won else 'not won'}"] += 1
        lost = [fleet.ships - kept for fleet, kept in zip(raid, lefts)]
        home_lost = target.units - left
        self.seen["battle with losses of both"] += bool(home_lost) and any(lost)
        littered = debris_of(sum([*lost, home_lost], Counter()))
        target.debris = [min(there + part, MOST_STOCK) for there, part in zip(target.debris, littered)]
        target.units = left + rebuilt(home_lost)
        for fleet, kept in zip(raid, lefts):
            fleet.ships = kept
            fleet.cargo = fitting(room(kept), fleet.cargo)
        self.fleets = [fleet for fleet in self.fleets if fleet.ships]
        survivors = [fleet for fleet in raid if fleet.ships]
        if won:
            self.plunder(survivors, target)
        for fleet in survivors:
            fleet.turn_back(fleet.second + (fleet.second - fleet.launch))

    def plunder(self, fleets, target):
        """Fleets take at most half of the stocks. Each loads what it has room for."""
        free = [room(fleet.ships) - sum(fleet.cargo) for fleet in fleets]
        taken = loot(sum(free), [stock // 2 for stock in target.stock()])
        target.pay(taken)
        self.seen["loot"] += any(taken)
        for fleet, space in zip(fleets, free):
            part = fitting(space, taken)
            taken = [there - loaded for there, loaded in zip(taken, part)]
            fleet.cargo = [old + loaded for old, loaded in zip(fleet.cargo, part)]

    def come_back(self, fleet):
        self.seen["back with cargo" if any(fleet.cargo) else "back"] += 1
        origin = self.planets[fleet.origin]
        origin.take(fleet.cargo)
        self.stay(fleet, origin)

    def stay(self, fleet, planet):
        planet.units.update(fleet.ships)
        self.fleets.remove(fleet)

    # Requests. Each gives the lines of its reply or is refused.

    def own_planet(self, player, place):
        planet = self.planets.get(place)
        refuse_first([(1, player not in self.accounts), (2, planet is None)])
        refuse_first([(3, planet.owner != player)])
        return planet

    def ask_planet(self, player, place):
        return self.planet_lines(self.own_planet(player, place))

    def ask_account(self, player):
        refuse_first([(1, player not in self.accounts)])
        return self.account_lines(self.accounts[player])

    def set_work(self, player, place, work, tenths):
        self.own_planet(player, place).tenths[work] = tenths
        return []

    def order_building(self, number, player, place, word):
        planet = self.own_planet(player, place)
        queue, level = planet.buildings, planet.levels[word]
        queued = sum(item.kind == word for item in queue)
        refuse_first([
            (4, len(queue) >= QUEUE_LENGTH),
            (5, level + queued >= KINDS[word].cap),
            (6, self.lacks_needs(planet, word)),
            (7, planet.used() + len(queue) >= planet.fields),
            (12, not queue and not planet.can_pay(KINDS[word].cost(level + 1))),
        ])
        queue.append(Item(number, word, place))
        if len(queue) > 1:
            return [f"waits {len(queue)}"]
        self.start_building(planet)
        return [f"starts {queue[0].level} {queue[0].second}"]

    def order_research(self, number, player, place, word):
        planet = self.own_planet(player, place)
        account = self.accounts[player]
        queue, level = account.research, account.levels[word]
        queued = sum(item.kind == word for item in queue)
        dark = word == "graviton" and planet.energy_given() < GRAVITON_ENERGY
        refuse_first([
            (4, len(queue) >= QUEUE_LENGTH),
            (5, level + queued >= KINDS[word].cap),
            (6, self.lacks_needs(planet, word) or dark),
            (12, not queue and not planet.can_pay(KINDS[word].cost(level + 1))),
        ])
        queue.append(Item(number, word, place))
        if len(queue) > 1:
            return [f"waits {len(queue)}"]
        self.start_research(account)
        return [f"starts {queue[0].level} {queue[0].second}"]

    def order_units(self, number, player, place, unit, count):
        planet = self.own_planet(player, place)
        queue = planet.yard
        price = [count * part for part in KINDS[unit].cost(1)]
        domes = planet.units[unit] + planet.ordered(unit) + count
        refuse_first([
            (4, len(queue) >= QUEUE_LENGTH),
            (5, unit in DOMES and domes > 1),
            (6, self.lacks_needs(planet, unit)),
            (12, not planet.can_pay(price)),
            (17, self.units_of(player) + count > MOST_UNITS),
        ])
        planet.pay(price)
        queue.append(Batch(number, unit, count))
        if len(queue) > 1:
            return [f"waits {len(queue)}"]
        self.start_batch(planet)
        return [f"starts {count} {queue[0].second}"]

    def known(self, player):
        refuse_first([(1, player not in self.accounts)])

    def ask_fleets(self, player):
        self.known(player)
        return self.fleet_lines(player)

    def ask_system(self, player, system):
        self.known(player)
        planets = [planet for place, planet in sorted(self.planets.items()) if place[:2] == system]
        return [line("at", text(planet.place), planet.owner, *planet.debris) for planet in planets]

    def send(self, number, player, origin, target, mission, setting, ships, *cargo):
        return self.leave(number, player, origin, target, mission, setting, ships, cargo)

    def join(self, number, player, group, origin, target, setting, ships, *cargo):
        return self.leave(number, player, origin, target, "attack", setting, ships, cargo, group)

    def leave(self, number, player, origin, target, mission, setting, ships, cargo, group=0):
        """A fleet leaves, alone or with a group, and arrives then with that."""
        planet, there = self.own_planet(player, origin), self.planets.get(target)
        levels, way = self.accounts[player].levels, distance(origin, target)
        fuel = flight_fuel(way, levels, ships, setting)
        price = [cargo[0], cargo[1], cargo[2] + fuel]
        second = self.moment + flight_seconds(way, levels, ships, setting, self.speed)
        raid = [fleet for fleet in self.fleets if fleet.attacks() and fleet.group == group and fleet.target == target]
        refuse_first([
            (13, group and not raid),
            (16, len(raid) >= MOST_IN_GROUP),
            (8, any(planet.units[ship] < count for ship, count in ships.items())),
            (9, there is None or target == origin or not self.suits(mission, there.owner == player, ships)),
            (10, len(self.fleets_of(player)) >= self.slots_of(player)),
            (15, raid and second > raid[0].second),
            (11, sum(price) > room(ships)),
            (12, not planet.can_pay(price)),
        ])
        planet.pay(price)
        planet.units.subtract(ships)
        second = raid[0].second if raid else second
        fleet = Fleet(number, player, mission, origin, target, there.owner, self.moment, second, list(cargo), ships, group)
        self.fleets.append(fleet)
        return [line("arrives", second, "fuel", fuel)]

    def suits(self, mission, own, ships):
        return {"transport": True, "deploy": own, "attack": not own, "harvest": ships["recycler"] > 0}[mission]

    def recall(self, player, number):
        self.known(player)
        fleet = next((fleet for fleet in self.fleets_of(player) if fleet.number == number), None)
        refuse_first([(13, fleet is None)])
        refuse_first([(14, fleet.stage == BACK)])
        fleet.turn_back(self.moment + max(1, self.moment - fleet.launch))
        return [line("back", fleet.second)]

    # The lines of replies.

    def planets_of(self, player):
        return [planet for _, planet in sorted(self.planets.items()) if planet.owner == player]

    def fleets_of(self, player):
        """By number, since each new fleet has the highest."""
        return [fleet for fleet in self.fleets if fleet.owner == player]

    def slots_of(self, player):
        return 1 + self.accounts[player].levels["computer"]

    def units_of(self, player):
        on_planets = sum(planet.all_units() for planet in self.planets_of(player))
        return on_planets + sum(sum(fleet.ships.values()) for fleet in self.fleets_of(player))

    def fleet_lines(self, player):
        return [line("fleet", *fleet.line_words()) for fleet in self.fleets_of(player)]

    def planet_lines(self, planet):
        given_and_needed = [planet.energy_given(), planet.energy_needed()]
        return [
            line("planet", text(planet.place), planet.owner, planet.temperature, planet.fields, planet.used()),
            line("stock", *planet.stock()),
            line("hourly", *planet.hourly(self.speed)),
            line("limit", *planet.limits()),
            line("energy", *given_and_needed),
            line("debris", *planet.debris),
            *(line("level", word, planet.levels[word]) for word in BUILDINGS if planet.levels[word]),
            *(line("set", work, planet.tenths[work]) for work in WORKS if planet.tenths[work] != 10),
            *(line("units", unit, planet.units[unit]) for unit in UNITS if planet.units[unit]),
            *(line("building", item.number, item.kind, item.level, item.second) for item in planet.buildings[:1]),
            *(line("waiting", item.number, item.kind) for item in planet.buildings[1:]),
            *(line("yard", batch.number, batch.unit, batch.left, batch.second) for batch in planet.yard[:1]),
            *(line("yardwaiting", batch.number, batch.unit, batch.left) for batch in planet.yard[1:]),
        ]

    def account_lines(self, account):
        first, later, player = account.research[:1], account.research[1:], account.player
        return [
            line("account", player, self.units_of(player), len(self.fleets_of(player)), self.slots_of(player)),
            *(line("tech", word, account.levels[word]) for word in TECHNOLOGIES if account.levels[word]),
            *(line("planet", text(planet.place)) for planet in self.planets_of(player)),
            *(line("research", item.number, item.kind, item.level, item.second, text(item.place)) for item in first),
            *(line("waiting", item.number, item.kind, text(item.place)) for item in later),
        ]


def line(*words):
    return " ".join(map(str, words))


text = place_text
