"""Runs the program on generated input, and prints a table of what it took.

From the top of the repository, with the program built: python3 bench/program/measure.py
"""

import subprocess
import sys
import tempfile
import time

PROGRAM = "crates/universe/out/universe"
RUNS = 5
LATE = 1_000_000_000


def place(index):
    """The place of a planet: positions 1 to 15 of one system after the other."""
    return f"{index // 7485 + 1}:{index // 15 % 499 + 1}:{index % 15 + 1}"


def founding(players, lines=()):
    """A universe of so many players with two planets each, and further founding lines."""
    text = ["universe 7 1 1000 0"]
    text += [f"player {number}" for number in range(1, players + 1)]
    text += [f"planet {place(index)} {index // 2 + 1} 40 163" for index in range(2 * players)]
    return text + list(lines) + ["."]


def questions_at_one(count):
    """Questions at the first planet, each a second later."""
    return [f"@{second} 1 planet 1:1:1" for second in range(1, count + 1)]


def questions_at_many(count, players):
    """Questions at planets that a plain generator draws, each a second later, by their owners."""
    lines, state = [], 1
    for second in range(1, count + 1):
        state = (state * 1103515245 + 12345) % 2**31
        index = state // 16 % (2 * players)
        lines.append(f"@{second} {index // 2 + 1} planet {place(index)}")
    return lines


def buildings(players):
    """A metal mine is ordered on each planet, and each planet is asked once it stands."""
    orders = [f"@0 {index // 2 + 1} build {place(index)} metalmine" for index in range(2 * players)]
    asked = [f"@{LATE} {index // 2 + 1} planet {place(index)}" for index in range(2 * players)]
    return orders + asked


def batch(unit, count):
    """A planet that can pay a batch, and one question long after its order."""
    lines = ["stock 1:1:1 4000000000000 4000000000000 4000000000000", "level 1:1:1 shipyard 12", "tech 1 impulse 3"]
    return founding(1, lines) + [f"@0 1 yard 1:1:1 {unit} {count}", f"@{LATE} 1 planet 1:1:1"]


def fleets(players):
    """Ships with fuel on the first planet of each player but the first, one more of the second, who has a computer."""
    senders = range(2, players + 1)
    lines = ["tech 2 computer 1"]
    lines += [f"stock {place(2 * number - 2)} 500 500 500" for number in senders]
    return lines + [f"units {place(2 * number - 2)} smallcargo {2 if number == 2 else 1}" for number in senders]


def sends(players):
    """A fleet of each player but the first, from the first planet to the second, and a second one of the second player."""
    senders = [2] + list(range(2, players + 1))
    return [f"@0 {number} send {place(2 * number - 2)} {place(2 * number - 1)} transport 1 smallcargo=1 0 0 0" for number in senders]


def questions_in_flight(count, player):
    """Questions at the first planet of a player while the fleets fly, which takes them 49631 seconds."""
    at = place(2 * player - 2)
    return [f"@{1 + index * 40000 // count} {player} planet {at}" for index in range(count)]


def in_flight(questions, flown):
    """A universe whose players have ships, which fly or not, and questions."""
    return founding(10000, fleets(10000)) + (sends(10000) if flown else []) + questions


def all_home():
    """10000 fleets fly, and long after they are home each second planet is asked for."""
    asked = [f"@{LATE} {number} planet {place(2 * number - 1)}" for number in range(1, 10001)]
    return in_flight(asked, True)


def battle(raiders, ships, defences):
    """So many players attack one planet in one group, and one question comes long after it."""
    attackers = range(2, raiders + 2)
    lines = ["player 1", "planet 1:1:15 1 40 163", f"units 1:1:15 launcher {defences}"]
    for number in attackers:
        at = f"1:1:{number - 1}"
        lines += [f"player {number}", f"planet {at} {number} 40 163", f"stock {at} 0 0 4000000000", f"units {at} lightfighter {ships}"]
    orders = ["send 1:1:1 1:1:15 attack 1"] + [f"join 1 1:1:{number - 1} 1:1:15 10" for number in attackers[1:]]
    flown = [f"@0 {number} {order} lightfighter={ships} 0 0 0" for number, order in zip(attackers, orders)]
    return ["universe 7 1 1000 0"] + lines + ["."] + flown + [f"@{LATE} 1 planet 1:1:15"]


CASES = [
    ("founding 10000 players and 20000 planets", lambda: founding(10000)),
    ("and 200000 questions at one planet", lambda: founding(10000) + questions_at_one(200000)),
    ("and 200000 questions at planets that are drawn", lambda: founding(10000) + questions_at_many(200000, 10000)),
    ("1000 players, 2000 planets, 200000 questions at one", lambda: founding(1000) + questions_at_one(200000)),
    ("1000 players, 2000 planets, 200000 questions at many", lambda: founding(1000) + questions_at_many(200000, 1000)),
    ("a mine on each of 20000 planets, each asked 10^9 s later", lambda: founding(10000) + buildings(10000)),
    ("10000 players with ships, none flies, 200000 questions at one", lambda: in_flight(questions_in_flight(200000, 1), False)),
    ("10000 fleets fly, no question", lambda: in_flight([], True)),
    ("10000 fleets fly, 200000 questions at a planet without", lambda: in_flight(questions_in_flight(200000, 1), True)),
    ("10000 fleets fly, 200000 questions at a planet of two", lambda: in_flight(questions_in_flight(200000, 2), True)),
    ("10000 fleets fly and are home, each target is asked", all_home),
    ("100000 launchers, asked 10^9 s later", lambda: batch("launcher", 100000)),
    ("100000 satellites, asked 10^9 s later", lambda: batch("satellite", 100000)),
    ("1 fleet of 1000 light fighters attacks 1000 launchers, asked 10^9 s later", lambda: battle(1, 1000, 1000)),
    ("1 fleet of 100000 attacks 100000", lambda: battle(1, 100000, 100000)),
    ("8 fleets of 100000 attack 100000", lambda: battle(8, 100000, 100000)),
]


def run_once(path):
    """Seconds, and the most memory in MB, of one run."""
    with open(path, "rb") as source:
        start = time.perf_counter()
        command = ["/usr/bin/time", "-f", "%M", PROGRAM, ".", "trial"]
        run = subprocess.run(command, stdin=source, stdout=subprocess.DEVNULL, stderr=subprocess.PIPE, check=True)
        seconds = time.perf_counter() - start
    return seconds, int(run.stderr) / 1024


def main():
    print("| input | seconds | MB |")
    print("|---|---|---|")
    for name, text in CASES:
        with tempfile.NamedTemporaryFile("w", suffix=".txt") as script:
            script.write("\n".join(text()) + "\n")
            script.flush()
            runs = [run_once(script.name) for _ in range(RUNS)]
        print(f"| {name} | {min(run[0] for run in runs):.2f} | {max(run[1] for run in runs):.0f} |", flush=True)


if __name__ == "__main__":
    main()
