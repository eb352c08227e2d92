"""Compares the model with a program, or with itself where every second passes by itself.

    compare.py FIRST_SEED LAST_SEED LINES PROGRAM
    compare.py FIRST_SEED LAST_SEED LINES plainly
    compare.py FIRST_SEED LAST_SEED LINES cases FOLDER

Each script is compared as it is drawn, and with a program again with spoiled lines. With `plainly` only scripts of at most
100000 seconds are taken. With `cases` nothing is compared: the same scripts and what the model says of them are written into a
folder, for `rt try --cases`. Tells the first difference of each script, and at the end how often each answer came.
"""

import random
import subprocess
import sys
from collections import Counter
from itertools import zip_longest
from pathlib import Path

from generate import draw_script
from model import output_of

MOST_PLAIN_SECONDS = 100000


def answer_name(request, answer):
    """The form of a request, and how it was answered."""
    form = request.split(" ")[0] or "line"
    first = answer[0].split(" ")
    if first[0] == "no":
        return f"{form} no {first[3]}"
    if first[0] == "bad":
        return f"{form} {answer[0]}"
    order = answer[1].split(" ")[0] if form in ("build", "research", "yard", "send", "join", "recall") else "ok"
    return f"{form} {order}"


def spoiled(lines, rng):
    """The lines, with one line said twice, left out, mixed with another one or spelled in another way."""
    founding = lines.index(".") + 1
    index = rng.randrange(1, founding) if rng.random() < 0.6 else rng.randrange(len(lines))
    line, other = lines[index], rng.choice(lines[:founding])
    words = line.split(" ")
    place = rng.randrange(len(words))
    number = words[place].isdigit() and int(words[place])
    new_lines = rng.choice([
        [line, line],
        [],
        [other],
        [" ".join(words[:place] + other.split(" ")[place:])],
        [" ".join(words[:place] + [str(number + rng.choice([-1, 1, 20, 100000]))] + words[place + 1 :])],
        [line + rng.choice(["\r", "\r\r", " ", "x"])],
    ])
    return lines[:index] + new_lines + lines[index + 1 :]


def first_difference(wanted, got):
    for index, (ours, theirs) in enumerate(zip_longest(wanted, got)):
        if ours != theirs:
            return f"line {index + 1}: the model says {ours!r}, the other {theirs!r}"
    return None


def with_status(lines, status):
    return lines + [f"status {status}"]


def program_output(program, data):
    ended = subprocess.run([program, ".", "trial", "dump"], input=data, capture_output=True)
    return with_status(ended.stdout.decode().splitlines(), ended.returncode)


def write_case(name, data, model):
    """A case for `rt try --cases`, which does not compare the status."""
    folder = Path(sys.argv[5])
    folder.mkdir(parents=True, exist_ok=True)
    (folder / name).write_bytes(data)
    (folder / f"{name}.stdout").write_text("".join(line + "\n" for line in model[:-1]))


def differences(program, lines, seed):
    rng = random.Random(seed)
    data = "".join(line + "\n" for line in lines).encode()
    model = with_status(*output_of(data, True, False))
    if program == "cases":
        write_case(f"seed{seed}", data, model)
        for index in range(3):
            data = "\n".join(spoiled(lines, rng)).encode()
            write_case(f"seed{seed}spoiled{index}", data, with_status(*output_of(data, True, False)))
        return
    if program == "plainly":
        yield first_difference(model, with_status(*output_of(data, True, True)))
        return
    yield first_difference(model, program_output(program, data))
    for _ in range(5):
        data = "\n".join(spoiled(lines, rng)).encode()
        yield first_difference(with_status(*output_of(data, True, False)), program_output(program, data))


def main():
    first, last, lines = map(int, sys.argv[1:4])
    counts, scripts, differing = Counter(), 0, 0
    for seed in range(first, last + 1):
        script = draw_script(seed, lines)
        if sys.argv[4] == "plainly" and script.now() > MOST_PLAIN_SECONDS:
            continue
        scripts += 1
        found = [told for told in differences(sys.argv[4], script.lines, seed) if told]
        differing += len(found)
        for told in found:
            print(f"seed {seed}: {told}", flush=True)
        counts.update(answer_name(*said) for said in script.answers)
        counts.update(script.run.universe.seen)
    for name, count in sorted(counts.items()):
        print(f"{count:8} {name}")
    print(f"{scripts} scripts, {differing} differences")


if __name__ == "__main__":
    main()
