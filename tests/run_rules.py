#!/usr/bin/env python3
"""Runs the rule files of tests/rules, compiled by fteqcc, on the built show program and on the model (tests/model), and compares
both with what was worked out by hand. After `tools/program show`:

    python3 tests/run_rules.py              runs and compares; also whether expected.txt and players.txt of tests/rules are what the model gives
    python3 tests/run_rules.py --write      writes them, from the model; needs no show program

The match of players.dat, whose players are entities, is played on the model and in plain Python (tests/players_match.py), which takes 20 seconds.

Counts by hand are from the statements that fteqcc makes of the sources, as pairs of how often and how many.
"""
import os
import struct
import subprocess
import sys

ROOT = os.path.dirname(os.path.dirname(os.path.abspath(__file__)))
sys.path.insert(0, os.path.join(ROOT, "tests", "model"))
sys.path.insert(0, os.path.join(ROOT, "tests"))
import model  # noqa: E402
import players_match  # noqa: E402

RULES = os.path.join(ROOT, "tests", "rules")
SHOW = os.path.join(ROOT, "crates", "show", "out", "show")

# What the show program prints: it runs function 1, the first of each source. Results and counts are worked out at the rows below.
LINES = {
    "season.dat": "ended,0,207,0,0,0,0,40000000,40400000,3f800000",
    "ball.dat": "ended,0,156,0,0,0,0,40900000,40100000,3fc00000",
    "phases.dat": "ended,0,2451,0,0,0,0,42d00000,40400000,40000000",
    "cup.dat": "ended,0,284,0,0,0,0,40a00000,40000000,40e00000",
    # the position stays at the statement that is handed over or refused; saved are goal's four local cells
    "toss.dat": "builtin,7,3,4,1,1,0,00000000,00000000,00000000",
    "captain.dat": "refused,30,2,3,1,1,0,00000000,00000000,00000000",
    # the Address of self.classname finds no entity
    "players.dat": "refused,30,2,3,1,1,0,00000000,00000000,00000000",
    "referee.dat": "refused,16,2,3,1,1,4,00000000,00000000,00000000",
    "teams.dat": "ended,0,7,0,0,0,0,3f800000,3f800000,3f800000",
    "shout.dat": "builtin,23,1,2,1,1,0,00000000,00000000,00000000",
    "shout_optimised.dat": "refused,16,0,1,1,1,0,00000000,00000000,00000000",
}


def bits(value):
    return struct.unpack("<I", struct.pack("<f", value))[0]


class Text(int):
    """An argument that is a string's number."""


def rounded_factorial(n):
    """n! where each product is rounded to single precision. Two singles' product is exact in double, so it is rounded once."""
    product = 1.0
    for factor in range(2, n + 1):
        product = struct.unpack("<f", struct.pack("<f", product * factor))[0]
    return product


# File, function, arguments, outcome, completed statements, and what cells hold then, by number or by the name of a definition.
BY_HAND = [
    # season 17; play 3 x 9; record 2 x (13 + 15 + 14); points_for 3 x 3 for a win, 3 x 5 for a defeat; ranks_above 3 x 6; table 37
    ("season.dat", "season", (), "ended", 17 + 27 + 84 + 24 + 18 + 37, {
        1: 2, 2: 3, 3: 1, "reds_points": 3, "reds_scored": 2, "reds_conceded": 2, "blues_points": 3, "blues_scored": 4,
        "blues_conceded": 4, "greens_points": 3, "greens_scored": 3, "greens_conceded": 3}),
    # Gt, IfNot, Return; with a draw Gt, IfNot, EqF, IfNot, Return
    ("season.dat", "points_for", (2, 1), "ended", 3, {1: 3}),
    ("season.dat", "points_for", (2, 2), "ended", 5, {1: 1}),
    # NeF, IfNot, NeF, IfNot, Gt, Return: the points are equal, the difference of 1 ranks above that of 0
    ("season.dat", "ranks_above", (3, 1, 5, 3, 0, 9), "ended", 6, {1: 1}),
    # fly 4 + 9 x 6 + 3; move 7 x 9, and 2 x 16 where the ball bounces
    ("ball.dat", "fly", (), "ended", 61 + 63 + 32, {1: 4.5, 2: 2.25, 3: 1.5, "bounces": 2, "speed_z": 3}),
    # half of 9 + 16 + 0; MulV, MulF, Return
    ("ball.dat", "energy", ((3, 4, 0),), "ended", 3, {1: 12.5}),
    # match 5 + 104 x 6 + 2 + 5; watch 104 x 11 and 2 for each of five goals; first_half 45 x 6 + 1; second_half 44 x 6 + 10;
    # extra_time 14 x 8 + 1; over 3
    ("phases.dat", "match", (), "ended", 636 + 1154 + 271 + 274 + 113 + 3, {1: 104, 2: 3, 3: 2, "seen": 15}),
    # cup 8; champion 8 x 3 for one club, 7 x 17 for more; winner 7 x 13; strength 14 x 3
    ("cup.dat", "cup", (), "ended", 8 + 24 + 119 + 91 + 42, {1: 5, 2: 2, 3: 7}),
    # 120; 4 x 5 on the way in, 3 for the last, 4 x 2 on the way out
    ("cup.dat", "orders", (5,), "ended", 20 + 3 + 8, {1: 120}),
    ("cup.dat", "orders", (31,), "ended", 30 * 5 + 3 + 30 * 2, {1: rounded_factorial(31)}),
    # one more is refused at the 31st Call: 30 that entered, and the four statements before it
    ("cup.dat", "orders", (32,), "refused:22", 30 * 5 + 4, {}),
    ("toss.dat", "toss", (), "builtin:7", 3, {"tosses": 1, "kick_off": 1}),
    # AddF and StoreF; the LoadF finds no entity
    ("captain.dat", "captain_plays", (), "refused:30", 2, {"armbands": 1}),
    # AddF and StoreF; the Address finds no entity
    ("players.dat", "ClientConnect", (), "refused:30", 2, {"player_count": 1}),
    # AddF and StoreF, then the IfNot is refused
    ("referee.dat", "goal", (Text(19),), "refused:16", 2, {"goals": 1, "named": 0}),
    # AddF, StoreF, NotS, IfNot, Return; with a name AddF, StoreF and Done in place of Return
    ("referee.dat", "named_goal", (Text(0),), "ended", 5, {"goals": 1, "named": 0}),
    ("referee.dat", "named_goal", (Text(19),), "ended", 7, {"goals": 1, "named": 1}),
    # AddF, StoreF and Call 30 times, then AddF and StoreF at depth 31
    ("referee.dat", "appeal", (), "refused:22", 30 * 3 + 2, {"appeals": 31}),
    ("referee.dat", "end_of_match", (), "ended", 4, {1: 0, 2: 0, 3: 0}),
    # EqS, NeS and NotS, each with a StoreF, and Return
    ("teams.dat", "derby", (), "ended", 7, {1: 1, 2: 1, 3: 1}),
    # EqS, IfNot, AddF, StoreF for each match that counts, EqS and IfNot for one that doesn't; Return. The Reds are 25 and 53
    ("teams.dat", "points", (Text(25),), "ended", 4 + 4 + 2 + 1, {1: 4}),
    ("teams.dat", "points", (Text(53),), "ended", 4 + 4 + 2 + 1, {1: 4}),
    ("teams.dat", "points", (Text(58),), "ended", 2 + 2 + 4 + 1, {1: 1}),
    # "eds", and "Blues", who lost
    ("teams.dat", "points", (Text(26),), "ended", 3 * 2 + 1, {1: 0}),
    ("teams.dat", "points", (Text(30),), "ended", 3 * 2 + 1, {1: 0}),
    # the strings are 3,164 bytes
    ("teams.dat", "points", (Text(3163),), "ended", 3 * 2 + 1, {1: 0}),
    ("teams.dat", "points", (Text(3164),), "refused:33", 0, {}),
    ("teams.dat", "points", (Text(0xffffffff),), "refused:33", 0, {}),
    # NotS, IfNot, Return; 36 is the sponsor's empty text
    ("teams.dat", "unnamed", (Text(0),), "ended", 3, {1: 1}),
    ("teams.dat", "unnamed", (Text(36),), "ended", 3, {1: 1}),
    ("teams.dat", "unnamed", (Text(25),), "ended", 3, {1: 0}),
    ("teams.dat", "unnamed", (Text(3164),), "refused:33", 0, {}),
    ("shout.dat", "shout", (), "builtin:23", 1, {}),
    ("shout_optimised.dat", "shout", (), "refused:16", 0, {}),
]


def content(name):
    with open(os.path.join(RULES, name), "rb") as file:
        return file.read()


class Rules:
    """A loaded rule file, with names."""

    def __init__(self, name):
        file = content(name)
        self.machine = model.Machine(file, [0] * model.MOST_CELLS, [0] * model.MOST_SAVED)
        assert self.machine.load().word == "accepted", name
        self.program = model.Program(file, model.read_header(file)[2])

    def text(self, at):
        begin = self.program.lumps[2 * model.STRINGS] + at
        return self.program.file[begin:self.program.file.index(0, begin)].decode("ascii")

    def function(self, name):
        numbers = range(self.program.count(model.FUNCTIONS))
        return next(n for n in numbers if self.text(self.program.function(n).name) == name)

    def cell(self, name):
        if isinstance(name, int):
            return name
        definitions = (self.program.definition(model.GLOBAL_DEFS, n) for n in range(self.program.count(model.GLOBAL_DEFS)))
        return next(d.cell for d in definitions if self.text(d.name) == name)


def arguments_as_cells(arguments):
    """Argument i stands in the cells from 4 + 3i."""
    cells = {}
    for i, argument in enumerate(arguments):
        for j, value in enumerate(argument if isinstance(argument, tuple) else (argument,)):
            cells[4 + 3 * i + j] = value if isinstance(value, Text) else bits(value)
    return cells


def run(name, function, arguments, results):
    """The model's outcome, count, and the cells that are asked for."""
    rules = Rules(name)
    machine = rules.machine
    for cell, value in arguments_as_cells(arguments).items():
        machine.write(cell, value)
    answer = machine.enter(rules.function(function))
    if answer.word != "refused":
        answer = machine.run(0, model.MOST_STATEMENTS)
    outcome = answer.word if answer.word == "ended" else f"{answer.word}:{answer.detail}"
    return outcome, answer.count, {rules.cell(cell): machine.cells[rules.cell(cell)] for cell in results}


def rows():
    """The lines of expected.txt; complains where the model says something else than was worked out by hand."""
    lines, differ = [], 0
    for name, function, arguments, outcome, count, results in BY_HAND:
        got_outcome, got_count, got_cells = run(name, function, arguments, results)
        by_hand = [bits(value) for value in results.values()]
        if (got_outcome, got_count, list(got_cells.values())) != (outcome, count, by_hand):
            differ += 1
            print(f"{name} {function}{arguments}: the model gives {got_outcome} {got_count} {got_cells}")
        cells = [f"{cell}={value:08x}" for cell, value in got_cells.items()]
        given = [f"{cell}={value:08x}" for cell, value in arguments_as_cells(arguments).items()]
        lines.append(" ".join([name, function, *given, got_outcome, str(got_count), *cells]) + "\n")
    return lines, differ


def written():
    """What tests/rules has from the model, by file; and in how many rows the model differs from what was worked out by hand."""
    lines, differ = rows()
    return {"expected.txt": lines, "players.txt": players_match.play()}, differ


def main():
    files, differ = written()
    if "--write" in sys.argv:
        for name, lines in files.items():
            with open(os.path.join(RULES, name), "w", encoding="ascii") as file:
                file.writelines(lines)
        sys.exit(differ != 0)
    for name, lines in files.items():
        with open(os.path.join(RULES, name), encoding="ascii") as file:
            if file.readlines() != lines:
                differ += 1
                print(f"tests/rules/{name} isn't what the model gives: python3 tests/run_rules.py --write")
    for name, line in LINES.items():
        shown = subprocess.run([SHOW], input=content(name), capture_output=True, check=True).stdout.decode()
        for who, got in ("show", shown), ("the model", model.show(content(name)) + "\n"):
            if got != line + "\n":
                differ += 1
                print(f"{name}: {who} says {got!r}, by hand it is {line!r}")
    print(f"{len(LINES)} rule files, {len(files['expected.txt'])} functions, {len(files['players.txt'])} lines of a match, {differ} differ")
    sys.exit(differ != 0)


if __name__ == "__main__":
    main()
