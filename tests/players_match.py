"""The match of tests/rules/players.qc, played twice: by the model of tests/model on the compiled file, and here in plain Python, from the
rules' text. `play` compares the two after each call and gives the lines of tests/rules/players.txt; run_rules.py writes and checks them.

All numbers of the match are exact in single precision, so that plain Python's come out the same.
"""
import os
import struct
import sys

ROOT = os.path.dirname(os.path.dirname(os.path.abspath(__file__)))
sys.path.insert(0, os.path.join(ROOT, "tests", "model"))
import model  # noqa: E402

FILE = os.path.join(ROOT, "tests", "rules", "players.dat")
PLAYERS, FRAMES = 32, 16
FRAME_TIME, ARENA, FRAG_LIMIT = 0.5, 240, 20
FNV_BASIS, FNV_PRIME = 14695981039346656037, 1099511628211


def single(number):
    """A float's bits; complains where the number isn't exact in single precision."""
    packed = struct.pack("<f", number)
    assert struct.unpack("<f", packed)[0] == number, number
    return struct.unpack("<I", packed)[0]


def digest(numbers):
    result = FNV_BASIS
    for byte in struct.pack("<%dI" % len(numbers), *numbers):
        result = (result ^ byte) * FNV_PRIME % 2**64
    return "%016x" % result


# ---- the match without a machine


class Player:
    def __init__(self, number, chain):
        self.number, self.chain = number, chain
        self.team = 1 if number % 2 else 2
        self.weapon, self.shots = number % 4, number % 8
        self.max_health = 60 + 5 * (number % 8)
        self.home = (16 * number - 264, 8 * self.team, 24)
        self.ranked_by = "frags" if number % 2 else "hits"
        self.frags = self.hits = self.deaths = self.best_streak = self.bounces = self.respawn_at = 0
        self.last_attacker = 0
        self.begin()

    def begin(self):
        self.health, self.armorvalue, self.deadflag, self.streak, self.enemy = self.max_health, 25, 0, 0, 0
        sign = 1 if self.team == 1 else -1
        self.origin, self.velocity = self.home, (64 * sign, 32 * sign, 0)


class Plain:
    """The match by its rules. Players are told apart by their numbers, which are those of their entities."""

    def __init__(self):
        self.players = {}
        self.head = self.leader = self.red = self.blue = 0
        self.time, self.printed = 0, []

    def connect(self, number):
        self.players[number] = Player(number, self.head)
        self.head = number

    def frame(self, time):
        self.time = time
        number = self.head
        while number:
            player = self.players[number]
            if player.deadflag:
                if time >= player.respawn_at:
                    player.begin()
            else:
                self.alive(player)
            number = player.chain

    def alive(self, player):
        player.origin = tuple(o + v * FRAME_TIME for o, v in zip(player.origin, player.velocity))
        if sum(o * o for o in player.origin) > ARENA * ARENA:
            player.velocity = tuple(-v for v in player.velocity)
            player.bounces += 1
        player.health += player.health < player.max_health
        player.shots += 1
        victim = self.next_enemy(player) if player.shots % 2 == 0 else None
        if victim:
            player.enemy = victim.number
            self.hit(player, victim, 30 + 6 * player.weapon)

    def next_enemy(self, player):
        number = player.number
        for _ in self.players:
            number = self.players[number].chain or self.head
            found = self.players[number]
            if found.team != player.team and not found.deadflag:
                return found
        return None

    def hit(self, attacker, victim, damage):
        absorbed = min(damage / 2, victim.armorvalue)
        victim.armorvalue -= absorbed
        victim.health -= damage - absorbed
        victim.last_attacker = attacker.number
        attacker.hits += 1
        if victim.health <= 0:
            self.killed(attacker, victim)

    def killed(self, attacker, victim):
        victim.deaths += 1
        victim.deadflag, victim.velocity, victim.respawn_at = 1, (0, 0, 0), self.time + 1.5
        attacker.frags += 1
        attacker.streak += 1
        attacker.best_streak = max(attacker.best_streak, attacker.streak)
        if attacker.team == 1:
            self.red += 1
        else:
            self.blue += 1
        if attacker.frags > (self.players[self.leader].frags if self.leader else 0):
            self.leader = attacker.number
        self.printed.append("Home" if victim.team == 1 else "Guests")

    def over(self):
        return 2 if self.blue >= FRAG_LIMIT else 1 if self.red >= FRAG_LIMIT else 0

    def best_rank(self):
        return max(getattr(player, player.ranked_by) for player in self.players.values())


# ---- the match on the model


class OnModel:
    """The compiled rules on the model, with names."""

    def __init__(self):
        with open(FILE, "rb") as file:
            content = file.read()
        self.program = model.Program(content, model.read_header(content)[2])
        self.per_entity = model.read_header(content)[3]
        cells, saved = [0] * model.MOST_CELLS, [0] * model.MOST_SAVED
        self.machine = model.Machine(content, cells, saved, [0] * ((PLAYERS + 1) * self.per_entity))
        assert self.machine.load(PLAYERS + 1).word == "accepted"
        self.fields = {self.text(d.name): d for d in self.definitions(model.FIELD_DEFS)}
        self.cells = {self.text(d.name): d.cell for d in reversed(list(self.definitions(model.GLOBAL_DEFS)))}
        self.functions = {self.text(self.program.function(n).name): n for n in range(self.program.count(model.FUNCTIONS))}
        self.printed = []

    def definitions(self, lump):
        return (self.program.definition(lump, n) for n in range(self.program.count(lump)))

    def strings(self):
        begin = self.program.lumps[2 * model.STRINGS]
        return bytes(self.program.file[begin:begin + self.program.count(model.STRINGS)])

    def text(self, at):
        strings = self.strings()
        return strings[at:strings.index(0, at)].decode("ascii")

    def find_text(self, text):
        return (b"\0" + self.strings()).index(b"\0" + text.encode() + b"\0")

    def set(self, name, value):
        assert self.machine.write(self.cells[name], value).word == "accepted"

    def set_field(self, entity, name, value):
        self.machine.entity_cells[entity * self.per_entity + self.fields[name].cell] = value

    def field(self, entity, name):
        definition = self.fields[name]
        first = entity * self.per_entity + definition.cell
        size = 3 if definition.type == model.VECTOR else 1
        return self.machine.entity_cells[first:first + size]

    def call(self, name, outcome="ended"):
        """A call with a host that prints; its completed statements, what was handed over included."""
        machine, count = self.machine, 0
        assert machine.enter(self.functions[name]).word == "accepted"
        while True:
            answer = machine.run(0, model.MOST_STATEMENTS - count)
            count += answer.count
            if answer.word != "builtin":
                break
            assert answer.detail == 23 and machine.carry_on().word == "accepted"
            self.printed.append(self.text(machine.cells[4]))
            count += 1
        assert answer.word == outcome, (name, answer)
        return count, answer


# the fields that are compared, by type
FLOATS = ("number team weapon shots max_health health armorvalue deadflag streak best_streak frags hits deaths bounces respawn_at").split()
VECTORS = ("origin", "velocity", "home")
ENTITIES = ("chain", "enemy", "last_attacker")


def compare(plain, on_model):
    """Every field of every player, and the sides' points."""
    for number, player in plain.players.items():
        for name in FLOATS:
            assert on_model.field(number, name) == [single(getattr(player, name))], (number, name)
        for name in VECTORS:
            found = on_model.field(number, name)
            assert all(f == single(v) or f & 0x7FFFFFFF == v == 0 for f, v in zip(found, getattr(player, name))), (number, name)
        for name in ENTITIES:
            assert on_model.field(number, name) == [getattr(player, name)], (number, name)
        think = on_model.functions["dead" if player.deadflag else "alive"]
        assert on_model.field(number, "think") == [think], number
    for name in "red", "blue":
        assert on_model.machine.cells[on_model.cells[name]] == single(getattr(plain, name)), name
    assert on_model.machine.cells[on_model.cells["leader"]] == plain.leader
    assert on_model.machine.cells[on_model.cells["over"]] == single(plain.over())
    assert on_model.printed == plain.printed
    # the world is an entity too, and nobody writes it
    assert not any(on_model.machine.entity_cells[:on_model.per_entity])


def connect_all(plain, on_model):
    for number in range(1, PLAYERS + 1):
        on_model.set("self", number)
        on_model.set_field(number, "netname", on_model.find_text("Home" if number % 2 else "Guests"))
        count, _ = on_model.call("ClientConnect")
        plain.connect(number)
        compare(plain, on_model)
        yield "connect %d %d %s" % (number, count, digest(on_model.machine.entity_cells))


def play_frames(plain, on_model):
    on_model.set("self", 0)
    for name, value in ("arena", ARENA), ("frag_limit", FRAG_LIMIT), ("frametime", FRAME_TIME):
        on_model.set(name, single(value))
    for number in range(1, FRAMES + 1):
        on_model.set("time", single(number * FRAME_TIME))
        count, _ = on_model.call("StartFrame")
        plain.frame(number * FRAME_TIME)
        compare(plain, on_model)
        points = "%d %d %d" % (plain.red, plain.blue, len(plain.printed))
        yield "frame %d %d %s %s" % (number, count, points, digest(on_model.machine.entity_cells))


def end(plain, on_model):
    cells = on_model.machine.cells
    count, _ = on_model.call("EndMatch")
    result = [plain.players[plain.leader].frags, plain.red, plain.blue]
    assert cells[1:4] == [single(number) for number in result]
    yield "end %d %d %d %d" % (count, *result)
    count, _ = on_model.call("best_rank")
    assert cells[1] == single(plain.best_rank())
    yield "best %d %d" % (count, plain.best_rank())
    count, _ = on_model.call("leader_name")
    name = "Home" if plain.leader % 2 else "Guests"
    assert on_model.text(cells[1]) == name
    yield "leader %d %d %s" % (count, plain.leader, name)


def broken(on_model):
    """A call that is refused 30 after it wrote a field, which stays written."""
    on_model.set("self", 1)
    on_model.set_field(1, "bounces", single(5))
    on_model.machine.write(4, PLAYERS + 1)
    count, answer = on_model.call("broken", "refused")
    assert answer.detail == 30 and on_model.field(1, "bounces") == [0]
    assert on_model.machine.abandon(0).word == "accepted"
    yield "broken %d %d" % (count, answer.detail)


def table(plain):
    for number, player in plain.players.items():
        x, y, z = player.origin
        numbers = player.frags, player.deaths, player.hits, player.best_streak, player.enemy, player.last_attacker
        yield "player %d %s %s %s %s %s %s" % (number, " ".join(map(str, numbers)), *map(float, (player.health, player.armorvalue, x, y, z)))


def play():
    """The lines of tests/rules/players.txt. An assertion fails where the model and plain Python differ."""
    plain, on_model = Plain(), OnModel()
    lines = [*connect_all(plain, on_model), *play_frames(plain, on_model), *end(plain, on_model), *table(plain), *broken(on_model)]
    return [line + "\n" for line in lines]
