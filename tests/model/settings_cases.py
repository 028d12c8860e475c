"""R-11: lists of calls whose loads have settings: cases/settings.txt.  States with settings made up by a host are in call_cases.py."""

import struct
from itertools import permutations

from call_cases import (
    BUILTIN, ENDLESS, HOUSE, INNER, LARGE, MISSING_LOCALS, NEGATIVE_LOCALS, NOTHING, OUTER, RECURSIVE, ROUNDING, SAME_LOCALS,
    house, local_place,
)
from common import ANY_CALL, CHANCE_FLOATS, STANDARD, Xorshift, flt, numbers, random_program
from entity_calls import PLAYERS, STRIDE
from image_cases import Images, joined, moved_file, rule_file
from model import GLOBAL_DEFS, LARGEST_FILE, STATEMENTS, Answer, Settings, load_file

LEAST, GREATEST = Settings(0, 1, 0, 1), Settings(65_535, 31, 2_048, 99_999)
FAR = 2**31 - 1


class SettingsLists(Images):
    """Lists of calls with `image N`; a load has an entity count alone or four settings besides."""

    def new(self, *given, **named):
        super().new(*given, **named)
        self.loaded = False

    def do(self, call, expect=None):
        answer = super().do(call, expect)
        if call.startswith("load "):
            # a refused load leaves a state of zeros, as the one before it was
            assert answer.word == "accepted" or not self.loaded
            self.loaded = answer.word == "accepted"
        return answer


def load(entities=0, **changed):
    """A load with 01's settings but for those given."""
    return f"load {entities} {numbers(STANDARD._replace(**changed))}"


def with_check_number(file, check_number):
    file = bytearray(file.bytes())
    struct.pack_into("<i", file, 4, check_number)
    return file


def end_loads(c):
    for index, name in enumerate(Settings._fields):
        least, greatest = LEAST[index], GREATEST[index]
        c.new(f"R-11: {name} out of range: 36, and nothing is loaded", HOUSE)
        c.no(13, *ANY_CALL)
        for value in (least - 1, greatest + 1, -1, -FAR - 1, FAR, least - 65_536, greatest + 65_536, -greatest, STANDARD[index] + 65_536):
            c.no(36, load(**{name: value}))
            c.no(13, "get 1", "enter 1")
        c.no(13, *ANY_CALL)
        c.ok(load(), "get 28", "enter 1", "statement")
        for value in (least, least + 1, greatest - 1, greatest):
            c.new(f"R-11: {name} {value}", with_check_number(HOUSE, value) if name == "check_number" else HOUSE)
            c.ok(load(**{name: value}), "get 28", f"enter {NOTHING}")
            c.word("ended", "run 0 1")
            c.ok("get 1", "get 63")
            c.no(15, "get 64")
    c.new("R-11: all at their least", with_check_number(HOUSE, 0))
    c.ok("load 0 0 1 0 1", f"enter {NOTHING}")
    c.no(22, f"enter {NOTHING}")
    c.no(28, "run 0 2")
    c.word("ended", "run 0 1")
    c.no(23, "enter 1")
    c.new("R-11: all at their greatest", with_check_number(HOUSE, 65_535))
    c.ok("load 0 65535 31 2048 99999", "enter 1", "enter 2", f"enter {ENDLESS}")
    c.no(28, "run 2 100000")
    c.word("spent", "run 2 99999")
    c.new("R-11: several out of range; 01's numbers in another order", HOUSE)
    c.no(36, "load 0 0 0 0 0", "load 0 -1 -1 -1 -1", "load 0 65536 32 2049 100000", "load 0 5927 0 2048 100000", "load 0 65536 31 -1 99999")
    for order in permutations(STANDARD):
        if order != STANDARD:
            c.no(36, f"load 0 {numbers(order)}")
    c.no(13, *ANY_CALL)
    c.ok(f"load 0 {numbers(STANDARD)}")
    c.new("R-11: each setting is held as what it is", with_check_number(HOUSE, 7))
    c.no(3, "load 0 4 2 3 7", "load 0 2 7 4 3", "load 0 3 4 7 2")
    c.ok("load 0 7 3 4 2", f"enter {NOTHING}", "enter 2")
    c.no(23, "enter 1")
    c.ok("enter 5")
    c.no(22, f"enter {NOTHING}")
    c.ok("abandon 2", f"enter {ENDLESS}")
    c.no(28, "run 0 3")
    c.word("spent", "run 0 2")


# settings that are out of range, each in another way
BAD_SETTINGS = (load(check_number=-1), load(check_number=65_536), load(depth=0), load(depth=32), load(saved=-1), load(saved=2_049))
BAD_SETTINGS += (load(limit=0), load(limit=100_000))


def order_loads(c):
    """36 comes before every other refusal."""
    for text, file in (
        ("no bytes", b""),
        ("59 bytes", HOUSE.bytes()[:59]),
        ("1,048,577 bytes", HOUSE.bytes() + bytes(LARGEST_FILE + 1 - len(HOUSE.bytes()))),
    ):
        c.new(f"R-11: 36 before 1: {text}", file)
        c.no(36, *BAD_SETTINGS)
        c.no(1, "load 0", load(), load(check_number=0), load(depth=1))
        c.no(13, *ANY_CALL)
    c.new("R-11: 36 before the file's other refusals", HOUSE)
    for offset, value, number in (
        (0, 7, 2),
        (4, 0, 3),
        (8, -1, 4),
        (local_place(BUILTIN, "first"), -5, 5),
        (local_place(OUTER, "name"), 1, 6),
        (HOUSE.place(STATEMENTS, 3), 66, 7),
        (HOUSE.place(GLOBAL_DEFS, 1), 8 + (29 << 16), 8),
        (52, 63, 10),
        (56, 104, 11),
    ):
        old = struct.unpack_from("<i", c.machine.file, offset)[0]
        c.number(offset, value)
        c.no(36, *BAD_SETTINGS)
        c.no(number, load(), load(depth=1), load(saved=0), load(limit=1))
        c.number(offset, old)
    c.ok(load(depth=1))
    for cells, saved in ((63, 2048), (64, 2047), (64, 0), (0, 0)):
        c.new(f"R-11: 36 before 12, and 12 by 2,048: {cells} lent cells, {saved} saved", HOUSE, cells, saved)
        c.no(36, *BAD_SETTINGS)
        c.no(12, "load 0", load(), load(saved=0), load(saved=1), load(saved=2_047), load(601))
        c.no(13, *ANY_CALL)
    c.new("R-11: a saved store of 2,048 where none are to be saved", HOUSE, 64, 2048)
    c.no(36, *BAD_SETTINGS)
    c.ok(load(saved=0), f"enter {NOTHING}")
    c.new("R-11: 36 before 13 of a load", HOUSE, lent=104)
    for bad in BAD_SETTINGS:
        c.no(36, *[bad.replace("load 0", f"load {entities}") for entities in (601, -1, 1)])
    c.no(13, load(601), load(-1), load(1))
    c.ok(load(0, depth=2))


def check_number_loads(c):
    """3 compares the whole number with the one given."""
    given = (0, 1, 39, 255, 256, 5_888, 5_926, 5_927, 5_928, 65_535)
    for held in (*given, 65_536, 65_536 + 5_927, 2**24, -1, -5_927, FAR, -FAR - 1):
        c.new(f"R-11: a file with check number {held}", with_check_number(HOUSE, held))
        c.no(3, *[load(check_number=number) for number in given if number != held])
        if held != STANDARD.check_number:
            c.no(3, "load 0")
        c.no(13, "get 1", "enter 1")
        if held in given:
            c.ok(load(check_number=held), "get 28", "enter 1", "byte 4 1", "byte 5 2", "statement")  # not looked at again
    c.new("R-11: 2, then 3, then 4", with_check_number(HOUSE, 9))
    c.ok("byte 0 7", "byte 11 128")
    c.no(2, load(check_number=8), load(check_number=9))
    c.ok("byte 0 6")
    c.no(3, load(check_number=8), "load 0")
    c.no(4, load(check_number=9))
    c.ok("byte 11 0", load(check_number=9))


def depth_loads(c):
    for greatest in (1, 2, 3, 15, 30, 31):
        c.new(f"R-11: greatest depth {greatest}: entries of the host, then Calls", HOUSE)
        c.ok(load(depth=greatest), *[f"enter {NOTHING}"] * greatest)
        c.no(22, f"enter {NOTHING}", "enter 1", f"enter {NEGATIVE_LOCALS}", "enter 0", f"enter {MISSING_LOCALS}")
        c.no(20, "enter 14", "enter -1")
        c.ok("statement", f"enter {NOTHING}")
        c.no(22, f"enter {NOTHING}")
        c.ok("abandon 0", "enter 5")
        assert c.do("run 0 999", 22) == Answer("refused", 22, 2 * greatest - 1)
        assert c.machine.state.depth == greatest
        c.no(22, "statement", "enter 13")
        c.no(27, "carry")
        c.ok("put 38 3")
        c.word("builtin", "statement", "run 0 9")  # a builtin needs no depth
        c.ok("carry")
        assert c.do("run 0 99", "ended").count == greatest
        c.ok("get 50")
    c.new("R-11: what is done inside needs no depth", ROUNDING)
    c.ok(load(depth=1), f"put 4 {flt(-2.5)}", "enter 1")
    assert c.do("run 0 20") == Answer("ended", 0, 9)
    c.new("R-11: a Call that goes one too deep leaves what was done before it", HOUSE, 70, 2050)
    c.ok(load(depth=1), "enter 1")
    assert c.do("run 0 9") == Answer("refused", 22, 1)
    c.ok("get 40", f"put 36 {NOTHING}")
    c.no(22, "run 0 9")
    c.ok("abandon 0", "get 40", load(depth=2), f"put 36 {NOTHING}", "enter 1")
    assert c.do("run 0 9") == Answer("ended", 0, 4)


def saved_loads(c):
    for greatest in (0, 1, 2, 3, 5, 9):
        c.new(f"R-11: greatest saved count {greatest}: entries of the host, then Calls", HOUSE)
        c.ok(load(saved=greatest))
        for number, count in ((RECURSIVE, 1), (OUTER, 2), (INNER, 3), (SAME_LOCALS, 4)):
            c.do(f"enter {number}", "accepted" if count <= greatest else 23)
            c.ok("abandon 0")
        c.no(23, f"enter {NEGATIVE_LOCALS}", f"enter {LARGE}")
        c.do(f"enter {MISSING_LOCALS}", 15 if greatest >= 3 else 23)
        c.ok(f"enter {NOTHING}")
        for _ in range(greatest):
            c.ok("enter 5")
        c.no(23, "enter 5", "enter 1")
        c.ok(f"enter {NOTHING}", "abandon 0")
        if greatest:
            c.ok("enter 5")
            assert c.do("run 0 999", 23) == Answer("refused", 23, 2 * greatest - 1)
            assert c.machine.state.saved == greatest
            c.no(23, "statement", "enter 5")
            c.ok(f"put 38 {NOTHING}")
            assert c.do("run 0 99", "ended").count == 2 + greatest
    for greatest in (2_046, 2_047, 2_048):
        c.new(f"R-11: greatest saved count {greatest}, and 2,047 locals", house(cell_count=2100), 2100)
        c.ok(load(saved=greatest), "enter 13")
        if greatest < 2_047:
            c.no(23, f"enter {LARGE}")
            continue
        c.ok(f"enter {LARGE}", "enter 13")
        if greatest == 2_047:
            c.no(23, "enter 5")
            continue
        c.no(23, "enter 1")
        c.ok("enter 5")
        c.no(23, "enter 5")
        c.ok("abandon 0")
    c.new("R-11: 20, 22, 23, 15 in this order", HOUSE)
    c.ok(load(depth=1, saved=2))
    c.no(23, f"enter {MISSING_LOCALS}", "enter 2")
    c.ok("enter 1")
    c.no(22, f"enter {MISSING_LOCALS}", "enter 2", "enter 5")
    c.no(20, "enter 14")
    c.no(22, "run 0 5")
    c.ok("abandon 0", load(depth=2, saved=2), "enter 1")
    c.no(23, f"enter {MISSING_LOCALS}", "enter 2", "enter 5", "run 0 5")


def limit_loads(c):
    for greatest in (1, 2, 3, 10, 255, 256, 50_000, 99_998, 99_999):
        c.new(f"R-11: greatest run limit {greatest}", HOUSE)
        c.ok(load(limit=greatest))
        c.no(28, f"run 0 {greatest + 1}", "run 0 0")
        c.no(29, f"run 0 {greatest}")
        c.ok(f"enter {ENDLESS}")
        c.no(28, f"run 0 {greatest + 1}", "run 0 100000", "run 0 -1", "run 0 0", f"run 0 {FAR}", f"run 1 {greatest + 1}")
        c.no(28, f"run -1 {greatest + 1}", f"run 9 {greatest + 65_536}")
        c.no(29, f"run 1 {greatest}", f"run -1 {greatest}", "run 1 1")
        limits = (greatest, 1) if greatest in (1, 2, 3, 10, 255, 256, 99_998) else (1,)
        for limit in limits:
            assert c.do(f"run 0 {limit}") == Answer("spent", 0, limit)
        if greatest < 99_999:
            c.no(28, "run 0 99999")
    c.new("R-11: a run that stops at a lower limit, and goes on", HOUSE)
    c.ok(load(limit=3), f"put 36 {NOTHING}", "enter 1")
    c.no(28, "run 0 4")
    assert c.do("run 0 3") == Answer("spent", 0, 3)
    assert c.do("run 0 3") == Answer("ended", 0, 1)
    c.ok(load(limit=4), f"put 36 {NOTHING}", "enter 1")
    assert c.do("run 0 4") == Answer("ended", 0, 4)
    c.no(28, "run 0 5")
    c.no(29, "run 0 4")
    c.ok(load(limit=2), "enter 1")
    assert c.do("run 0 2") == Answer("spent", 0, 2)
    assert c.do("run 0 2") == Answer("builtin", 7, 1)
    c.no(28, "run 0 3")
    c.ok("carry")
    assert c.do("run 0 2") == Answer("opcode", 60, 0)
    c.ok("carry")
    assert c.do("run 0 2") == Answer("ended", 0, 2)


def again_loads(c):
    c.new("R-11: the settings hold until the next load, whatever is done", HOUSE)
    for depth, saved, limit in ((2, 5, 6), (3, 6, 5), (2, 2, 2), (31, 2048, 99999), (1, 0, 1), (4, 12, 9)):
        c.ok(load(depth=depth, saved=saved, limit=limit), f"enter {NOTHING}")
        c.ok("put 36 13", "get 40", "abandon 0")
        c.do(f"enter {OUTER}", "accepted" if saved >= 2 else 23)
        c.do(f"run 0 {min(limit, 3)}")
        c.do(f"enter {INNER}")
        c.no(28, f"run 0 {limit + 1}")
        while c.machine.state.depth < depth:
            c.ok(f"enter {NOTHING}")
        c.no(22, f"enter {NOTHING}")
        c.do("run 0 1")
        c.do("carry")
        c.ok("abandon 0")
    c.ok("load 0", *["enter 13"] * 31)
    c.no(22, "enter 13")
    assert c.do("run 5 99999", "ended").count == 26
    c.new("R-11: with entities", PLAYERS, lent=3 * STRIDE)
    for entities in (0, 1, 3):
        c.ok(load(entities, depth=1 + entities, saved=3, limit=40), "enter 1")
        c.do("run 0 40")
        c.no(28, "run 0 41")
        c.do("enter 2")
        c.do("run 0 9")
        c.ok("abandon 0")


def written_loads(c):
    """R-6 writes the check number held."""
    for check_number in (0, 1, 255, 256, 5_926, 5_927, 5_928, 65_535):
        file = with_check_number(moved_file(), check_number)
        written = joined(file, check_number)
        assert written[4:8] == struct.pack("<i", check_number) and written[8:] == joined(rule_file())[8:]
        settings = load(check_number=check_number, depth=2, saved=7, limit=9)
        c.new(f"R-11: check number {check_number} is written", file)
        if check_number != STANDARD.check_number:
            c.no(3, "load 0")
            c.not_written(13, 0, len(written))
        c.ok(settings)
        c.image(written)
        c.not_written(34, len(written) - 1)
        c.ok("byte 4 9", "byte 5 9", "byte 7 255")  # the file's is another now
        c.image(written, 3)
        c.ok("enter 1")
        c.word("builtin", "run 0 9")
        c.image(written)
        c.new("what was written", written)
        if check_number != STANDARD.check_number:
            c.no(3, "load 0")
        c.ok(settings)
        c.image(written)
    c.new("R-11: one file, loaded under one check number after the other", HOUSE)
    for check_number in (5_927, 300, 0, 65_535, 5_927):
        c.number(4, check_number)
        c.ok(load(check_number=check_number, limit=5), "enter 1")
        c.image(joined(HOUSE, check_number))
        c.number(4, 77)
        c.word("builtin", "run 0 5")
        c.image(joined(HOUSE, check_number))


def load_file_loads(c):
    """R-10: "under check number 5927 and a run limit above n"."""
    for seed, n in ((1, 1), (77, 20), (4_294_967_295, 300)):
        file = load_file(seed, n)
        c.new(f"R-11: the load file of {seed} and {n}", file)
        c.no(3, load(check_number=5_926), load(check_number=0))
        for settings in (dict(limit=n + 1), dict(depth=1, saved=0, limit=n + 1), dict(depth=1, saved=0), {}):
            c.ok(load(**settings), "enter 1")
            assert c.do(f"run 0 {n + 1}") == Answer("ended", 0, n + 1)
            c.image(file)
        c.ok(load(limit=n, depth=1, saved=0), "enter 1")
        c.no(28, f"run 0 {n + 1}")
        assert c.do(f"run 0 {n}") == Answer("spent", 0, n)
        assert c.do("run 0 1") == Answer("ended", 0, 1)


def random_loads(c):
    for seed in range(1, 41):
        chance = Xorshift(seed * 2654435761 % 2**32)
        entities = chance.below(3)
        check_number = chance.pick((5_927, 0, 65_535, chance.below(65_536)))
        file = with_check_number(random_program(chance, hosts=True, entities=entities > 0), check_number)
        c.new(f"R-11: made by chance, {seed}", file, 64 + chance.below(4), 2048, 105 * entities)
        for _ in range(3):
            settings = Settings(check_number, 1 + chance.below(6), chance.pick((0, 3, 8, 20)), 1 + chance.below(40))
            c.ok(f"load {entities} {numbers(settings)}")
            for _ in range(6):
                c.do(f"enter {1 + chance.below(5)}")
                c.do(f"run {chance.below(3)} {1 + chance.below(45)}")
                c.do(chance.pick(("carry", "statement", "enter 5", f"abandon {chance.below(4)}", f"put {40 + chance.below(4)} {chance.below(8)}",
                                  f"put {28 + chance.below(30)} {chance.pick(CHANCE_FLOATS)}", f"get {26 + chance.below(40)}")))
            c.image(joined(file, check_number), chance.below(5))


def settings_cases():
    c = SettingsLists()
    end_loads(c)
    order_loads(c)
    check_number_loads(c)
    depth_loads(c)
    saved_loads(c)
    limit_loads(c)
    again_loads(c)
    written_loads(c)
    load_file_loads(c)
    random_loads(c)
    return c
