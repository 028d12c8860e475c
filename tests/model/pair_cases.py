"""R-9: lists of calls with many raw writes in one: cases/pairs.txt."""

from call_cases import HOUSE, Calls, house, local_place
from common import ANY_CALL, CHANCE_FLOATS, Xorshift, flat, flt, numbers, random_program
from model import ONE, Answer

FAR = 2**31 - 1


class Pairs(Calls):
    """Lists of calls with one more: `pairs A V A V ..`."""

    def _perform(self, word, given):
        return self.machine.write_pairs(given) if word == "pairs" else super()._perform(word, given)

    def pairs(self, *pairs):
        """Written by hand, cell by cell; the others stay."""
        cells = list(self.machine.cells)
        self.ok(f"pairs {numbers(flat(pairs))}".rstrip())
        for address, value in pairs:
            cells[address] = value
        assert self.machine.cells == cells

    def refused(self, number, *lists):
        """Lists of numbers that are refused; nothing is written."""
        cells = list(self.machine.cells)
        for given in lists:
            self.no(number, f"pairs {numbers(given)}".rstrip())
        assert self.machine.cells == cells


def many(count, first=0, value=1000):
    """So many pairs, of addresses one after the other."""
    return [(first + i, value + i) for i in range(count)]


def count_pairs(c):
    c.new("R-9: none, one, 64 and 65 pairs; numbers without a pair", house(cell_count=130), 140)
    c.refused(13, [], [1, 2], [1])  # nothing is loaded
    c.ok("load 0")
    for count in (0, 1, 2, 3, 31, 32, 33, 63, 64):
        c.pairs(*many(count, 3))
    c.refused(15, flat(many(65)), flat(many(66)), flat(many(130)), flat(many(65, 129)), flat(many(1000, 0)))
    c.refused(15, [5], [5, 6, 7], flat(many(63)) + [100], flat(many(64)) + [100], flat(many(65)) + [100], flat(many(2)) + [FAR])
    c.pairs(*many(64, 66, 0xFFFFFF00))
    c.pairs((129, 0), (0, 0xFFFFFFFF))


def bad_pairs(c):
    c.new("R-9: a bad address first, in the middle, last; nothing is written", HOUSE, 70)
    c.ok("load 0")
    for address in (64, 69, 70, -1, -64, FAR, -FAR - 1, 65536 + 28):
        bad = [address, 5]
        c.refused(15, bad, bad + [28, 1], [28, 1] + bad, [28, 1] + bad + [29, 2], [28, 1, 28, 2, 28, 3] + bad)
    for index in (0, 1, 31, 62, 63):
        pairs = many(64)
        pairs[index] = (64, 9)
        c.refused(15, flat(pairs))
    c.refused(15, flat(many(64, 1)), flat(many(2, 63)), flat(many(2, -1)), [-1, 1, 64, 1, FAR, 1])
    # an address that would be good in 16 bits, and one of the lent cells that the file doesn't have
    c.refused(15, [28, 1, -65536 + 29, 2], flat(many(6, 64)))
    c.pairs(*many(64))
    c.ok("get 0", "get 63")
    c.no(15, "get 64")


def equal_pairs(c):
    c.new("R-9: of two pairs with one address the later holds", HOUSE)
    c.ok("load 0")
    c.pairs((28, 1), (28, 2))
    c.pairs((28, 2), (28, 1))
    c.pairs((40, 7), (41, 8), (40, 9), (41, 7), (40, 6))
    c.pairs(*[(30, value) for value in range(64)])
    c.pairs((30, 5), *many(62, 1), (30, 6))
    c.refused(15, [30, 1, 30, 2, 64, 3], [30, 1] * 65)
    c.ok("get 30", "get 28")


def single_pairs(c):
    """A single pair does what a raw write does."""
    c.new("R-9: a single pair is a raw write", HOUSE, 70)
    for loaded in (False, True):
        if loaded:
            c.ok("load 0", "enter 1", "statement")
        for address in (0, 1, 28, 63, 64, 69, 70, -1, FAR, -FAR - 1):
            for value in (0, 4294967295):
                before = list(c.machine.cells)
                alone = c.machine.write(address, value)  # no call of the list
                after, c.machine.cells[:] = list(c.machine.cells), before
                assert c.do(f"pairs {address} {value}") == alone and c.machine.cells == after
    c.ok("statement", "get 28")


def state_pairs(c):
    c.new("R-9: 13 comes first, whatever the numbers", HOUSE.bytes() + bytes(4), 64)
    lists = ([], [1, 2], [1], [-1, 2], [64, 2], flat(many(64)), flat(many(65)), flat(many(65)) + [1])
    c.refused(13, *lists)
    c.ok("load 0", "enter 1")
    locals_ = local_place(1, "locals")
    for offset, byte in ((52, 63), (52, 65), (56, 104), (8, 61), (11, 128), (locals_, 3), (locals_ + 3, 128)):
        old = c.machine.file[offset]
        c.ok(f"byte {offset} {byte}")
        c.refused(13, *lists)
        c.ok(f"byte {offset} {old}", "get 1")
    c.ok("byte 0 7", "byte 4 0")  # version and check number aren't looked at
    c.pairs((1, 2))
    c.new("R-9: a load that was refused", HOUSE, 63)
    c.no(12, "load 0")
    c.refused(13, *lists)
    c.no(13, *ANY_CALL)


def mixed_pairs(c):
    c.new("R-9: between entries, runs, carrying on and abandonments: a Return restores the locals, other cells keep what was written", HOUSE, 70, 2050)
    c.ok("load 0", "enter 1")
    c.pairs((40, flt(5.0)), (41, 41), (28, flt(3.0)), (50, 50))
    c.word("spent", "run 0 1")
    c.pairs((44, 44), (40, flt(7.0)), (4, ONE), (5, 5), (6, 6))
    assert c.do("run 0 100") == Answer("builtin", 7, 2)
    c.pairs((1, 11), (2, 12), (3, 13))
    c.ok("carry")
    c.refused(15, [44, 1, 64, 2])
    assert c.do("run 0 100") == Answer("opcode", 60, 0)
    c.pairs((44, 144), (45, 145), (46, 146), (63, 163), (43, 143))
    c.ok("carry")
    assert c.do("run 0 100") == Answer("ended", 0, 2)
    c.ok("get 40", "get 41", "get 43", "get 44", "get 50", "get 1")
    c.new("R-9: abandonments restore what was saved, in whatever order it was written over", HOUSE)
    c.ok("load 0", "enter 1", "enter 2", "enter 12", "enter 1")
    c.pairs(*many(24, 30))
    c.ok("abandon 3", "get 40")
    c.pairs((40, 1), (43, 2), (44, 3), (40, 4))
    c.no(29, "abandon 4", "run 3 5")
    c.ok("abandon 1", "get 40", "get 44")
    c.refused(15, [40, 9, 40, 9, -1, 9])
    c.ok("abandon 0", "get 40", "get 43", "get 44")
    c.new("R-9: what calls find: the function to be called, arguments, a jump's float", HOUSE)
    c.ok("load 0", "enter 1", "statement")
    c.pairs((36, 13), (4, 4), (5, 5))
    c.word("spent", "run 0 2")
    c.pairs((36, 99), (38, 0))
    c.word("ended", "run 0 9")
    c.ok("enter 5")
    c.no(19, "run 0 9")
    c.pairs((38, 5))
    c.no(22, "run 0 9999")
    c.pairs((38, 13), (50, 1))
    c.no(22, "run 0 9999")
    c.ok("abandon 20")
    c.pairs((50, 2), (51, 3))
    c.word("ended", "run 5 99")
    c.ok("load 0", "get 36", "get 38")


def random_pairs(c):
    for seed in range(1, 31):
        chance = Xorshift(seed * 2654435761 % 2**32)
        c.new(f"R-9: made by chance, {seed}", random_program(chance, hosts=True), 64 + chance.below(5))
        c.ok("load 0")
        for _ in range(12):
            pairs = [(chance.pick((4, 28, 40, 48)) + chance.below(14), chance.pick(CHANCE_FLOATS + [1, 2, 3, 4, 5])) for _ in range(chance.below(9))]
            if pairs and chance.below(5) == 0:
                pairs[chance.below(len(pairs))] = (chance.pick((-1, 64, 65, 67, FAR)), 1)
            given = flat(pairs)
            c.do(f"pairs {numbers(given[:-1] if chance.below(12) == 0 else given)}".rstrip())
            c.do(chance.pick((f"enter {1 + chance.below(5)}", "carry", f"abandon {chance.below(4)}", "statement")))
            c.do(f"run {chance.below(3)} {1 + chance.below(20)}")


def pair_cases():
    c = Pairs()
    count_pairs(c)
    bad_pairs(c)
    equal_pairs(c)
    single_pairs(c)
    state_pairs(c)
    mixed_pairs(c)
    random_pairs(c)
    return c
