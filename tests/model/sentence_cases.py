"""R-8: outcomes with their lines, and display buffers: cases/sentences.txt; lists of calls with the lines of their runs:
cases/outcomes.txt."""

from call_cases import HOUSE, Calls, fnv
from common import CHANCE_FLOATS, Xorshift, numbers, random_program
from model import FUNCTIONS, Answer, Outcome, compose, outcome_of, read_sentence, sentence

# what each byte of a display buffer holds before
UNWRITTEN = 238
WORDS = ("ended", "spent", "refused", "builtin", "opcode")
GREATEST = 2**32 - 1
FIRST_POSITION, LAST_POSITION = -(2**63), 2**63 - 1
LONGEST = Outcome("builtin", GREATEST, GREATEST, FIRST_POSITION, GREATEST)
SHORTEST = Outcome("ended", 0, 0, 0, 0)


class Sentences:
    def __init__(self):
        self.lines = []
        self.seen = []  # (outcome, its line)

    def note(self, text):
        self.lines.append(f"# {text}")

    def add(self, *fields, line=None):
        """`line` is what was worked out by hand."""
        outcome = Outcome(*fields)
        text = sentence(outcome)
        assert line is None or text == line.encode(), (outcome, text)
        assert read_sentence(text) == outcome and len(text) <= 120
        self.lines.append(f"{numbers(outcome)} = {text.decode()}")
        self.seen.append((outcome, text))

    def display(self, room, outcome, refused=None):
        """The line in a buffer of so many bytes."""
        display = bytearray([UNWRITTEN] * room)
        answer = compose(outcome, display)
        text = b"" if refused else sentence(outcome)
        assert answer == (Answer("refused", refused) if refused else Answer("accepted", len(text))), answer
        assert display == text + bytes([UNWRITTEN] * (room - len(text)))
        self.lines.append(f"display {room} {numbers(outcome)} = {answer.word} {answer.detail} {fnv(bytes(display)):016x}")
        self.seen.append((outcome, answer))


def edge_numbers(bits):
    """Numbers about the powers of ten and the halves of that many bits."""
    powers = [10**digits for digits in range(1, 20) if 10**digits < 2**bits]
    near = {power + by for power in powers for by in (-1, 0, 1)} | {0, 1, 2**31 - 1, 2**31, 2**bits - 1}
    return sorted(near)


def line_sentences(s):
    s.note("worked out by hand: each word, the shortest line and the longest")
    s.add("ended", 0, 2, 0, 0, line="Run ended, detail 0, statements 2, position 0, function 0.")
    s.add("spent", 0, 99999, 12, 3, line="Run spent, detail 0, statements 99999, position 12, function 3.")
    s.add("refused", 14, 7, -5, 1, line="Run refused, detail 14, statements 7, position -5, function 1.")
    s.add("builtin", 7, 3, 5, 2, line="Run builtin, detail 7, statements 3, position 5, function 2.")
    s.add("opcode", 60, 0, 6, 2, line="Run opcode, detail 60, statements 0, position 6, function 2.")
    s.add(*SHORTEST, line="Run ended, detail 0, statements 0, position 0, function 0.")
    greatest = "4294967295"
    longest = f"Run builtin, detail {greatest}, statements {greatest}, position -9223372036854775808, function {greatest}."
    assert len(longest) == 106
    s.add(*LONGEST, line=longest)
    s.add("refused", *LONGEST[1:])
    s.add("opcode", 0, 0, LAST_POSITION, 0, line="Run opcode, detail 0, statements 0, position 9223372036854775807, function 0.")
    s.note("each number alone, at the edges of its digits and of its bits")
    for number in edge_numbers(32):
        s.add("refused", number, 0, 0, 0)
        s.add("spent", 0, number, 0, 0)
        s.add("builtin", 0, 0, 0, number)
    for number in edge_numbers(63):
        for position in (number, -number):
            s.add("opcode", 1, 2, position, 3)
    s.add("ended", 0, 0, FIRST_POSITION, 0)
    s.add("ended", 0, 0, FIRST_POSITION + 1, 0)
    s.note("by chance")
    chance = Xorshift(2463534242)
    for index in range(100):
        fields = [chance.draw() >> chance.below(32) for _ in range(3)]
        position = (chance.draw() << 32 | chance.draw()) - 2**63 >> chance.below(64)
        s.add(WORDS[index % 5], *fields[:2], position, fields[2])


def display_sentences(s):
    s.note("buffers under 120 bytes, also where the line would fit, are refused 12; longer ones keep what is past the line")
    for outcome in (SHORTEST, Outcome("refused", 15, 12, -1, 4), LONGEST):
        for room in (0, 1, 57, 58, 59, 105, 106, 107, 118, 119):
            s.display(room, outcome, 12)
        for room in (120, 121, 128, 200, 1000, 65536):
            s.display(room, outcome)


def sentence_cases():
    s = Sentences()
    line_sentences(s)
    display_sentences(s)
    return s


class Outcomes(Calls):
    """Lists of calls with one more: `sentence N`, the line of the last run, whose line ends with the digest of its display buffer."""

    def __init__(self):
        super().__init__()
        self.outcome = self.display = None

    def new(self, *given, **lent):
        super().new(*given, **lent)
        self.outcome = Outcome()

    def _perform(self, word, given):
        if word == "sentence":
            self.display = bytearray([UNWRITTEN] * given[0])
            return compose(self.outcome, self.display)
        answer = super()._perform(word, given)
        if word == "run":
            self.outcome = outcome_of(answer, self.machine.state)
        return answer

    def do(self, call, expect=None):
        answer = super().do(call, expect)
        if call.startswith("sentence "):
            self.lines[-1] += f" {fnv(bytes(self.display)):016x}"
        return answer

    def says(self, *fields):
        """The five of the last run, worked out by hand."""
        assert self.outcome == Outcome(*fields), self.outcome
        self.ok("sentence 120")
        assert read_sentence(self.display[: len(sentence(self.outcome))]) == Outcome(*fields)


def every_outcome(c):
    c.new("R-8: the line of each kind of outcome; what comes between changes neither it nor anything else", HOUSE, 70, 2050)
    c.says("ended", 0, 0, 0, 0)  # nothing was run
    c.no(13, "run 0 5")
    c.says("refused", 13, 0, 0, 0)
    c.ok("load 0")
    c.says("refused", 13, 0, 0, 0)
    c.ok("enter 1")
    c.word("spent", "run 0 1")
    c.says("spent", 0, 1, 2, 1)
    c.no(12, "sentence 119", "sentence 0")
    c.ok("sentence 121", "statement", "get 40", "sentence 128")
    c.says("spent", 0, 1, 2, 1)
    c.word("builtin", "run 0 100")
    c.says("builtin", 7, 1, 5, 2)
    c.ok("carry", "put 1 7")
    c.says("builtin", 7, 1, 5, 2)
    c.word("opcode", "run 0 100")
    c.says("opcode", 60, 0, 6, 2)
    c.no(28, "run 0 0")
    c.says("refused", 28, 0, 6, 2)
    c.no(29, "run 2 9")
    c.says("refused", 29, 0, 6, 2)
    c.ok("carry")
    c.word("ended", "run 0 100")
    c.says("ended", 0, 2, 0, 0)
    c.ok("enter 4", "abandon 0")
    c.says("ended", 0, 2, 0, 0)


def far_outcomes(c):
    c.new("R-8: positions below 0 and far away; refused after statements; the limit", HOUSE)
    place = HOUSE.place(FUNCTIONS, 4)
    c.ok("load 0", "enter 4")
    c.word("spent", "run 0 99999")
    c.says("spent", 0, 99999, 8, 4)
    goto = HOUSE.lumps[0] + 8 * 8 + 2
    c.ok(f"byte {goto} 0", f"byte {goto + 1} 128")
    assert c.do("run 0 7", 14).count == 1
    c.says("refused", 14, 1, 8 - 32768, 4)
    c.ok(f"byte {place + 2} 255", f"byte {place + 3} 127", "enter 4")
    c.no(14, "run 1 3")
    c.says("refused", 14, 0, 0x7FFF0008, 4)
    c.ok("abandon 0", "enter 5", "put 38 0")
    assert c.do("run 0 9", 19).count == 1
    c.says("refused", 19, 1, 10, 5)
    c.ok("load 0", "byte 52 63")
    c.no(13, "run 0 9")
    c.says("refused", 13, 0, 0, 0)


def random_outcomes(c):
    for seed in range(1, 21):
        chance = Xorshift(seed * 2654435761 % 2**32)
        c.new(f"R-8: made by chance, {seed}", random_program(chance, hosts=True))
        c.ok("load 0")
        for _ in range(10):
            c.do(f"put {28 + chance.below(12)} {chance.pick(CHANCE_FLOATS)}")
            c.do(f"enter {1 + chance.below(5)}")
            c.do(f"run {chance.below(3)} {1 + chance.below(30)}")
            c.do(f"sentence {chance.pick((119, 120, 120, 121, 300))}")
            c.do("carry")


def outcome_cases():
    c = Outcomes()
    every_outcome(c)
    far_outcomes(c)
    random_outcomes(c)
    return c
