"""What the tools share that run sessions: the decks of two levels with files of every organization and a pack for them, cards for
the programs of samples/two-departments, the parts of a pack, entries of scripts and their mixtures, and the sessions of the worked
rows."""

import importlib.machinery
import importlib.util
import os
import subprocess
import sys

TOP = os.path.join(os.path.dirname(os.path.abspath(__file__)), "..", "..")
ROWS = os.path.join(TOP, "rows")
sys.path.insert(0, ROWS)
import cards  # noqa: E402

SECTOR = 256
SLOTS, SLOT = 32, 64
PROGRAM = os.path.join(TOP, "crates", "bureau", "out", "bureau")
DEPARTMENTS = os.path.join(TOP, "samples", "two-departments")
MINUS = "}JKLMNOPQR"             # last digits of numbers below zero

PRICES = """
6:H 75:PRICES
6:F 7:CARDS 15:IP 19:F 22:96 26:96 40:MFCU1
6:F 7:PRICES 15:O 19:F 26:16 30:3 31:AI 38:1 40:DISK
6:I 7:CARDS 15:AA 19:01
6:I 47:1 51:3 53:KEY
6:I 47:4 51:8 52:2 53:PRICE
6:O 7:PRICES 15:D 24:01
6:O 32:KEY 43:3
6:O 32:PRICE 43:6 44:P"""
LOADS = """
6:H 75:LOADS
6:F 7:CARDS 15:IP 19:F 22:96 26:96 40:MFCU1
6:F 7:STOCK 15:O 19:F 26:20 30:3 31:AI 38:1 40:DISK
6:F 7:LOG 15:O 19:F 26:14 40:DISK
6:F 7:BINS 15:OC 19:F 27:8 28:R 40:DISK
6:I 7:CARDS 15:AA 19:01
6:I 47:1 51:3 53:KEY
6:I 47:4 51:8 52:0 53:ONHAND
6:I 47:9 50:18 53:TEXT
6:I 7:BINS 15:BB 19:02
6:C 10:01 18:1 28:ADD 33:NUMBER 43:NUMBER 51:5 52:0
6:C 10:01 18:NUMBER 28:CHAIN 33:BINS
6:O 7:STOCK 15:D 24:01
6:O 32:KEY 43:3
6:O 32:ONHAND 43:6 44:P
6:O 32:TEXT 42:16
6:O 7:LOG 15:D 24:01
6:O 32:KEY 43:3
6:O 32:TEXT 42:13
6:O 7:BINS 15:D 24:01
6:O 32:KEY 43:3
6:O 32:ONHAND 43:8"""
MOVES = """
6:H 75:MOVES
6:F 7:CARDS 15:IP 19:F 22:96 26:96 40:MFCU1
6:F 7:STOCK 15:UC 19:F 26:20 28:R 30:3 31:AI 38:1 40:DISK 66:A
6:F 7:PRICES 15:IC 19:F 26:16 28:R 30:3 31:AI 38:1 40:DISK
6:F 7:BINS 15:UC 19:F 27:8 28:R 40:DISK
6:F 7:PRINT 15:O 19:F 21:132 25:132 33:OV 40:PRINTER
6:I 7:CARDS 15:AA 19:01 24:1 26:C 27:M
6:I 14:OR 19:02 24:1 26:C 27:N
6:I 47:2 51:4 53:KEY
6:I 47:5 51:7 52:0 53:QTY
6:I 47:8 51:8 52:0 53:BIN
6:I 7:STOCK 15:CC 19:11
6:I 43:P 47:4 51:6 52:0 53:ONHAND
6:I 47:7 50:16 53:TEXT
6:I 7:PRICES 15:DD 19:12
6:I 43:P 47:4 51:6 52:2 53:PRICE
6:I 7:BINS 15:EE 19:13
6:I 47:4 51:8 52:0 53:INBIN
6:C 10:01 18:KEY 28:CHAIN 33:STOCK
6:C 18:KEY 28:CHAIN 33:PRICES 54:51
6:C 18:BIN 28:CHAIN 33:BINS 54:52
6:C 10:01 13:11 18:ONHAND 28:ADD 33:QTY 43:ONHAND 56:H1
6:C 10:01 13:11 18:QTY 28:DIV 33:ONHAND 43:SHARE 51:7 52:3
6:C 10:02 28:Z-ADD 33:QTY 43:ONHAND
6:C 12:N52 18:INBIN 28:ADD 33:QTY 43:INBIN
6:C 12:N51 18:QTY 28:MULT 33:PRICE 43:VALUE 51:9 52:2
6:C 10:02 28:EXCPT
6:O 7:PRINT 15:H 19:01 24:1P
6:O 14:OR 24:OV
6:O 32:UDATE 38:Y 42:20
6:O 42:10 45:'MOVES'
6:O 15:D 18:1 24:01
6:O 32:KEY 43:3
6:O 32:ONHAND 38:J 42:14
6:O 32:VALUE 38:J 42:30
6:O 32:SHARE 38:J 42:44
6:O 32:TEXT 42:56
6:O 15:E 18:2 24:02
6:O 32:KEY 43:3
6:O 43:8 45:'NEW'
6:O 7:STOCK 15:D 24:01 27:11
6:O 32:ONHAND 43:6 44:P
6:O 15:DADD 24:02
6:O 32:KEY 43:3
6:O 32:ONHAND 43:6 44:P
6:O 43:9 45:'NEW'
6:O 7:BINS 15:D 24:01 26:N52
6:O 32:INBIN 43:8"""
LISTS = """
6:H 75:LISTS
6:F 7:STOCK 15:IP 19:F 26:20 30:3 31:AI 38:1 40:DISK
6:F 7:PRINT 15:O 19:F 21:132 25:132 40:PRINTER
6:I 7:STOCK 15:AA 19:01
6:I 47:1 51:3 53:KEY
6:I 43:P 47:4 51:6 52:0 53:ONHAND
6:I 47:7 50:16 53:TEXT
6:O 7:PRINT 15:D 18:1 24:01
6:O 32:KEY 43:3
6:O 32:ONHAND 38:J 42:14
6:O 32:TEXT 42:26"""
LOGS = """
6:H 75:LOGS
6:F 7:LOG 15:UP 17:E 19:F 26:14 40:DISK 66:A
6:F 7:CARDS 15:IS 19:F 22:96 26:96 40:MFCU1
6:F 7:COPY 15:O 19:F 26:12 40:DISK
6:F 7:WORK 15:O 19:F 26:12 40:DISK
6:F 7:PRINT 15:O 19:F 21:132 25:132 40:PRINTER
6:I 7:LOG 15:AA 19:01
6:I 47:1 51:3 53:KEY 61:M1
6:I 47:4 50:13 53:TEXT
6:I 7:CARDS 15:BB 19:02
6:I 47:1 51:3 53:KEY 61:M1
6:O 7:LOG 15:D 24:01 27:MR
6:O 42:14 45:'*'
6:O 15:DADD 24:02 26:NMR
6:O 32:KEY 43:3
6:O 7:COPY 15:D 24:01
6:O 32:KEY 43:3
6:O 32:TEXT 42:12
6:O 7:WORK 15:D 24:01
6:O 32:KEY 43:3
6:O 7:PRINT 15:D 18:1 24:01
6:O 32:KEY 43:3
6:O 24:MR 43:6 45:'MR'
6:O 32:TEXT 42:20"""


def job(name, data=(), *statements):
    return ["// LOAD %s,F1" % name] + ["// " + it for it in statements] + ["// RUN"] + list(data) + ["/*", "/&"]


def compiled(source):
    return job("$RPG", cards.deck(source.strip("\n").split("\n")))


def keys(level, count):
    return ["%c%02d" % (64 + level, number) for number in range(1, count + 1)]


def loads(level):
    data = ["%s%05dITEM %s" % (key, 7 * place * level % 90, key) for place, key in enumerate(keys(level, 9), 1)]
    return compiled(LOADS) + job("LOADS", data, "DATE 0601%02d" % (75 + level), "FILE NAME-STOCK,RECORDS-12", "FILE NAME-LOG,RECORDS-11,RETAIN-P", "FILE NAME-BINS,RECORDS-9")


def works(level):
    """The deck of a level: its halts are NF, H1, DZ, DK, UR, EX of two files, RT and OC."""
    own = keys(level, 16)
    moves = ["M%s0053" % own[1], "M%s00J1" % own[3], "M%s0002" % own[12], "N%s0044" % own[10], "N%s0017" % own[2], "M%s99R5" % own[4], "?", "M%s0009" % own[5],
             "M%s%s6" % (own[6], "04R" if level == 1 else "00Q"), "N%s0018" % own[9], "N%s0018" % own[13], "N%s0018" % own[14], "M%s0001" % own[10]]
    matched = ["%c00" % (64 + level), own[0], own[3], own[3], own[8], own[9], own[11]]
    files = ["FILE NAME-STOCK", "FILE NAME-PRICES", "FILE NAME-BINS"]
    logs = ["FILE NAME-LOG", "FILE NAME-COPY,RECORDS-%d" % (20 if level == 1 else 6), "FILE NAME-WORK,RETAIN-S"]
    return (compiled(MOVES) + job("MOVES", moves, "DATE 0615%02d" % (75 + level), "SWITCH 1XXXXXX0", *files) + compiled(LISTS) + job("LISTS", [], "FILE NAME-STOCK")
            + compiled(LOGS) + job("LOGS", matched, *logs) + compiled(LOADS) + job("LOADS", [], "FILE NAME-STOCK", "FILE NAME-LOG", "FILE NAME-BINS")
            + job("LISTS", [], "FILE NAME-STOCK,LABEL-PRICES") + job("NONE") + ["// LODE LIST,F1", "/&"] + job("LISTS", [], "FILE NAME-STOCK"))


def jobs_of(name):
    """The jobs of a deck of samples/two-departments, each a list of cards."""
    with open(os.path.join(DEPARTMENTS, name)) as deck:
        jobs = deck.read().split("/&\n")[:-1]
    return [job.splitlines() + ["/&"] for job in jobs]


def with_data(job, data):
    """A job with other data cards."""
    return job[:job.index("// RUN") + 1] + data + job[job.index("/*"):]


def bills(draw):
    """Cards of billing."""
    cards = []
    for customer in range(1, draw.randrange(2, 12)):
        cards.append("C%05dCUSTOMER %d" % (customer, customer))
        for item in range(draw.randrange(9)):
            last = draw.choice(MINUS) if draw.random() < 0.1 else str(draw.randrange(10))
            cards.append("I%05dIT%04dITEM %-15d%04d%s%06d" % (customer, item, item, draw.randrange(2000), last, draw.randrange(100_000)))
    return cards


def employees(draw):
    """Cards of payroll; the net pay of some is below zero."""
    cards = []
    for number in range(draw.randrange(1, 30)):
        deductions = draw.randrange(20_000) if draw.random() < 0.9 else 900_000
        cards.append("T%s1%05dEMPLOYEE %-11d%04d%05d%03d%06d" % ("ABC"[number // 10], number, number, draw.randrange(6000), draw.randrange(9000), draw.randrange(300), deductions))
    return cards


def text_of(lines):
    return "".join(line + "\n" for line in lines)


class Program:
    def __init__(self, exe, folder):
        self.exe, self.folder, self.runs = os.path.abspath(exe), folder, 0

    def path(self, name):
        return os.path.join(self.folder, name)

    def do(self, *words, given=b""):
        done = subprocess.run([self.exe, *words], input=given, capture_output=True, cwd=self.folder)
        if done.returncode != 0:
            raise RuntimeError("status %d: %s" % (done.returncode, done.stderr.decode("latin-1")[-200:]))
        return done.stdout

    def run(self, pack, decks, script):
        """What is printed, for each level, and the pack that is saved."""
        self.runs += 1
        with open(self.path("given"), "wb") as out:
            out.write(pack)
        given = b":deck1\n%s:deck2\n%s:script\n%s" % (*decks, script.encode())
        printed = self.do("run", "--pack", "given", "--save", "saved", given=given)
        with open(self.path("saved"), "rb") as saved:
            first, second = printed.split(b":report2\n")
            return (first, second), saved.read()

    def made(self):
        """A pack with a master, and files in both levels."""
        self.do("init", "--save", "a", "--level1", "1", "--level2", "0", "--masters", "0")
        data = ["%s%05d" % (key, 100 * place + 5) for place, key in enumerate(sorted(keys(1, 14) + keys(2, 11)), 1)]
        deck = text_of(compiled(PRICES) + job("PRICES", data, "FILE NAME-PRICES,RECORDS-30")).encode()
        self.do("run", "--pack", "a", "--save", "a", given=b":deck1\n" + deck + b":deck2\n:script\nT1 99\n")
        self.do("init", "--save", "b", "--from", "a", "--level1", "7", "--level2", "6")
        with open(self.path("b"), "rb") as pack:
            printed, made = self.run(pack.read(), [text_of(loads(level)).encode() for level in (1, 2)], "T1 99\nT2 99\n")
        if b"".join(printed) != b":report1\n:halts1\n:halts2\n":
            sys.exit("sessions: the files couldn't be loaded: %s" % b"".join(printed).decode("latin-1"))
        return made


def region(pack, area):
    start, length = (int.from_bytes(pack[10 + 4 * area + at:12 + 4 * area + at], "big") for at in (0, 2))
    return SECTOR * start, SECTOR * (start + length)


def part(pack, area):
    """The labels and the region of an area."""
    start, end = region(pack, area)
    labels = SECTOR * (1 + 8 * area)
    return pack[labels:labels + 8 * SECTOR] + pack[start:end]


def own_of(ran, level):
    """What is a level's own of a run, and what all have."""
    printed, pack = ran
    return printed[level - 1], pack[:SECTOR], part(pack, 0), part(pack, level)


def files_of(pack, area):
    """The places in the pack of each used slot, and of each file's records and index entries."""
    for place in range(SLOTS):
        slot = SECTOR * (1 + 8 * area) + SLOT * place
        fields = pack[slot:slot + SLOT]
        if fields[0] == 0:
            continue
        yield "slot %d" % place, range(slot, slot + SLOT)
        length, key, start = int.from_bytes(fields[11:13], "big"), fields[13], SECTOR * int.from_bytes(fields[16:18], "big")
        capacity, count = int.from_bytes(fields[20:24], "big"), int.from_bytes(fields[24:28], "big")
        yield "records of slot %d" % place, range(start, start + length * count)
        if key:
            index = start + -(-capacity * length // SECTOR) * SECTOR
            yield "index of slot %d" % place, range(index, index + (key + 4) * count)


def with_bytes(pack, at, value):
    out = bytearray(pack)
    out[at.start:at.stop] = bytes([value]) * len(at)
    return bytes(out)


def entries(level, draw, count):
    """Turns by ones and in bursts, drains, and replies of all digits."""
    out = []
    while len(out) < count:
        kind = draw.random()
        if kind < 0.72:
            out += ["T%d" % level] * draw.choice((1, 1, 1, 2, 5))
        elif kind < 0.86:
            out += ["D%d" % level] * draw.choice((1, 2, 4))
        else:
            out.append("R%d %s" % (level, draw.choice("000000000000222231479")))
    return out[:count]


def steady(rounds):
    """Turns, drains and replies of both levels, in which all the jobs of both come to their ends."""
    return "".join("T1 3\nT2 4\nD1 3\nD2 4\nR2 0\nR1 0\nT2 2\n%s" % ("R1 2\nR2 2\n" if number % 3 == 2 else "") for number in range(rounds))


def mixture(own, others, draw):
    """Both lists in one, each in its order."""
    places = set(draw.sample(range(len(own) + len(others)), len(own)))
    first, second = iter(own), iter(others)
    return [next(first) if place in places else next(second) for place in range(len(own) + len(others))]


def other_deck(deck, draw):
    """The other level's deck, a cut one, one whose cards are shuffled, or none."""
    kind = draw.randrange(4)
    lines = deck.splitlines(True)
    if kind == 0:
        return deck
    if kind == 1:
        return b"".join(lines[:draw.randrange(len(lines))])
    if kind == 2:
        start = draw.randrange(len(lines))
        some = lines[start:start + 12]
        draw.shuffle(some)
        return b"".join(lines[:start] + some + lines[start + 12:])
    return b""


def read_rows():
    """The runner of the worked rows, as a module."""
    path = os.path.join(ROWS, "run-rows")
    loader = importlib.machinery.SourceFileLoader("run_rows", path)
    module = importlib.util.module_from_spec(importlib.util.spec_from_loader("run_rows", loader))
    loader.exec_module(module)
    return module
