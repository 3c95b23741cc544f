"""What the pages say that a session prints and keeps, for tools that judge runs: its refusal, the form of its output, and its
saved pack. Nothing here comes from the program; docs/RUNNING.md, docs/MESSAGES.md, docs/PACK.md and docs/LANGUAGE.md have it."""

import io
import os
import re
import sys

from sessions import SECTOR, SLOT, SLOTS, TOP, part

sys.path.insert(0, os.path.join(TOP, "samples"))
import printing  # noqa: E402

CHARACTERS = b" .<(+|&!$*);-/,%_>?:#@'=\"{ABCDEFGHI}JKLMNOPQRSTUVWXYZ0123456789"
FEW_CARDS, COLUMNS, MOST_CARDS, PRINT_POSITIONS, PAGE_LINES = 1500, 96, 9999, 132, 66
INPUT_LIMIT, PACK_LIMIT = 4_194_304, 16_776_960
FIRST_SECTOR, TRACK = 168, 24

ENTRY = re.compile(rb"([TD])([12])(?: ([0-9]{1,4}))?|(R)([12]) ([0-9])")
LINES = rb"((?:[^\n]*\n)*?)"
OUTPUT = re.compile(b":report1\n" + LINES + b":halts1\n" + LINES + b":report2\n" + LINES + b":halts2\n" + LINES)
REPORT_LINE = re.compile(rb"([0-9]{4}) ([0-9]{2}) ([^\n]*)")
HALT = re.compile(rb"([0-9]{3}) ([A-Z][A-Z1-9]) ([-0-9])")
DETAIL = re.compile(rb"([0-9]{3}) ([0-9]{4}) ([0-9]{2})")
STARTING = set(b"OC PG CE LB DU MU LD RT NS LN IX".split())          # halts of a job that couldn't be started
GOING_ON = set(b"H1 H2 H3 H4 H5 H6 H7 H8 H9 UR SQ DE DZ NF DK KC NU".split())
ENDING = set(b"EX KA".split())
HIDING = {1, 2, 3, 4, 13}                                            # diagnostics beside which none of the others stands
LABEL = re.compile(r"[A-Z$#@][A-Z0-9$#@]* *")


def lines_of(text):
    """The lines of a text as they stand, each with what ends it."""
    return io.BytesIO(text).readlines()


def content(line):
    """A line without the line feed that ends it and one carriage return before that."""
    if not line.endswith(b"\n"):
        return line
    return line[:-2] if line.endswith(b"\r\n") else line[:-1]


def parts_of(given):
    """The two decks and the script of an input; None where it is refused."""
    if len(given) > INPUT_LIMIT:
        return None
    lines, found, start = lines_of(given), [], 0
    contents = [content(line) for line in lines]
    for marker in (b":deck1", b":deck2", b":script"):
        try:
            place = contents.index(marker, start)
        except ValueError:
            return None
        if marker == b":deck1" and place != 0:
            return None
        found.append(place)
        start = place + 1
    one, two, script = found
    return tuple(b"".join(piece) for piece in (lines[one + 1:two], lines[two + 1:script], lines[script + 1:]))


def entries_of(script):
    """The script's entries, each (letter, level, count or digit), and the number of its first ill-formed line or None."""
    entries = []
    for number, line in enumerate(lines_of(script), 1):
        text = content(line)
        if not text:
            continue
        found = ENTRY.fullmatch(text)
        if not found or (found[3] and int(found[3]) == 0):
            return entries, number
        letter, level = (found[1] or found[4]).decode(), int(found[2] or found[5])
        entries.append((letter, level, int(found[6]) if letter == "R" else int(found[3] or 1)))
    return entries, None


def whole(pack):
    """The whole sectors of a pack's file."""
    return pack[:min(len(pack), PACK_LIMIT) // SECTOR * SECTOR]


def mount_fault(pack):
    """The number of the refusal of a pack, or None."""
    sectors = len(whole(pack)) // SECTOR
    if sectors < FIRST_SECTOR:
        return 3
    if pack[:8] == b"S3PACK02":
        if not (1 <= pack[22] <= 127 and 1 <= pack[23] <= 127 and pack[22] + pack[23] <= 128):
            return 1
    elif pack[:8] != b"S3PACK01":
        return 1
    total = int.from_bytes(pack[8:10], "big")
    regions = [tuple(int.from_bytes(pack[at + 2 * half:at + 2 * half + 2], "big") for half in (0, 1)) for at in (10, 14, 18)]
    for start, length in regions:
        if start < FIRST_SECTOR or start % TRACK or length % TRACK or start + length > total:
            return 2
    for place, (start, length) in enumerate(regions):
        for other, its in regions[place + 1:]:
            if length and its and start < other + its and other < start + length:
                return 2
    return 3 if sectors < total else None


def refusal_of(given, pack):
    """What stands on standard error where a run is refused, or None."""
    parts = parts_of(given)
    if parts is None:
        return b"bureau: input\n"
    _, faulty = entries_of(parts[2])
    if faulty:
        return b"bureau: script %d\n" % faulty
    mount = None if pack is None else mount_fault(pack)
    return b"bureau: mount %d\n" % mount if mount else None


def deck_fault(deck):
    """The card and the number of a deck's fault, or None."""
    lines = lines_of(deck)
    for number, line in enumerate(lines[:MOST_CARDS], 1):
        card = content(line)
        if len(card) > COLUMNS:
            return number, 1
        if card.strip(CHARACTERS):
            return number, 2
    return (MOST_CARDS, 3) if len(lines) > MOST_CARDS else None


def texts_of(printed):
    """The lines of the four texts of an output; None where it has another form."""
    found = OUTPUT.fullmatch(printed)
    return [text.split(b"\n")[:-1] for text in found.groups()] if found else None


def wrong_in_report(lines, turns):
    """Each line is in its form, pages and lines ascend but where a job begins, and a turn prints one line at most."""
    if len(lines) > turns:
        yield "%d lines of %d turns" % (len(lines), turns)
    before = (1, 1)
    for line in lines:
        found = REPORT_LINE.fullmatch(line)
        if not found or len(found[3]) > PRINT_POSITIONS or found[3].endswith(b" ") or found[3].strip(CHARACTERS) or not 1 <= int(found[2]) <= PAGE_LINES:
            yield "a line of a report has another form: %r" % line
            return
        place = int(found[1]), int(found[2])
        # a job begins at page 1 line 1; page 0 comes behind page 9999
        begins = place[0] == 1 or (place[0] == 2 and place[1] <= 3)
        if place < before and not begins and not (before[0] == 9999 and place[0] == 0):
            yield "line %d of page %d stands behind line %d of page %d" % (place[1], place[0], before[1], before[0])
        before = place


def grouped(lines):
    """The halts of a text, each (job, letters, reply, details), with those details in front that have none; None for a form that
    no line has."""
    halts = [(0, b"", b"", [])]
    for line in lines:
        halt, detail = HALT.fullmatch(line), DETAIL.fullmatch(line)
        if halt:
            halts.append((int(halt[1]), halt[2], halt[3], []))
        elif detail and int(detail[1]) == halts[-1][0]:
            halts[-1][3].append((int(detail[2]), int(detail[3])))
        else:
            return None
    return halts


def wrong_in_details(letters, details, cards):
    if any(not 1 <= card <= cards for card, _ in details):
        yield "a detail of %s names a card that the deck doesn't have" % letters.decode()
    numbers = {number for _, number in details}
    if letters == b"OC":
        if len(details) != 1 or not numbers <= set(range(1, 6)):
            yield "OC has the details %s" % details
    elif letters == b"CE":
        hiding = HIDING & numbers
        if not details or not numbers <= set(range(1, 14)) or details != sorted(set(details)) or (hiding and numbers - HIDING):
            yield "CE has the details %s" % details
    elif details:
        yield "%s has details" % letters.decode()


def is_part(some, of):
    """Whether some things stand among others in that order."""
    rest = iter(of)
    return all(it in rest for it in some)


def wrong_in_halts(lines, cards, turns, replies):
    """Halts and details are in their forms, with replies that they allow and that were given, and jobs ascend."""
    halts = grouped(lines)
    if halts is None or halts[0][3]:
        yield "a line of a halt has another form, or a detail stands under no halt: %s" % lines
        return
    halts = halts[1:]
    shown = [int(reply) for _, _, reply, _ in halts if reply != b"-"]
    if not is_part(shown, replies):
        yield "the halts show the replies %s of %s" % (shown, replies)
    if len(halts) > turns + len(shown):
        yield "%d halts of %d turns and %d replies" % (len(halts), turns, len(shown))
    before = None
    for place, (job, letters, reply, details) in enumerate(halts):
        allowed = b"-023" if letters in GOING_ON else b"-23" if letters in STARTING | ENDING else b""
        if reply not in allowed or not allowed:
            yield "halt %s is answered with %s" % (letters.decode(), reply.decode())
        if reply == b"-" and place + 1 < len(halts):
            yield "a halt stands behind one that waits"
        yield from wrong_in_details(letters, details, cards)
        if before and cards < FEW_CARDS:
            # job 0 comes behind job 999; a job that doesn't halt has three cards or more
            ahead = (job - before[0]) % 1000
            over = letters in STARTING or before[1] in STARTING or before[2] == b"3"
            if ahead > 500 or (over and ahead == 0):
                yield "job %03d halts behind job %03d, which is over or later" % (job, before[0])
        before = job, letters, reply


def wrong_in_output(printed, given):
    """What isn't as the pages say in the output of a run that wasn't refused."""
    texts = texts_of(printed)
    if texts is None:
        yield "the output doesn't have its four parts"
        return
    parts = parts_of(given)
    entries, _ = entries_of(parts[2])
    for level in (1, 2):
        deck, (report, halts) = parts[level - 1], texts[2 * level - 2:2 * level]
        turns = sum(count for letter, its, count in entries if letter == "T" and its == level)
        replies = [digit for letter, its, digit in entries if letter == "R" and its == level]
        fault = deck_fault(deck)
        if fault:
            if report or halts != [b"000 %04d %02d" % fault]:
                yield "level %d: its deck can't be read, for %s, and it prints %s" % (level, fault, report + halts)
            continue
        for wrong in wrong_in_report(report, turns):
            yield "level %d: %s" % (level, wrong)
        for wrong in wrong_in_halts(halts, len(lines_of(deck)), turns, replies):
            yield "level %d: %s" % (level, wrong)


def named(given):
    """The levels that a script names."""
    return {level for _, level, _ in entries_of(parts_of(given)[2])[0]}


def wrong_in_saved(pack, saved, levels):
    """What isn't kept of a pack by a run of these levels."""
    pack = whole(pack)
    if len(saved) != len(pack):
        yield "the saved pack has %d bytes, not %d" % (len(saved), len(pack))
        return
    if saved[:SECTOR] != pack[:SECTOR]:
        yield "the saved pack has another header"
    if part(saved, 0) != part(pack, 0):
        yield "the saved pack has other masters"
    for level in {1, 2} - levels:
        if part(saved, level) != part(pack, level):
            yield "the saved pack has another part of level %d, which the script doesn't name" % level
    if saved[153 * SECTOR:FIRST_SECTOR * SECTOR] != pack[153 * SECTOR:FIRST_SECTOR * SECTOR]:
        yield "the saved pack has other bytes in the sectors 153 to 167"


def list_lines(area, fields):
    """The two lines that a used slot may have in the list of its pack, one of a sound file and one of a damaged one."""
    number = lambda start, end: int.from_bytes(fields[start:end], "big")  # noqa: E731
    label, kinds = (fields[start:end].decode("cp037") for start, end in ((1, 9), (9, 11)))
    a_name = label.isascii() and bool(LABEL.fullmatch(label))
    sound = None
    if a_name and kinds[0] in "SID" and kinds[1] in "TSP" and 1 <= number(11, 13) <= 1024 and number(24, 28) <= number(20, 24) > 0 and fields[0] == 1:
        sound = printing.list_line(area, label, kinds[0], kinds[1], number(11, 13), number(20, 24), number(24, 28))
    return sound, "%d %s DAMAGED" % (area, label if a_name else "????????")


def wrong_in_list(printed, pack):
    """Each used slot of a pack has its line in the list, in order."""
    used = []
    for area in (0, 1, 2):
        for place in range(SLOTS):
            start = SECTOR * (1 + 8 * area) + SLOT * place
            if pack[start]:
                used.append((area, pack[start:start + SLOT]))
    lines = printed.decode("latin-1").split("\n")
    if lines[-1] or len(lines) - 1 != len(used):
        yield "the list has %d lines of %d used slots" % (len(lines) - 1, len(used))
        return
    for line, (area, fields) in zip(lines, used):
        if line not in list_lines(area, fields):
            yield "the list has %r of the slot %s" % (line, fields.hex())
