"""The printer, editing and numbers on cards, for the programs that make the outputs wanted of the samples."""

import sys
from decimal import ROUND_HALF_UP, Decimal

PAGE_LINES = 66
OVERFLOW_LINE = 60
MINUS = "}JKLMNOPQR"
EDITED = {code: (commas, zero, sign) for codes, commas, zero in (("1AJ", True, True), ("2BK", True, False), ("3CL", False, True), ("4DM", False, False))
          for code, sign in zip(codes, ("", "CR", "-"))}


class Printer:
    """Lines with their pages and places on them, from page 1 line 1. `overflow` comes on where line 60 is printed or passed."""

    def __init__(self):
        self.page, self.line, self.overflow = 1, 1, False
        self.report = []

    def space(self, lines):
        before = self.line
        self.line += lines
        if self.line > PAGE_LINES:
            self.line -= PAGE_LINES
            self.page = (self.page + 1) % 10000
        elif before <= OVERFLOW_LINE < self.line:
            self.overflow = True

    def skip(self, line):
        if line >= self.line:
            self.space(line - self.line)
        else:
            self.page, self.line = (self.page + 1) % 10000, line

    def put(self, *pieces, skip=None, before=0, after=0):
        """Prints pieces, each a text and the column in which it ends; a later one lies over an earlier one."""
        columns = [" "] * 132
        for text, end in pieces:
            columns[end - len(text):end] = text
        if skip:
            self.skip(skip)
        self.space(before)
        self.overflow = self.overflow or self.line == OVERFLOW_LINE
        self.report.append("%04d %02d %s" % (self.page, self.line, "".join(columns).rstrip(" ")))
        self.space(after)


class Headed(Printer):
    """A printer with headings, the page in the first one: at the start, and before the record that follows an overflow."""

    def __init__(self, headings, page_end):
        super().__init__()
        self.headings, self.page_end, self.pages = headings, page_end, 0
        self.put_headings()

    def put_headings(self):
        self.pages += 1
        first, *others = self.headings
        self.put(*first, (edited(Decimal(self.pages), 4, 0, "Z"), self.page_end), skip=1, after=2)
        for pieces in others:
            self.put(*pieces, after=2)
        self.overflow = False

    def begin_record(self):
        if self.overflow:
            self.put_headings()


def grouped(whole):
    """Digits with a comma before each three from the right."""
    return whole if len(whole) <= 3 else grouped(whole[:-3]) + "," + whole[-3:]


def edited(number, digits, decimals, code):
    """A number of so many digits and decimals under an edit code."""
    units = int(number.scaleb(decimals))
    plain = "%0*d" % (digits, abs(units))
    if code == "Z":
        return (str(units) if units else "").rjust(digits)
    if code == "Y":
        return (" " if plain[0] == "0" else plain[0]) + plain[1:2] + "/" + plain[2:4] + "/" + plain[4:6]
    commas, shows_zero, sign = EDITED[code]
    whole = plain[:digits - decimals]
    width = len(grouped(whole) if commas else whole)
    shown = whole.lstrip("0")
    text = (grouped(shown) if commas else shown).rjust(width) + ("." + plain[digits - decimals:] if decimals else "")
    if units == 0 and not shows_zero:
        text = " " * len(text)
    elif units == 0 and decimals == 0:
        text = text[:-1] + "0"
    return text + (sign if units < 0 else " " * len(sign))


def edited_units(units, digits, decimals, code):
    """The same of a whole number of units of the last decimal."""
    return edited(Decimal(units).scaleb(-decimals), digits, decimals, code)


def punched(columns, decimals):
    """The number of columns of a card."""
    minus = columns[-1] in MINUS
    last = str(MINUS.index(columns[-1])) if minus else columns[-1]
    return Decimal((columns[:-1] + last).replace(" ", "0")).scaleb(-decimals) * (-1 if minus else 1)


def half_adjusted(number, decimals):
    return number.quantize(Decimal(1).scaleb(-decimals), ROUND_HALF_UP)


def decks(text):
    """The cards of each level of an input."""
    first, rest = text.split(":deck2\n")
    return first.splitlines()[1:], rest.split(":script\n")[0].splitlines()


def jobs(deck):
    """The date that is set for each job of a deck that isn't a compile job, and its data cards."""
    found, date = [], Decimal(0)
    starts = [place for place, card in enumerate(deck) if card.startswith("// LOAD")]
    for start in starts:
        run = deck.index("// RUN", start)
        for card in deck[start:run]:
            date = Decimal(card[8:].replace("/", "")) if card.startswith("// DATE ") else date
        if not deck[start].startswith("// LOAD $RPG"):
            found.append((date, deck[run + 1:deck.index("/*", run)]))
    return found


def last_job(text):
    """The data cards of the last job of level 1, and the date that is set for it."""
    date, cards = jobs(decks(text)[0])[-1]
    return cards, date


def in_key_order(keys):
    """Keys in the order of the card code, whose letters come before digits."""
    return sorted(keys, key=lambda key: key.encode("cp037"))


def list_line(area, label, organization, retention, length, capacity, count):
    """The line of a file in the list of a pack."""
    return "%d %-8s %s %s %04d %08d %08d" % (area, label, organization, retention, length, capacity, count)


def show_both(*levels):
    """The whole output of a session, of each level's report and halts."""
    for level, (report, halts) in enumerate(levels, 1):
        sys.stdout.write("".join(line + "\n" for line in [":report%d" % level] + report + [":halts%d" % level] + halts))


def show(report, halts):
    """The whole output of a session whose level 2 has no cards."""
    show_both((report, halts), ([], []))
