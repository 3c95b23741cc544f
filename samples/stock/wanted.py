#!/usr/bin/env python3
"""The outputs wanted of this sample, from its cards alone: see README.md.

    wanted.py prices|stock|list"""

import argparse
import os
import sys

sys.dont_write_bytecode = True
HERE = os.path.dirname(os.path.abspath(__file__))
sys.path.insert(0, os.path.dirname(HERE))
from decimal import Decimal  # noqa: E402

from printing import Headed, decks, edited, half_adjusted, in_key_order, jobs, list_line, punched, show_both  # noqa: E402

PRICES, STOCKS = 120, (100, 60)       # records that the files have room for
NAMES = ("SHOP", "YARD")


def read(name):
    """The run jobs of both levels of an input: each its date and its data."""
    with open(os.path.join(HERE, name)) as text:
        return [jobs(deck) for deck in decks(text.read())]


class Prices:
    def __init__(self):
        (self.date, cards), = read("prices.txt")[0]
        self.of = {card[:6]: (card[6:22], punched(card[22:29], 3)) for card in cards}

    def report(self):
        printer = Headed([[("PRICE LIST", 10), (edited(self.date, 6, 0, "Y"), 24), ("PAGE", 31)]], 36)
        for item, (text, price) in self.of.items():
            printer.begin_record()
            printer.put((item, 6), (text, 24), (edited(price, 7, 3, "1"), 36), after=1)
        printer.put((edited(Decimal(len(self.of)), 5, 0, "3"), 6), ("ITEMS", 12), before=1, after=1)
        return printer.report


class Stock:
    """A level: its stock by item, [bin, on hand, least, date of the last movement]; what its jobs print."""

    def __init__(self, name, prices, loaded, moved, listed):
        self.name, self.prices = name, prices
        date, cards = loaded
        self.of = {card[:6]: [card[6:10], punched(card[10:17], 0), punched(card[17:22], 0), date] for card in cards}
        self.date = moved[0]
        self.report = self.movements(moved[1]) + self.listing(listed[0])

    def value(self, item, quantity):
        return half_adjusted(quantity * self.prices[item][1], 2)

    def movements(self, cards):
        printer = Headed([[("%s STOCK" % self.name, 10), ("MOVEMENTS", 20), (edited(self.date, 6, 0, "Y"), 54), ("PAGE", 74)],
                          [("ITEM", 4), ("QUANTITY", 42), ("ON HAND", 54), ("PRICE", 65), ("VALUE", 79)]], 79)
        sums = {"R": Decimal(0), "I": Decimal(0)}
        for card in cards:
            printer.begin_record()
            printer.put(*self.move(card.ljust(96), sums), after=1)
        printer.put(("RECEIVED", 34), (edited(sums["R"], 11, 2, "1"), 54), ("ISSUED", 65), (edited(sums["I"], 11, 2, "1"), 79), before=1, after=1)
        return printer.report

    def move(self, card, sums):
        """Does what a card says, and gives the pieces of its line."""
        kind, item, quantity = card[0], card[1:7], punched(card[7:12], 0)
        if kind == "N" and item in self.of:
            return [(item, 6), ("IS THERE ALREADY", 34)]
        if kind != "N" and item not in self.of:
            return [(item, 6), ("NO SUCH ITEM", 34)]
        if kind == "N":
            self.of[item] = [card[12:16], Decimal(0), punched(card[16:21], 0), self.date]
        kept = self.of[item]
        is_short = kind == "I" and quantity > kept[1]
        if not is_short:
            kept[1] += -quantity if kind == "I" else quantity
            kept[3] = self.date
        what = {"R": "RECEIVED", "I": "ISSUED", "N": "NEW"}[kind]
        pieces = [(item, 6), (what, 34), (edited(quantity, 5, 0, "1"), 42), (edited(kept[1], 7, 0, "J"), 54)]
        if item not in self.prices:
            pieces.append(("NO PRICE", 24))
        else:
            pieces += [(self.prices[item][0], 24), (edited(self.prices[item][1], 7, 3, "1"), 65)]
            if not is_short:
                value = self.value(item, quantity)
                sums["I" if kind == "I" else "R"] += value
                pieces.append((edited(value, 9, 2, "1"), 79))
        if is_short:
            pieces.append(("SHORT", 86))
        elif kept[1] < kept[2]:
            pieces.append(("BELOW LEAST", 92))
        return pieces

    def listing(self, date):
        printer = Headed([[("%s STOCK LIST" % self.name, 15), (edited(date, 6, 0, "Y"), 59), ("PAGE", 82)],
                          [("ITEM", 4), ("BIN", 30), ("ON HAND", 40), ("LEAST", 47), ("PRICE", 58), ("VALUE", 74), ("MOVED", 84)]], 87)
        total = Decimal(0)
        for item in in_key_order(self.of):
            bin_, on_hand, least, moved = self.of[item]
            printer.begin_record()
            pieces = [(item, 6), (bin_, 30), (edited(on_hand, 7, 0, "1"), 40), (edited(least, 5, 0, "3"), 47), (edited(moved, 6, 0, "Y"), 84)]
            if item in self.prices:
                value = self.value(item, on_hand)
                total += value
                pieces += [(self.prices[item][0], 24), (edited(self.prices[item][1], 7, 3, "1"), 58), (edited(value, 11, 2, "1"), 74)]
            else:
                pieces.append(("NO PRICE", 24))
            printer.put(*pieces, *([("*", 86)] if on_hand < least else []), after=1)
        printer.put((edited(Decimal(len(self.of)), 5, 0, "3"), 6), ("ITEMS", 12), ("STOCK VALUE", 47), (edited(total, 13, 2, "1"), 74), before=1, after=1)
        return printer.report


def main():
    parser = argparse.ArgumentParser(description="The outputs wanted of this sample, from its cards alone.")
    parser.add_argument("output", choices=("prices", "stock", "list"))
    output = parser.parse_args().output
    prices = Prices()
    if output == "prices":
        show_both((prices.report(), []), ([], []))
        return
    stocks = [Stock(name, prices.of, *ran) for name, ran in zip(NAMES, read("stock.txt"))]
    if output == "stock":
        show_both(*((stock.report, []) for stock in stocks))
    else:
        print(list_line(0, "PRICES", "I", "P", 32, PRICES, len(prices.of)))
        for level, (stock, room) in enumerate(zip(stocks, STOCKS), 1):
            print(list_line(level, "STOCK", "I", "P", 24, room, len(stock.of)))


if __name__ == "__main__":
    main()
