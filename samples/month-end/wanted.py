#!/usr/bin/env python3
"""The outputs wanted of this sample, from its tables and order cards alone: see README.md.

    wanted.py june-29|june-30|register|due|prices|july"""

import argparse
import csv
import os
import sys

sys.dont_write_bytecode = True
HERE = os.path.dirname(os.path.abspath(__file__))
sys.path.insert(0, os.path.dirname(HERE))
from decimal import Decimal  # noqa: E402

from printing import Headed, Printer, edited, half_adjusted, in_key_order, list_line, punched, show  # noqa: E402

DAYS = ("june-29", "june-30")
ROOM = 200


def table(name):
    with open(os.path.join(HERE, name + ".csv"), newline="") as rows:
        return list(csv.DictReader(rows))


def day_of(name):
    """The date of a day, and its order cards."""
    with open(os.path.join(HERE, name + ".cards")) as text:
        cards = text.read().splitlines()
    date = Decimal([card for card in cards if card.startswith("// DATE ")][0][8:].replace("/", ""))
    return date, [card for card in cards if card.startswith("O")]


class Shop:
    """Customers, [name, what is owed] by number; orders as they came."""

    def __init__(self):
        self.customers = {row["CUSTNO"]: [row["NAME"], Decimal(row["DUE"])] for row in table("customers")}
        self.prices = {row["ITEM"]: (row["DESC"], Decimal(row["PRICE"])) for row in table("prices-june")}
        self.orders = []
        self.reports = {day: self.take(*day_of(day)) for day in DAYS}

    def take(self, date, cards):
        """Takes the orders of a day, and gives the report."""
        printer = Printer()
        printer.put(("ORDERS OF THE DAY", 17), (edited(date, 6, 0, "Y"), 40), skip=1, after=2)
        total = Decimal(0)
        for card in cards:
            number, item, quantity = card[1:6], card[6:12], punched(card[12:17], 0)
            customer, price = self.customers.get(number), self.prices.get(item)
            pieces = [(number, 5), (item, 38), (edited(quantity, 5, 0, "1"), 62)]
            pieces.append((customer[0].ljust(24), 30) if customer else ("NO SUCH CUSTOMER", 22))
            pieces.append((price[0].ljust(16), 55) if price else ("NO SUCH ITEM", 51))
            if customer and price:
                amount = half_adjusted(quantity * price[1], 2)
                customer[1] += amount
                total += amount
                self.orders.append((number, item, quantity, amount, date))
                pieces.append((edited(amount, 9, 2, "J"), 76))
            printer.put(*pieces, after=1)
        printer.put(("ORDERED", 55), (edited(total, 11, 2, "J"), 76), before=1, after=1)
        return printer.report

    def register(self):
        date = day_of(DAYS[-1])[0]
        printer = Headed([[("ORDER REGISTER", 14), (edited(date, 6, 0, "Y"), 40), ("PAGE", 52)]], 57)
        everything = Decimal(0)
        for number in in_key_order({order[0] for order in self.orders}):
            name, due = self.customers[number]
            orders = sorted((order for order in self.orders if order[0] == number), key=lambda order: -order[3])
            for _, item, quantity, amount, day in orders:
                printer.begin_record()
                printer.put((number, 5), (name.ljust(24), 30), (item, 38), (edited(quantity, 5, 0, "1"), 45), (edited(amount, 9, 2, "J"), 60),
                            (edited(day, 6, 0, "Y"), 70), after=1)
            total = sum(order[3] for order in orders)
            everything += total
            printer.put(("ORDERED", 30), (edited(total, 11, 2, "J"), 60), ("OWES", 75), (edited(due, 11, 2, "J"), 90), after=2)
        printer.put(("ALL ORDERS", 30), (edited(everything, 11, 2, "J"), 60), after=1)
        return printer.report


def show_table(heading, rows):
    writer = csv.writer(sys.stdout, lineterminator="\n")
    writer.writerow(heading)
    writer.writerows(rows)


def main():
    parser = argparse.ArgumentParser(description="The outputs wanted of this sample, from its tables and order cards alone.")
    parser.add_argument("output", choices=(*DAYS, "register", "due", "prices", "july"))
    output = parser.parse_args().output
    shop = Shop()
    new = {row["ITEM"]: (row["DESC"], Decimal(row["PRICE"])) for row in table("prices-july")}
    if output in DAYS:
        show(shop.reports[output], [])
    elif output == "register":
        show(shop.register(), [])
    elif output == "due":
        show_table(["CUSTNO", "NAME", "DUE"], ((number, shop.customers[number][0], "%.2f" % shop.customers[number][1]) for number in in_key_order(shop.customers)))
    elif output == "prices":
        show_table(["ITEM", "DESC", "PRICE"], ((item, new[item][0], "%.3f" % new[item][1]) for item in in_key_order(new)))
    else:
        print(list_line(0, "PRICES", "I", "T", 26, len(new), len(new)))
        print(list_line(1, "CUSTOM", "I", "P", 35, len(shop.customers), len(shop.customers)))
        print(list_line(1, "ORDERED", "S", "T", 27, ROOM, 0))


if __name__ == "__main__":
    main()
