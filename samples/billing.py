#!/usr/bin/env python3
"""The output that `billing.txt` must have, which is read from standard input. README.md has how reports are described.

A customer card has C in column 1, the customer's number in 2-6 and the name in 7-30. The customer's item cards follow it: I in
column 1, the customer's number in 2-6, the item in 7-12, its description in 13-32, the quantity in 33-37 with one decimal, and the
price in 38-43 with three. A quantity below zero is a credit: its last digit is punched with zone D (`}` is 0, `J` to `R` are 1 to 9).

An item's amount is quantity by price, half adjusted to two decimals. A customer's total is the sum of the amounts. If it is 1,000.00
or more, the customer has a discount of 2.5%, half adjusted to two decimals. What is due is the total less the discount.

The lines of the report:

    first heading       skip to line 1 before, space 2 after: `BILLING REGISTER` 16, date [Y] 40, `PAGE` 57, page [Z, 4 digits] 62
    second heading      space 2 after: `ITEM` 6, `DESCRIPTION` 21, `QUANTITY` 40, `PRICE` 50, `AMOUNT` 64
    customer card       space 1 before and after: number [Z] 7, name 32
    item card           space 1 after: item 8, description 30, quantity [J] 40, price [1] 50, amount [J, 9 digits] 65; `CREDIT` 73 if
                        the amount is below zero
    customer's total    space 1 before and after: count of items [3, 5 digits] 8, `ITEMS` 14, `CUSTOMER TOTAL` 40,
                        total [A, 11 digits] 66
    discount            space 1 after, only if there is one: `LESS 2.5% DISCOUNT` 40, discount [A, 11 digits] 66
    due                 space 1 after: `AMOUNT DUE` 40, what is due [A, 11 digits] 66, `*` 68
    at the end          space 1 before and after: count of customers [3, 5 digits] 8, `CUSTOMERS` 18, count of items [1, 7 digits] 28,
                        `ITEMS` 34, `TOTAL DUE` 45, all that is due [A, 13 digits] 66, `**` 69
"""

import sys

sys.dont_write_bytecode = True
from decimal import Decimal  # noqa: E402

from printing import Printer, edited, half_adjusted, last_job, punched, show  # noqa: E402

LEAST_FOR_DISCOUNT = Decimal(1000)
DISCOUNT = Decimal("0.025")


class Billing:
    def __init__(self, date):
        self.printer = Printer()
        self.date = date
        self.pages = 0
        self.customer = None
        self.total, self.items = Decimal(0), 0
        self.all_due, self.all_items, self.customers = Decimal(0), 0, 0
        self.name, self.dues = "", []

    def headings(self):
        self.pages += 1
        self.printer.put(("BILLING REGISTER", 16), (edited(self.date, 6, 0, "Y"), 40), ("PAGE", 57), (edited(Decimal(self.pages), 4, 0, "Z"), 62), skip=1, after=2)
        self.printer.put(("ITEM", 6), ("DESCRIPTION", 21), ("QUANTITY", 40), ("PRICE", 50), ("AMOUNT", 64), after=2)

    def customer_totals(self):
        put = self.printer.put
        discount = half_adjusted(self.total * DISCOUNT, 2) if self.total >= LEAST_FOR_DISCOUNT else Decimal(0)
        due = self.total - discount
        put((edited(Decimal(self.items), 5, 0, "3"), 8), ("ITEMS", 14), ("CUSTOMER TOTAL", 40), (edited(self.total, 11, 2, "A"), 66), before=1, after=1)
        if self.total >= LEAST_FOR_DISCOUNT:
            put(("LESS 2.5% DISCOUNT", 40), (edited(discount, 11, 2, "A"), 66), after=1)
        put(("AMOUNT DUE", 40), (edited(due, 11, 2, "A"), 66), ("*", 68), after=1)
        self.dues.append((self.customer, self.name, due))
        self.all_due += due
        self.all_items += self.items
        self.customers += 1
        self.total, self.items = Decimal(0), 0

    def all_totals(self):
        self.printer.put((edited(Decimal(self.customers), 5, 0, "3"), 8), ("CUSTOMERS", 18), (edited(Decimal(self.all_items), 7, 0, "1"), 28), ("ITEMS", 34),
                         ("TOTAL DUE", 45), (edited(self.all_due, 13, 2, "A"), 66), ("**", 69), before=1, after=1)

    def card(self, card):
        card = card.ljust(96)
        customer = card[1:6]
        if self.customer not in (None, customer):
            self.customer_totals()
        self.customer = customer
        if self.printer.overflow:
            self.headings()
            self.printer.overflow = False
        if card[0] == "C":
            self.name = card[6:30]
            self.printer.put((edited(punched(customer, 0), 5, 0, "Z"), 7), (self.name, 32), before=1, after=1)
        else:
            self.item(card[6:12], card[12:32], punched(card[32:37], 1), punched(card[37:43], 3))

    def item(self, item, description, quantity, price):
        amount = half_adjusted(quantity * price, 2)
        self.total += amount
        self.items += 1
        self.printer.put((item, 8), (description, 30), (edited(quantity, 5, 1, "J"), 40), (edited(price, 6, 3, "1"), 50), (edited(amount, 9, 2, "J"), 65),
                         *([("CREDIT", 73)] if amount < 0 else []), after=1)


def billed(cards, date):
    """What billing prints, and what is due: customers' numbers, names and amounts."""
    billing = Billing(date)
    billing.headings()
    for card in cards:
        billing.card(card)
    if billing.customer is not None:
        billing.customer_totals()
    billing.all_totals()
    return billing


def main():
    show(billed(*last_job(sys.stdin.read())).printer.report, [])


if __name__ == "__main__":
    main()
