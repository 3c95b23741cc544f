#!/usr/bin/env python3
"""The output that `payroll.txt` must have, which is read from standard input. README.md has how reports are described.

An employee's card has T in column 1, the department in 2-3, the employee's number in 4-8, the name in 9-28, hours in 29-32 (two
decimals), the rate for an hour in 33-37 (three), the tax in percent in 38-40 (one), and other deductions in 41-46 (two).

Hours over 40 are overtime, paid at one and a half times the rate. Pay for regular hours, pay for overtime and the tax, percent of the
gross pay, are each half adjusted to two decimals. The gross pay is the sum of the first two. The net pay is gross less tax less
deductions. An employee whose net pay is below zero gets no check and is in no total. After the line is printed, the program shows this
employee to the operator by halt H1. The operator replies 0 to each, and the run continues.

The lines of the report:

    first heading       skip to line 1 before, space 2 after: `PAYROLL REGISTER` 16, `WEEK ENDED` 34, date [Y] 43, `PAGE` 95,
                        page [Z, 4 digits] 100
    second heading      space 2 after: `EMPLOYEE` 15, `HOURS` 34, `RATE` 44, `GROSS` 56, `TAX` 70, `DEDUCTIONS` 85, `NET PAY` 99
    employee            space 1 after: number [Z] 6, name 27, hours [3] 34, `O` 36 if there is overtime, rate [3] 44,
                        gross [1, 7 digits] 56, tax [1, 7 digits] 70, deductions [2] 85, net [J, 7 digits] 100; a net pay below zero
                        is [A] 101 instead, with `NO CHECK IS WRITTEN` 121
    department          space 1 before and after: `DEPARTMENT` 12, the department 15, count of those paid [3, 3 digits] 18, `PAID` 23,
                        their hours [1, 7 digits] 34, gross [1, 9 digits] 56, tax [1, 9 digits] 70, deductions [2, 9 digits] 85,
                        net [K, 9 digits] 100
    its average         space 2 after: `GROSS PAY OF AN HOUR` 26, gross by hours, half adjusted to three decimals [3, 5 digits] 44;
                        `NOBODY WAS PAID` 26 if there are no hours
    at the end          space 1 after: `WHOLE SHOP` 12, then as for a department, with 4, 8, 11, 11, 11 and 11 digits
"""

import sys

sys.dont_write_bytecode = True
from decimal import Decimal  # noqa: E402

from printing import Printer, edited, half_adjusted, last_job, punched, show  # noqa: E402

REGULAR_HOURS = Decimal(40)
OVERTIME = Decimal("1.5")


class Sums:
    """What is added up over employees who are paid: how many, hours, gross, tax, deductions, net."""

    def __init__(self):
        self.paid = 0
        self.amounts = [Decimal(0)] * 5

    def add(self, paid, amounts):
        self.paid += paid
        self.amounts = [sum_ + amount for sum_, amount in zip(self.amounts, amounts)]

    def pieces(self, digits):
        hours, gross, tax, deductions, net = self.amounts
        return [(edited(Decimal(self.paid), digits[0], 0, "3"), 18), ("PAID", 23), (edited(hours, digits[1], 2, "1"), 34), (edited(gross, digits[2], 2, "1"), 56),
                (edited(tax, digits[3], 2, "1"), 70), (edited(deductions, digits[4], 2, "2"), 85), (edited(net, digits[5], 2, "K"), 100)]


class Payroll:
    def __init__(self, date):
        self.printer = Printer()
        self.date = date
        self.pages = 0
        self.department = None
        self.sums, self.all_sums = Sums(), Sums()
        self.halts, self.checks = [], []

    def headings(self):
        self.pages += 1
        self.printer.put(("PAYROLL REGISTER", 16), ("WEEK ENDED", 34), (edited(self.date, 6, 0, "Y"), 43), ("PAGE", 95), (edited(Decimal(self.pages), 4, 0, "Z"), 100), skip=1, after=2)
        self.printer.put(("EMPLOYEE", 15), ("HOURS", 34), ("RATE", 44), ("GROSS", 56), ("TAX", 70), ("DEDUCTIONS", 85), ("NET PAY", 99), after=2)

    def department_totals(self):
        hours, gross = self.sums.amounts[:2]
        self.printer.put(("DEPARTMENT", 12), (self.department, 15), *self.sums.pieces((3, 7, 9, 9, 9, 9)), before=1, after=1)
        if hours:
            self.printer.put(("GROSS PAY OF AN HOUR", 26), (edited(half_adjusted(gross / hours, 3), 5, 3, "3"), 44), after=2)
        else:
            self.printer.put(("NOBODY WAS PAID", 26), after=2)
        self.all_sums.add(self.sums.paid, self.sums.amounts)
        self.sums = Sums()

    def card(self, card):
        card = card.ljust(96)
        department = card[1:3]
        if self.department not in (None, department):
            self.department_totals()
        self.department = department
        if self.printer.overflow:
            self.headings()
            self.printer.overflow = False
        self.employee(punched(card[3:8], 0), card[8:28], punched(card[28:32], 2), punched(card[32:37], 3), punched(card[37:40], 1), punched(card[40:46], 2))

    def employee(self, number, name, hours, rate, percent, deductions):
        overtime = max(hours - REGULAR_HOURS, Decimal(0))
        gross = half_adjusted((hours - overtime) * rate, 2) + half_adjusted(overtime * rate * OVERTIME, 2)
        tax = half_adjusted(gross * percent / 100, 2)
        net = gross - tax - deductions
        pieces = [(edited(number, 5, 0, "Z"), 6), (name, 27), (edited(hours, 4, 2, "3"), 34)] + ([("O", 36)] if overtime else [])
        pieces += [(edited(rate, 5, 3, "3"), 44), (edited(gross, 7, 2, "1"), 56), (edited(tax, 7, 2, "1"), 70), (edited(deductions, 6, 2, "2"), 85)]
        if net < 0:
            self.printer.put(*pieces, (edited(net, 7, 2, "A"), 101), ("NO CHECK IS WRITTEN", 121), after=1)
            self.halts.append("002 H1 0")
        else:
            self.printer.put(*pieces, (edited(net, 7, 2, "J"), 100), after=1)
            self.sums.add(1, [hours, gross, tax, deductions, net])
            self.checks.append((self.department, number, name, net))


def paid(cards, date):
    """What payroll prints and shows, and the checks: departments, employees' numbers, names and net pay."""
    payroll = Payroll(date)
    payroll.headings()
    for card in cards:
        payroll.card(card)
    if payroll.department is not None:
        payroll.department_totals()
    payroll.printer.put(("WHOLE SHOP", 12), *payroll.all_sums.pieces((4, 8, 11, 11, 11, 11)), after=1)
    return payroll


def main():
    payroll = paid(*last_job(sys.stdin.read()))
    show(payroll.printer.report, payroll.halts)


if __name__ == "__main__":
    main()
