#!/usr/bin/env python3
"""The outputs wanted of this sample, from its cards alone: see README.md.

    wanted.py departments|list"""

import argparse
import os
import sys

sys.dont_write_bytecode = True
HERE = os.path.dirname(os.path.abspath(__file__))
sys.path.insert(0, os.path.dirname(HERE))
from decimal import Decimal  # noqa: E402

from billing import billed  # noqa: E402
from payroll import paid  # noqa: E402
from printing import Printer, edited, jobs, list_line, punched, show_both  # noqa: E402


def cards_of(deck):
    with open(os.path.join(HERE, deck)) as text:
        return text.read().splitlines()


def due_accounts(dues, date):
    printer = Printer()
    printer.put(("DUE ACCOUNTS", 12), (edited(date, 6, 0, "Y"), 54), skip=1, after=2)
    for customer, name, due in dues:
        printer.put((edited(punched(customer, 0), 5, 0, "Z"), 5), (name, 31), (edited(due, 11, 2, "A"), 56), after=1)
    total = sum((due for _, _, due in dues), Decimal(0))
    printer.put((edited(Decimal(len(dues)), 5, 0, "3"), 5), ("CUSTOMERS", 15), (edited(total, 13, 2, "A"), 56), before=1, after=1)
    return printer.report


def check_register(checks, date):
    printer = Printer()
    printer.put(("CHECKS", 6), (edited(date, 6, 0, "Y"), 54), skip=1, after=2)
    for place, (department, number, name, net) in enumerate(checks, 1):
        printer.put((edited(Decimal(place), 5, 0, "3"), 5), (department, 9), (edited(number, 5, 0, "Z"), 16), (name, 38), (edited(net, 7, 2, "K"), 54), after=1)
    total = sum((net for _, _, _, net in checks), Decimal(0))
    printer.put((edited(Decimal(len(checks)), 5, 0, "3"), 5), ("CHECKS", 12), (edited(total, 9, 2, "K"), 54), before=1, after=1)
    return printer.report


def main():
    parser = argparse.ArgumentParser(description="The outputs wanted of this sample, from its cards alone.")
    parser.add_argument("output", choices=("departments", "list"))
    output = parser.parse_args().output
    bills, pay = [jobs(cards_of(deck)) for deck in ("billing.deck", "payroll.deck")]
    billing, payroll = billed(bills[0][1], bills[0][0]), paid(pay[0][1], pay[0][0])
    if output == "departments":
        show_both((billing.printer.report + due_accounts(billing.dues, bills[1][0]), []), (payroll.printer.report + check_register(payroll.checks, pay[1][0]), payroll.halts))
    else:
        print(list_line(1, "DUES", "S", "T", 41, 100, len(billing.dues)))
        print(list_line(2, "CHECKS", "S", "P", 37, 50, len(payroll.checks)))


if __name__ == "__main__":
    main()
