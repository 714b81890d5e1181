#!/usr/bin/env python3
"""Writes the three long sheets of the bench into a folder: sheets.py FOLDER. The same sheets every time.

Each has 4,096 orders, most of them carries: big has all replicas and readers, small has few of both, and wide has as many
replicas out at most as there may be, and one group of readers.
"""
import random
import sys

#         name     S   t  V  R   seed  share of carries
SHEETS = (("big", 32, 3, 7, 64, 1, 0.97), ("small", 5, 1, 2, 8, 2, 0.90), ("wide", 32, 10, 1, 64, 3, 0.97))
ORDERS = 4096


def orders(readers, seed, carries):
    """Carries, and of the other orders three writes for seven reads."""
    chance = random.Random(seed)
    for _ in range(ORDERS):
        x = chance.random()
        if x < carries:
            yield "c"
        elif x < carries + 0.3 * (1 - carries):
            yield "w %d" % chance.randrange(-9_999_999, 9_999_999)
        else:
            yield "r %d" % chance.randrange(1, readers + 1)


def main():
    for name, replicas, tolerated, groups, readers, seed, carries in SHEETS:
        with open("%s/%s.sheet" % (sys.argv[1], name), "w") as sheet:
            sheet.write("settings 5\n%d %d %d %d 1000\norders %d\n" % (replicas, tolerated, groups, readers, ORDERS))
            sheet.writelines(order + "\n" for order in orders(readers, seed, carries))


main()
