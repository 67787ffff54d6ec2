#!/usr/bin/env python3
"""Writes the tables of this example: so many rows of SALE, and SHOP, as `qwasm gen 1 ROWS` makes them (docs/FORMATS.md, "Generated input").

    sales.py ROWS DIR
"""
import os
import sys


def draws(seed):
    """Knuth's generator MMIX: numbers below 2^31."""
    x = seed
    while True:
        x = (6364136223846793005 * x + 1442695040888963407) % 2**64
        yield x // 2**33


def sales(rows, seed=1):
    draw = draws(seed)
    yield "ID,SHOP,PRICE,SOLD,KIND"
    for number in range(1, rows + 1):
        shop, price, day, kind = (next(draw) for _ in range(4))
        money = "" if price % 10 == 0 else f"{price % 100000 // 100}.{price % 100:02}"
        date = f"{2000 + day % 10}-{day // 10 % 12 + 1:02}-{day // 120 % 28 + 1:02}"
        yield f"{number},{shop % 20 + 1},{money},{date},{('bolt', 'nut', 'gear', 'pin')[kind % 4]}"


def shops():
    yield "ID,CITY"
    for number in range(1, 17):
        yield f"{number},{'' if number == 16 else f'city{number % 4}'}"


def main():
    rows, folder = int(sys.argv[1]), sys.argv[2]
    os.makedirs(folder, exist_ok=True)
    for name, lines in (("sale.csv", sales(rows)), ("shop.csv", shops())):
        with open(os.path.join(folder, name), "w", encoding="utf-8") as file:
            file.writelines(f"{line}\n" for line in lines)


if __name__ == "__main__":
    main()
