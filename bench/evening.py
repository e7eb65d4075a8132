#!/usr/bin/env python3
"""An evening's list, made up: farm, can, weight, fat, driver.

The same number of lines gives the same bytes on every machine, and a shorter
list is the beginning of a longer one.
"""
import argparse
import os

# Part of a list's file name: change it with anything that changes the bytes.
VERSION = 1
SEED = 20417
FARMS = 400
CANS = 9000
DRIVERS = (
    "A.Abel K.Bauer J.Berg M.Dahlmann E.Eder H.Fink S.Gruber P.Hellberg R.Imhof "
    "T.Jansen L.Kellerman O.Lindberg W.Moser B.Neumann F.Ott G.Pichler D.Quandt "
    "C.Rosenberg N.Sandmann I.Tiedemann V.Ulmer U.Vogelsberg A.Wassermann M.Zeller"
).split()


def draws(seed):
    """Numbers of 31 bits without end. Written out, as Python's own generators
    may give other numbers in another version."""
    state = seed
    while True:
        state = (state * 6364136223846793005 + 1442695040888963407) % 2**64
        yield state >> 33


def lines(count):
    """So many lines of a list, as texts with their end.

    The weight stands in a column of three, so that some fields are two blanks
    apart; fat is in hundredths of a percent, as the language has whole numbers
    only."""
    draw = draws(SEED)
    for _ in range(count):
        farm = 1 + next(draw) % FARMS
        can = 1 + next(draw) % CANS
        weight = 8 + next(draw) % 65 + next(draw) % 40
        fat = 330 + next(draw) % 80 + next(draw) % 80
        driver = DRIVERS[next(draw) % len(DRIVERS)]
        yield f"S{farm:04} {can:06} {weight:3} {fat} {driver}\n"


def path_of(folder, count):
    return os.path.join(folder, f"list-{VERSION}-{count}.txt")


def make(path, count):
    """Writes the list beside its place first, so that a broken run leaves no
    half list behind."""
    part = path + ".part"
    with open(part, "w", encoding="ascii", newline="\n") as file:
        file.writelines(lines(count))
    os.replace(part, path)


def main():
    parser = argparse.ArgumentParser(description="Writes an evening's list.")
    parser.add_argument("--lines", type=int, default=80_000, help="80000 if it isn't said")
    parser.add_argument("file", help="where to write it")
    args = parser.parse_args()
    make(args.file, args.lines)


if __name__ == "__main__":
    main()
