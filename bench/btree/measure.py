"""Times `measure btree` and its yardstick, and prints operations a second of each, the ratios of their times,
and what the program says of its pages. Called by `run`."""
import os
import sys

sys.path.insert(0, os.path.join(os.path.dirname(os.path.abspath(__file__)), ".."))
import timed


def main():
    program, yardstick, count, rounds = sys.argv[1], sys.argv[2], int(sys.argv[3]), int(sys.argv[4])
    best, memory, told = {}, {}, {}
    for _ in range(rounds):
        for name, command in (("tree", [program, "btree", count]), ("BTreeMap", [yardstick, count])):
            numbers, seconds, greatest = timed.run(command)
            if numbers["inserts"] != str(count) or numbers["seeks"] != str(count):
                sys.exit(f"{name}: {numbers}")
            spent = {"inserts": seconds["inserts"], "seeks": seconds["seeks"] - seconds["inserts"]}
            for work, time in spent.items():
                best[name, work] = min(time, best.get((name, work), time))
            memory[name] = greatest
            told[name] = numbers
    for name in ("tree", "BTreeMap"):
        rates = ", ".join(f"{count / best[name, work]:,.0f} {work} a second" for work in ("inserts", "seeks"))
        print(f"{name}: {rates}; greatest memory {memory[name] / 1024:,.0f} MiB")
    for work in ("inserts", "seeks"):
        print(f"{work}: {best['tree', work] / best['BTreeMap', work]:.1f} times the time of BTreeMap")
    for name, number in told["tree"].items():
        if name not in ("inserts", "seeks"):
            print(f"{name}: {number}")


main()
