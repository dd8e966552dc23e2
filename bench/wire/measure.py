"""Times `measure wire` and its yardstick, and prints calls and bytes a second of each, and the ratios. Values
are first read and written, and then only written; the difference of the two times is what reading takes. A
call's bytes count once. Called by `run`."""
import os
import sys

sys.path.insert(0, os.path.join(os.path.dirname(os.path.abspath(__file__)), ".."))
import timed

WORKS = ("read and written", "written", "read")


def spent_by(command, count):
    """The processor seconds of each work, and the bytes of all calls."""
    numbers, seconds, _ = timed.run(command)
    if numbers["read and written"] != str(count) or numbers["written"] != str(count):
        sys.exit(f"{command}: {numbers}")
    if numbers["bytes read and written"] != numbers["bytes written"]:
        sys.exit(f"{command}: {numbers}")
    both = seconds["read and written"]
    written = seconds["written"] - seconds["bytes read and written"]
    return dict(zip(WORKS, (both, written, both - written))), int(numbers["bytes written"])


def main():
    program, yardstick, count, rounds = sys.argv[1], sys.argv[2], int(sys.argv[3]), int(sys.argv[4])
    best, sizes = {}, set()
    for _ in range(rounds):
        for name, command in (("program", [program, "wire", count]), ("yardstick", [yardstick, count])):
            spent, size = spent_by(command, count)
            sizes.add(size)
            if name not in best or spent["read and written"] < best[name]["read and written"]:
                best[name] = spent
    if len(sizes) != 1:
        sys.exit(f"the bytes differ: {sizes}")
    size = sizes.pop()
    for name, spent in best.items():
        for work in WORKS:
            rate = f"{count / spent[work]:,.0f} calls a second, {size / spent[work] / 1e6:,.0f} MB a second"
            print(f"{name}, {work}: {rate}")
    for work in WORKS:
        print(f"ratio, {work}: {best['yardstick'][work] / best['program'][work]:.2f}")


main()
