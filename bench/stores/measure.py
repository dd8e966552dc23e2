"""Times `measure stores`, and prints commands a second and the memory kept for each: the difference of the greatest memory of
a run and of a run of a tenth, for each further command. Called by `run`."""
import os
import sys

sys.path.insert(0, os.path.join(os.path.dirname(os.path.abspath(__file__)), ".."))
import timed

SMALL = ("fresh", "read", "look")
LARGE = ("write", "commit1", "commit2", "commit4")


def ask(program, what, replicas, count):
    """The processor seconds and the greatest memory of one run."""
    numbers, seconds, greatest = timed.run([program, "stores", what, replicas, count])
    if numbers["asked"] != str(count):
        sys.exit(f"stores {what} {replicas}: {numbers}")
    return seconds["asked"], greatest


def main():
    program, small, large, rounds = sys.argv[1], int(sys.argv[2]), int(sys.argv[3]), int(sys.argv[4])
    for replicas in (3, 5):
        for what in SMALL + LARGE:
            count = small if what in SMALL else large
            spent, greatest = min(ask(program, what, replicas, count) for _ in range(rounds))
            few = ask(program, what, replicas, count // 10)[1]
            kept = (greatest - few) * 1024 / (count - count // 10)
            print(f"{replicas} replicas, {what}: {count / spent:,.0f} a second, {kept:,.0f} bytes kept each")


main()
