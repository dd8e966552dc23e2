"""Times `measure paxos`, and prints appends a second and the memory kept for each settled command: the
difference of the greatest memory of a run and of a run of a tenth, for each further command. A size of 0 is the
command `Fresh`, any other a `Write` of a page of so many bytes. Called by `run`."""
import os
import sys

sys.path.insert(0, os.path.join(os.path.dirname(os.path.abspath(__file__)), ".."))
import timed


def append(program, replicas, size, count):
    """The processor seconds and the greatest memory of one run."""
    numbers, seconds, greatest = timed.run([program, "paxos", replicas, size, count])
    if numbers["appended"] != str(count):
        sys.exit(f"paxos {replicas} {size}: {numbers}")
    return seconds["appended"], greatest


def main():
    program, small, large, rounds = sys.argv[1], int(sys.argv[2]), int(sys.argv[3]), int(sys.argv[4])
    for replicas in (3, 5):
        for size, count in ((0, small), (100, small), (8192, large)):
            runs = [append(program, replicas, size, count) for _ in range(rounds)]
            spent, greatest = min(runs)
            few = append(program, replicas, size, count // 10)[1]
            kept = (greatest - few) * 1024 / (count - count // 10)
            name = f"a page of {size} bytes" if size else "Fresh"
            print(f"{replicas} replicas, {name}: {count / spent:,.0f} appends a second, {kept:,.0f} bytes kept a command")


main()
