"""Runs a program that prints lines of a name and a number, and takes the processor time that it has spent at
each line, on Linux. Used by the scripts in the folders beside it."""
import os
import subprocess
import sys
import time


def run(command):
    """The numbers by their names, the processor seconds at each, and the greatest memory in KiB."""
    process = subprocess.Popen([str(word) for word in command], stdout=subprocess.PIPE, text=True)
    clock = (~process.pid << 3) | 2
    numbers, seconds = {}, {}
    for line in process.stdout:
        spent = time.clock_gettime(clock)
        name, _, number = line.strip().rpartition(" ")
        numbers[name], seconds[name] = number, spent
    _, status, usage = os.wait4(process.pid, 0)
    process.returncode = os.waitstatus_to_exitcode(status)
    if process.returncode != 0:
        sys.exit(f"{command}: status {process.returncode}")
    return numbers, seconds, usage.ru_maxrss
