#!/usr/bin/env python3
"""Counts what a built program executes, which is the same each time whatever else the machine does.

bench/counts.py PROGRAM

Prints a line `name: value` for each count: instructions of the generated load, of a restart of the primary, and of
checkpoints of a growing volume, and the syncs of the same checkpoints over folders. It needs `valgrind` and `strace`.
"""
import os
import re
import subprocess
import sys
import tempfile


def header(volumes):
    zeros, ones = " ".join("0" * volumes), " ".join("1" * volumes)
    return ["rdfplan 1", "backups 1", f"volumes {volumes}", f"trail {zeros}", f"protect {ones}", "extent 64", "retain 4", "go"]


def restarts(volumes, times):
    """A trail of 4,000 records, and so many restarts of the primary."""
    lines = header(volumes)
    for t in range(1, 1001):
        v = t % volumes
        lines += [f"begin {t}", f"insert {t} {v} f n{t} {t}", f"update {t} {v} f n{t} 0", f"update {t} {v} f n{t} 1", f"commit {t}"]
    return lines + ["cut a", "restart a"] * times


def growing(rows):
    """A volume that grows by a row of some 200 bytes with each batch, and is checkpointed at each 256th."""
    lines = header(1)
    for t in range(1, rows + 1):
        lines += [f"begin {t}", f"insert {t} 0 f key{t} {'v' * 190}{t}", f"commit {t}"]
    return lines


def instructions(program, words, plan):
    text = "\n".join(plan) + "\n"
    with tempfile.TemporaryDirectory() as work:
        command = ["valgrind", "--tool=callgrind", f"--callgrind-out-file={work}/out", program, *words]
        said = subprocess.run(command, input=text, text=True, stdout=subprocess.DEVNULL, stderr=subprocess.PIPE, check=True).stderr
    return int(re.search(r"refs:\s*([\d,]+)", said).group(1).replace(",", ""))


def syncs(program, plan):
    text = "\n".join(plan) + "\n"
    with tempfile.TemporaryDirectory() as work:
        command = ["strace", "-f", "-o", f"{work}/calls", "-e", "trace=fsync,fdatasync", program, "run", "--dir", f"{work}/disks"]
        subprocess.run(command, input=text, text=True, stdout=subprocess.DEVNULL, check=True)
        with open(f"{work}/calls") as calls:
            return sum("sync(" in line for line in calls)


def main():
    program = os.path.realpath(sys.argv[1])
    print("instructions of make 7 2000:", instructions(program, ["make", "7", "2000"], []))
    for volumes in (1, 16):
        few, more = (instructions(program, ["run"], restarts(volumes, n)) for n in (1, 11))
        print(f"instructions of a restart, 4,000 records, {volumes} volumes:", (more - few) // 10)
    # The 10th checkpoint is the last batch's: without it there are nine.
    plans = growing(2559), growing(2560)
    few, more = (instructions(program, ["run"], plan) for plan in plans)
    print("instructions of the batch of 2,560 rows' checkpoint:", more - few)
    few, more = (syncs(program, plan) for plan in plans)
    print("syncs of the same:", more - few)


if __name__ == "__main__":
    main()
