#!/usr/bin/env python3
"""Kills `run --dir` at random moments, and looks at the logs that are left by docs/FORMATS.md.

    bench/kills.py PROGRAM [TIMES]

Each time a plan is performed over new folders until the program is killed. Then each file of each folder must be a
log without damage, and the trail must have the commit of each transaction whose reply was written, in order, and at
most one more. It tells how many commits were found, and ends with status 1 at the first folder that is wrong.
"""
import os
import random
import shutil
import signal
import subprocess
import sys
import tempfile
import time

from disks import logs_of

TRANSACTIONS = 60
HEADER = ["rdfplan 1", "backups 1", "volumes 2", "trail 0 0", "protect 1 1", "extent 1", "retain 2", "go"]


def plan():
    """The lines behind the header, with the number of transactions that are committed by then."""
    lines = []
    for number in range(1, TRANSACTIONS + 1):
        lines.append((f"begin {number}", number - 1))
        lines.append((f"insert {number} {number % 2} f k{number} {number}", number - 1))
        lines.append((f"commit {number}", number))
        if number % 5 == 0:
            lines.append(("send b 64", number))
            lines.append((f"deliver b {number // 5 - 1}", number))
    return lines


def look(folder):
    """The numbers of the committed transactions. Each file must be a log."""
    logs = {disk: logs_of(os.path.join(folder, disk)) for disk in sorted(os.listdir(folder))}
    return [int.from_bytes(block[1:5], "big") for block in logs.get("a0", {}).get(0, []) if block[0] == 2]


def perform(program, text, work, seconds):
    """Performs the plan for so many seconds, and tells its replies."""
    shutil.rmtree(work, ignore_errors=True)
    os.mkdir(work)
    replies = os.path.join(work, "replies")
    with open(os.path.join(work, "plan"), "w") as file:
        file.write(text)
    with open(os.path.join(work, "plan")) as source, open(replies, "w") as out:
        run = subprocess.Popen([program, "run", "--dir", "D"], stdin=source, stdout=out, cwd=work)
        try:
            run.wait(seconds)
        except subprocess.TimeoutExpired:
            run.send_signal(signal.SIGKILL)
            run.wait()
    with open(replies) as file:
        return file.read().count("\n")


def main():
    program = os.path.abspath(sys.argv[1])
    times = int(sys.argv[2]) if len(sys.argv) > 2 else 500
    lines = plan()
    text = "\n".join(HEADER + [line for line, _ in lines]) + "\n"
    work = tempfile.mkdtemp()
    try:
        began = time.time()
        if perform(program, text, work, None) != len(lines):
            sys.exit("the whole plan was not performed")
        whole = time.time() - began
        total = 0
        for count in range(times):
            answered = perform(program, text, work, random.uniform(0, whole))
            folder = os.path.join(work, "D")
            commits = look(folder) if os.path.isdir(folder) else []
            least = lines[answered - 1][1] if answered else 0
            most = lines[min(answered, len(lines) - 1)][1]
            if commits != list(range(1, len(commits) + 1)) or not least <= len(commits) <= most:
                sys.exit(f"run {count}: {answered} replies, commits {commits}, wanted {least} to {most}")
            total += len(commits)
        print(f"{times} kills, {total} commits found, none missing, no file damaged")
    except ValueError as error:
        sys.exit(f"wrong: {error}")
    finally:
        shutil.rmtree(work, ignore_errors=True)


main()
