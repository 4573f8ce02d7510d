#!/usr/bin/env python3
"""Measures sessions of a backup: bench/sessions.py PROGRAM [VOLUMES [IMAGES]]

Over folders: each of so many protected volumes (8) gets so many images (2,000), which backup b receives before its session.
The time is that between the reply to `session b` and the one to `end`. The plan is performed twice: as it is, with an
updater in a thread of its own for each volume, and, where the caller is root, as the user `nobody` who may start no thread:
then the caller does the work of the updaters one after the other. Folders are made below TMPDIR, or /tmp.

In memory: a session of 16 volumes in which nothing is left to apply waits until its replies are read. Meanwhile its threads
are counted, and the processors that it keeps busy.
"""
import os
import resource
import subprocess
import sys
import tempfile
import time

NOBODY = 65534
WAITING = 16
SECONDS = 5


def header(volumes):
    trails = " ".join(str(v % 4) for v in range(volumes))
    return ["rdfplan 1", "backups 1", f"volumes {volumes}", f"trail {trails}", "protect" + " 1" * volumes, "extent 10000", "retain 2", "go"]


def applying(volumes, images):
    """A plan whose session has all images to apply, with 64 positions a message."""
    inserts = [f"insert 1 {v} f {i:x} 1" for i in range(images) for v in range(volumes)]
    messages = [line for k in range(-(-(len(inserts) + 1) // 64)) for line in ("send b 64", f"deliver b {k}")]
    return header(volumes) + ["begin 1", *inserts, "commit 1", *messages, "session b", "end"]


def waiting():
    """A plan whose session has nothing to apply, and more replies than a pipe holds."""
    return header(WAITING) + ["begin 1", "insert 1 0 f k " + "v" * 200, "session b", *["get 1 0 f k"] * 2000, "end"]


def as_nobody():
    """The child may start no thread and no process."""
    os.setgroups([])
    os.setgid(NOBODY)
    os.setuid(NOBODY)
    resource.setrlimit(resource.RLIMIT_NPROC, (1, 1))


def begun(program, words, lines, work, **more):
    given = os.path.join(work, "plan")
    with open(given, "w", encoding="ascii") as file:
        file.write("\n".join(lines) + "\n")
    with open(given, encoding="ascii") as source:
        return subprocess.Popen([program, *words], stdin=source, stdout=subprocess.PIPE, **more)


def session_seconds(program, lines, alone):
    with tempfile.TemporaryDirectory() as work:
        disks = os.path.join(work, "disks")
        os.mkdir(disks)
        if alone:
            os.chown(disks, NOBODY, NOBODY)
            os.chmod(work, 0o755)
        times = []
        last = len(lines) - lines.index("go") - 2
        with begun(program, ["run", "--dir", disks], lines, work, preexec_fn=as_nobody if alone else None) as run:
            for number, line in enumerate(run.stdout):
                if number >= last - 1:
                    times.append(time.time())
                    reply = line.strip()
        if run.returncode != 0 or len(times) != 2 or not reply.startswith(b"ok"):
            sys.exit(f"bench/sessions.py: status {run.returncode}")
        return times[1] - times[0]


def used_seconds(process):
    with open(f"/proc/{process}/stat", encoding="ascii") as file:
        words = file.read().rpartition(")")[2].split()
    return (int(words[11]) + int(words[12])) / os.sysconf("SC_CLK_TCK")


def wait_in_a_session(program):
    """How many threads stand in a session that waits, and how many processors they keep busy."""
    with tempfile.TemporaryDirectory() as work:
        with begun(program, ["run"], waiting(), work) as run:
            threads, end = 1, time.time() + 4 * SECONDS
            while threads <= WAITING and time.time() < end:
                time.sleep(0.1)
                threads = len(os.listdir(f"/proc/{run.pid}/task"))
            before, since = used_seconds(run.pid), time.time()
            time.sleep(SECONDS)
            busy = (used_seconds(run.pid) - before) / (time.time() - since)
            run.stdout.read()
        return threads, busy


def main():
    program = os.path.abspath(sys.argv[1])
    volumes, images = (int(n) for n in (sys.argv[2:4] + ["8", "2000"][len(sys.argv) - 2:]))
    threads, busy = wait_in_a_session(program)
    print(f"threads_in_a_session_of_{WAITING}_volumes: {threads}")
    print(f"processors_of_a_session_that_waits: {busy:.2f}")
    lines = applying(volumes, images)
    print(f"session_seconds: {session_seconds(program, lines, False):.3f}")
    if os.getuid() != 0:
        print("session_without_threads_seconds: none (the caller is not root)")
        return
    print(f"session_without_threads_seconds: {session_seconds(program, lines, True):.3f}")


main()
