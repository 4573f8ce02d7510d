#!/usr/bin/env python3
"""Times the takeover of a backup over folders: bench/takeovers.py PROGRAM [VOLUMES [IMAGES]]

The plan gives each of so many protected volumes (8) so many images (4,500, about as many as the 20,000 lines of a plan can
make) and delivers all of them to backup b. Its transactions insert 100 records on each volume and are backed out, but the
last one, which is open, so that each volume has something to undo. Then the primary is lost and b is taken over. The time
is that between the reply to `lose` and the one to `takeover b`. The plan is performed twice: as it is, with a thread for
each volume, and, where the caller is root, as the user `nobody` who may start no thread: then the caller works the volumes
one after the other. The folders of b are to hold the same bytes at the end. Folders are made below TMPDIR, or /tmp.
"""
import hashlib
import os
import resource
import subprocess
import sys
import tempfile
import time

NOBODY = 65534


def plan(volumes, images):
    """The lines of the plan, with 64 positions a message."""
    trails = " ".join(str(v % 4) for v in range(volumes))
    yield from ("rdfplan 1", "backups 1", f"volumes {volumes}", f"trail {trails}", "protect" + " 1" * volumes, "extent 1000", "retain 4", "go")
    rounds = (images - 100) // 200
    for t in range(1, rounds + 2):
        yield f"begin {t}"
        for i in range(100):
            for v in range(volumes):
                yield f"insert {t} {v} f {(t - 1) * 100 + i:x} 1"
        if t <= rounds:
            yield f"abort {t}"
    positions = rounds * (200 * volumes + 1) + 100 * volumes
    for k in range(-(-positions // 64)):
        yield from ("send b 64", f"deliver b {k}")
    yield from ("lose", "takeover b", "list b 0")


def digest(disks):
    """What all files of b's disks hold, in the order of their names."""
    said = hashlib.sha256()
    for path, folders, files in os.walk(disks):
        folders.sort()
        for name in sorted(files):
            full = os.path.join(path, name)
            place = os.path.relpath(full, disks)
            if place.startswith("b"):
                with open(full, "rb") as file:
                    said.update(place.encode() + b"\0" + file.read())
    return said.hexdigest()


def as_nobody():
    """The child may start no thread and no process."""
    os.setgroups([])
    os.setgid(NOBODY)
    os.setuid(NOBODY)
    resource.setrlimit(resource.RLIMIT_NPROC, (1, 1))


def take_over(program, text, alone):
    """The seconds up to the loss, those of the takeover, and the digest of what b's folders hold."""
    with tempfile.TemporaryDirectory() as work:
        disks = os.path.join(work, "disks")
        os.mkdir(disks)
        if alone:
            os.chown(disks, NOBODY, NOBODY)
            os.chmod(work, 0o755)
        given = os.path.join(work, "plan")
        with open(given, "w") as file:
            file.write(text)
        lines = text.split("\n")
        lose = lines.index("lose") - lines.index("go") - 1
        times = [time.time()]
        command = [program, "run", "--dir", disks]
        with open(given) as source, subprocess.Popen(command, stdin=source, stdout=subprocess.PIPE, preexec_fn=as_nobody if alone else None) as run:
            for number, line in enumerate(run.stdout):
                if lose <= number <= lose + 1:
                    times.append(time.time())
                    reply = line.strip()
        if run.returncode != 0 or not reply.startswith(b"ok"):
            sys.exit(f"bench/takeovers.py: status {run.returncode}, takeover {reply.decode()}")
        return times[1] - times[0], times[2] - times[1], digest(disks)


def main():
    program = os.path.abspath(sys.argv[1])
    volumes, images = (int(n) for n in (sys.argv[2:4] + ["8", "4500"][len(sys.argv) - 2:]))
    text = "\n".join(plan(volumes, images)) + "\n"
    before, beside, held = take_over(program, text, False)
    print(f"plan_bytes: {len(text)}")
    print(f"before_seconds: {before:.3f}")
    print(f"takeover_seconds: {beside:.3f}")
    if os.getuid() != 0:
        print("takeover_without_threads_seconds: none (the caller is not root)")
        return
    _, alone, same = take_over(program, text, True)
    print(f"takeover_without_threads_seconds: {alone:.3f}")
    print(f"same_bytes: {held == same}")


main()
