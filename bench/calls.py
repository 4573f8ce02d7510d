#!/usr/bin/env python3
"""Times `run --dir` beside its device calls alone: the same writes and syncs, and nothing else.

bench/calls.py PROGRAM [TIMES]

The calls of one run of the generated plan of 2,000 transactions are read from `strace`. What is performed of them is what
the formats ask for: each file is made once and stays open, each write goes to its place, and a file or a folder is synced
where something of it was written, made or removed since its last sync, a file by its data alone where it has the length of
then. No file is looked at, opened again or read. Both
must leave the same bytes. Then the program and its calls alone are timed turn about, so many times, and where root calls
this, the program without threads too: as a user who may start none. Beside the seconds it tells the processor time of the
program and in the system, and how often it waited. Folders are made below TMPDIR, or /tmp: name a folder on the disk that
is to be measured. Prints a line `name: value` for each measure.
"""
import filecmp
import os
import re
import resource
import shutil
import statistics
import subprocess
import sys
import tempfile
import time
from collections import Counter

from generated import plan

TRACED = "openat,open,statx,fstat,newfstatat,lseek,write,pwrite64,fsync,fdatasync,unlink,unlinkat,mkdir,mkdirat,close"
CALL = re.compile(r"^(\w+)\((.*)\) += (-?\d+)")
RESUMED = re.compile(r"^<\.\.\. \w+ resumed>")
NOBODY = 65534
PATH = re.compile(r'"((?:[^"\\]|\\.)*)"')


def text(quoted):
    return bytes(int(byte, 16) for byte in quoted.split("\\x")[1:])


def traced(program, lines, folder, trace):
    command = ["strace", "-f", "-xx", "-s", "4194304", "-e", f"trace={TRACED}", "-o", trace, program, "run", "--dir", folder]
    subprocess.run(command, input=lines, stdout=subprocess.DEVNULL, check=True)


def whole_calls(lines):
    """The lines without the number of the thread, each that another thread broke off joined again. A handle may be given to
    another thread as soon as its close begins, so a close that was broken off comes where it began."""
    begun = {}
    for line in lines:
        thread, _, rest = line.rstrip("\n").partition(" ")
        rest = rest.lstrip()
        if rest.endswith(" <unfinished ...>"):
            begun[thread] = rest[:-len(" <unfinished ...>")]
            if rest.startswith("close("):
                yield begun[thread] + ") = 0"
        elif RESUMED.match(rest):
            whole = begun.pop(thread) + RESUMED.sub("", rest)
            if not whole.startswith("close("):
                yield whole
        else:
            yield rest


def calls(trace, folder):
    """The calls below the folder: (what, path, place, bytes), and how many calls of each kind the program made there."""
    top, paths, places, made, counts = os.fsencode(folder), {}, {}, [], Counter()
    with open(trace) as lines:
        for line in whole_calls(lines):
            found = CALL.match(line)
            if not found or int(found[3]) < 0:
                continue
            name, words, answer = found[1], found[2], int(found[3])
            path = PATH.search(words)
            if name in ("openat", "open", "statx", "newfstatat", "unlink", "unlinkat", "mkdir", "mkdirat"):
                path = text(path[1])
                if not path.startswith(top):
                    continue
                if "stat" in name:
                    counts[name] += 1
                    continue
                if name.startswith("open"):
                    paths[answer], places[answer] = path, 0
                    if "O_CREAT" in words:
                        made.append(("make", path, 0, b""))
                else:
                    made.append(("folder" if name.startswith("mkdir") else "remove", path, 0, b""))
            else:
                handle = int(words.split(",")[0])
                if handle not in paths:
                    continue
                if name == "close":
                    del paths[handle]
                elif name == "lseek":
                    places[handle] = answer
                elif name == "fstat":
                    pass
                elif "sync" in name:
                    made.append(("sync", paths[handle], 0, b""))
                else:
                    place = int(words.split(",")[-1]) if name == "pwrite64" else places[handle]
                    made.append(("write", paths[handle], place, text(path[1])[:answer]))
                    places[handle] = place + answer
            counts[name] += 1
    return made, counts


def asked(made):
    """Those that change something, and the first sync behind each change."""
    there, changed, grown, lengths, left = set(), set(), set(), Counter(), []
    for what, path, place, written in made:
        above = os.path.dirname(path)
        if what in ("make", "folder"):
            if path in there:
                continue
            there.add(path)
            changed.update((path, above))
            grown.update((path, above))
        elif what == "remove":
            there.discard(path)
            changed.discard(path)
            del lengths[path]
            changed.add(above)
            grown.add(above)
        elif what == "write":
            changed.add(path)
            if place + len(written) > lengths[path]:
                lengths[path] = place + len(written)
                grown.add(path)
        elif path not in changed:
            continue
        else:
            changed.discard(path)
            what = "sync" if path in grown else "data"
            grown.discard(path)
        left.append((what, path, place, written))
    return left


def perform(left, top, folder):
    """Performs the calls below another folder, and answers what that took."""
    left = [(what, folder + os.fsdecode(path[len(os.fsencode(top)):]), place, text) for what, path, place, text in left]
    handles = {}
    begun = used(resource.RUSAGE_SELF)
    for what, path, place, text in left:
        if what == "write":
            os.pwrite(handles[path], text, place)
        elif what == "sync":
            os.fsync(handles[path])
        elif what == "data":
            os.fdatasync(handles[path])
        elif what == "make":
            handles[path] = os.open(path, os.O_WRONLY | os.O_CREAT, 0o600)
        elif what == "folder":
            os.mkdir(path, 0o700)
            handles[path] = os.open(path, os.O_RDONLY)
        else:
            os.close(handles.pop(path))
            os.unlink(path)
    measured = since(begun, resource.RUSAGE_SELF)
    for handle in handles.values():
        os.close(handle)
    return measured


def used(whose):
    usage = resource.getrusage(whose)
    return [time.monotonic(), usage.ru_utime, usage.ru_stime, usage.ru_nvcsw]


def since(before, whose):
    """The seconds, those of processor time in the program and in the system, and the waits."""
    return [now - then for then, now in zip(before, used(whose))]


def without_threads():
    os.setgroups([])
    os.setgid(NOBODY)
    os.setuid(NOBODY)
    resource.setrlimit(resource.RLIMIT_NPROC, (1, 1))


def run(program, lines, folder, before=None):
    begun = used(resource.RUSAGE_CHILDREN)
    subprocess.run([program, "run", "--dir", folder], input=lines, stdout=subprocess.DEVNULL, check=True, preexec_fn=before)
    return since(begun, resource.RUSAGE_CHILDREN)


def same(one, other):
    seen = filecmp.dircmp(one, other)
    _, differ, failed = filecmp.cmpfiles(one, other, seen.common_files, shallow=False)
    return not (seen.left_only or seen.right_only or differ or failed) and all(
        same(os.path.join(one, name), os.path.join(other, name)) for name in seen.common_dirs)


def told(name, measured):
    whats = "seconds", "processor seconds in the program", "processor seconds in the system", "waits"
    for what, values, digits in zip(whats, zip(*measured), (3, 3, 3, 0)):
        print(f"{name}, {what}: {statistics.median(values):.{digits}f} (least {min(values):.{digits}f}, most {max(values):.{digits}f})")


def main():
    program, times = os.path.realpath(sys.argv[1]), int(sys.argv[2]) if len(sys.argv) > 2 else 7
    lines = ("\n".join(plan(7, 2000)) + "\n").encode()
    with tempfile.TemporaryDirectory() as work:
        work = os.path.realpath(work)
        top = f"{work}/disks"
        traced(program, lines, top, f"{work}/trace")
        made, counts = calls(f"{work}/trace", top)
        left = asked(made)
        for name, count in sorted(counts.items()):
            print(f"calls of {name}: {count}")
        for name, count in sorted(Counter(call[0] for call in left).items()):
            print(f"asked for, {name}: {count}")
        perform(left, top, f"{work}/alone")
        print("the same bytes:", same(top, f"{work}/alone"))
        whole, alone, single = [], [], []
        os.chmod(work, 0o755)
        for turn in range(times):
            for folder in ("disks", "alone", "single"):
                shutil.rmtree(f"{work}/{folder}", ignore_errors=True)
            whole.append(run(program, lines, top))
            alone.append(perform(left, top, f"{work}/alone"))
            if os.getuid() == 0:
                os.mkdir(f"{work}/single")
                os.chown(f"{work}/single", NOBODY, NOBODY)
                single.append(run(program, lines, f"{work}/single", without_threads))
        told("run --dir", whole)
        told("its calls alone", alone)
        median = statistics.median(taken[0] for taken in alone)
        print(f"run --dir / its calls alone, of the medians: {statistics.median(taken[0] for taken in whole) / median:.2f}")
        if single:
            told("run --dir without threads", single)
            print(f"run --dir without threads / its calls alone, of the medians: {statistics.median(taken[0] for taken in single) / median:.2f}")


if __name__ == "__main__":
    main()
