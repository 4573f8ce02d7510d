#!/usr/bin/env python3
"""Refuses each request for memory of a built program in turn, in memory and over folders.

    bench/memory.py PROGRAM [NAME ..]

NAME is a row of crates/rdf_rows/data, whose plan is performed: `undone_then_committed` and `session` where none is
given.
A library made of bench/refuse.c (by `cc`) stands between the program and the C library. First one request is refused
and the next one served again; then each request from one on is refused. Either the run goes on as the row says, to its
end; or it ends with status 7 and `rdf: no memory`, and what was written is the replies to some first lines, but not to
all. Over folders each disk is then read by docs/FORMATS.md: it must stand for what the answered lines leave, or for some
first ones of the durable changes of the next line.
"""
import os
import shutil
import subprocess
import sys
import tempfile
import threading
import time
from concurrent.futures import ThreadPoolExecutor

from disks import audit_trail, change, image_trails, logs_of, volume

HERE = os.path.dirname(os.path.abspath(__file__))
DATA = os.path.join(HERE, "..", "crates", "rdf_rows", "data")
ROWS = ["undone_then_committed", "session"]
ALL = 10**9
HEADER = 8
WORKERS = os.cpu_count() or 1
STRIDE = 100


class Line:
    """A line of a plan with its replies, each of which is a list of alternatives, which are lists of lines."""

    def __init__(self, text):
        self.text, self.replies = text, []


def lines_of(text):
    """The lines of a row's plan, as docs/ROWS.md has them. Conditions of alternatives are not read."""
    lines, branches = [], None
    for line in text.splitlines():
        mark, _, rest = line.partition(" ")
        if mark == ">":
            lines.append(Line(rest))
        elif mark == "<" and branches is None:
            lines[-1].replies.append([[rest]])
        elif mark == "<":
            branches[-1].append(rest)
        elif rest == "either":
            branches = [[]]
        elif rest == "or":
            branches.append([])
        elif rest == "end":
            lines[-1].replies.append(branches)
            branches = None
        elif mark != "#":
            raise ValueError(f"a line that is not read here: {line}")
    return lines


def fits_word(wanted, word):
    if not wanted.startswith("{"):
        return wanted == word
    low, high = wanted[1:-1].partition(":")[2].split("-")
    return word.isdecimal() and int(low) <= int(word) <= int(high)


def fits(wanted, line):
    words, others = wanted.split(" "), line.split(" ")
    return len(words) == len(others) and all(map(fits_word, words, others))


def answered(lines, written):
    """How many lines of the plan are answered. What was written must be their replies, and no part of another."""
    left = written.decode("ascii").split("\n")
    if left.pop() != "":
        raise ValueError("the last line that was written has no end")
    for count, line in enumerate(lines):
        if not left and line.replies:
            return count
        for branches in line.replies:
            found = [b for b in branches if len(b) <= len(left) and all(map(fits, b, left))]
            if not found:
                raise ValueError(f"`{line.text}` is answered by {left[:3]}")
            left = left[len(found[0]) :]
    if left:
        raise ValueError(f"{left[0]} is behind the last reply")
    return len(lines)


class Stage:
    """What the disks stand for once a line is done: the length of the trail, whether the primary is lost, and of each
    backup what it received and its phase."""

    def __init__(self, length, is_lost, received, phase):
        self.length, self.is_lost, self.received, self.phase = length, is_lost, dict(received), dict(phase)


def story_of(lines):
    """The trail that the plan makes, and a stage for each line and for the start. Only the lines that change disks
    are looked at; of a message's line, a copy and a takeover the row's own reply tells how far they come."""
    trail, values = [], {}
    stages = [Stage(0, False, {"b": 0, "c": 0}, {"b": ("running",), "c": ("running",)})]
    for line in lines:
        stage = Stage(len(trail), stages[-1].is_lost, stages[-1].received, stages[-1].phase)
        verb, *words = line.text.split(" ")
        told = line.replies[0][0][0].split(" ") if line.replies else []
        if verb in ("insert", "update"):
            txn, vol, file, key, value = words
            place = (int(vol), file, key)
            trail.append(("image", int(txn), int(vol), (file, key), values.get(place), value))
            values[place] = value
        elif verb == "commit":
            trail.append(("commit", int(words[0])))
        elif verb == "deliver":
            stage.received[words[0]] = int(told[1])
        elif verb == "copyaudit":
            stage.received[words[0]] += int(told[1])
        elif verb == "takeover":
            stage.phase[words[0]] = ("taken", int(told[1]))
        elif verb == "lose":
            stage.is_lost = True
        elif verb in ("delete", "abort", "cut", "restart"):
            raise ValueError(f"a line that is not read here: {line.text}")
        stage.length = len(trail)
        stages.append(stage)
    return trail, stages


def images(trail, vol, begin=0, txn=None):
    return [it for it in trail[begin:] if it[0] == "image" and it[2] == vol and txn in (None, it[1])]


def with_images(rows, found):
    rows = dict(rows)
    for _, _, _, place, _, after in found:
        change(rows, place, after)
    return rows


def committed(trail, vol):
    """The rows of the transactions that are committed in a trail, one after the other in the order of their commits."""
    rows = {}
    for record in trail:
        if record[0] == "commit":
            rows = with_images(rows, images(trail, vol, 0, record[1]))
    return rows


def low(trail):
    """The first position of an image whose transaction has no outcome."""
    ended = {it[1] for it in trail if it[0] != "image"}
    return next((at for at, it in enumerate(trail) if it[0] == "image" and it[1] not in ended), len(trail))


def need(holds, what):
    if not holds:
        raise ValueError(what)


def look_primary(base, header, trail, before, after):
    """The trail has the records of the answered lines; each volume shows it up to its restart point, and all of it where
    the primary is up and the next line changes nothing there."""
    found = audit_trail(os.path.join(base, "a0"))
    need(before.length <= len(found) <= after.length and found == trail[: len(found)], f"the trail is {found}")
    for vol in range(header["volumes"]):
        rows, restart = volume(os.path.join(base, f"a{vol + 1}"))
        need(restart <= len(found), f"volume {vol} of a is at {restart}")
        is_whole = not after.is_lost and before.length == after.length
        shown = found if is_whole else found[:restart]
        need(rows == with_images({}, images(shown, vol)), f"volume {vol} of a has {rows} at {restart}")


def look_backup(base, node, header, trail, before, after):
    """The image trails have what was received, and each volume shows what its phase says."""
    kept, received, phase, entries = image_trails(os.path.join(base, f"{node}0"), header["trail"])
    need(before.received[node] <= received <= after.received[node], f"{node} has received {received}")
    part = [(at, it) for at, it in enumerate(trail[:received])]
    need(kept == 0 and entries == part, f"{node} has {entries} of what it received")
    phases = [before.phase[node], after.phase[node]]
    need(phase in phases or (phases[0] != phases[1] and phase == ("taking",)), f"{node} is {phase}")
    for vol in range(header["volumes"]):
        rows, restart = volume(os.path.join(base, f"{node}{vol + 1}"))
        if phase[0] == "running":
            is_right = restart <= received and rows == with_images({}, images(trail[:restart], vol))
        elif phase[0] == "taking":
            whole = with_images({}, images(trail[:received], vol))
            is_right = restart <= received and with_images(rows, images(trail[:received], vol, restart)) == whole
        else:
            taken = trail[: phase[1]]
            is_right = restart == low(taken) and rows == committed(taken, vol)
        need(is_right, f"volume {vol} of {node} has {rows} at {restart}, and {node} is {phase}")


def look(base, header, trail, stages, count):
    """The disks after so many answered lines. Before the first line they may be made in part, so only logs are read."""
    before, after = stages[count], stages[min(count + 1, len(stages) - 1)]
    if count == 0:
        for disk in os.listdir(base) if os.path.isdir(base) else []:
            logs_of(os.path.join(base, disk))
        return
    look_primary(base, header, trail, before, after)
    for node in "bc"[: header["backups"]]:
        look_backup(base, node, header, trail, before, after)


class Case:
    """A row that is performed again and again by a program."""

    def __init__(self, program, library, name, work):
        with open(os.path.join(DATA, name + ".row"), encoding="ascii") as file:
            lines = lines_of(file.read())
        self.program, self.library, self.work = program, library, work
        self.plan = "".join(line.text + "\n" for line in lines).encode()
        self.lines = lines[HEADER:]
        words = [line.text.split(" ") for line in lines[:HEADER]]
        self.header = {word: [int(it) for it in rest] for word, *rest in words}
        for word in ("backups", "volumes"):
            self.header[word] = self.header[word][0]
        self.trail, self.stages = story_of(self.lines)

    def perform(self, over_folders, first, last):
        """Performs the plan with requests refused: how many were made, how many refused, and the status."""
        work = os.path.join(self.work, str(threading.get_ident()))
        shutil.rmtree(work, ignore_errors=True)
        os.makedirs(work)
        paths = {name: os.path.join(work, name) for name in ("made", "refused", "D")}
        settings = {"LD_PRELOAD": self.library, "REFUSE_FROM": str(first), "REFUSE_TO": str(last)}
        settings.update(REFUSE_COUNT=paths["made"], REFUSE_TOLD=paths["refused"])
        words = ["run", "--dir", paths["D"]] if over_folders else ["run"]
        said = {0: b"", 7: b"rdf: no memory\n"}
        ran = subprocess.run([self.program, *words], input=self.plan, capture_output=True, env=settings, timeout=60)
        count = answered(self.lines, ran.stdout)
        need(said.get(ran.returncode) == ran.stderr, f"{ran.returncode}: {ran.stderr}")
        need((ran.returncode == 0) == (count == len(self.lines)), f"{count} lines are answered")
        if over_folders:
            look(paths["D"], self.header, self.trail, self.stages, count)
        numbers = []
        for name in ("made", "refused"):
            with open(paths[name], encoding="ascii") as file:
                numbers.append(int(file.read()))
        need(ran.returncode == 0 or numbers[1] > 0, "the run ended early, and no request was refused")
        return numbers[0], numbers[1], ran.returncode


def judge(case, over_folders, is_one):
    """Refuses each request in turn, or all from each one on, until none is made that could be refused: the statuses."""

    def attempt(at):
        try:
            _, refused, status = case.perform(over_folders, at, at if is_one else ALL)
            need(is_one or at > 1 or status != 0, "the run went on without any memory")
        except ValueError as error:
            raise ValueError(f"where request {at} is refused: {error}") from error
        return refused > 0, status

    most = max(case.perform(over_folders, 0, 0)[0] for _ in range(3))
    statuses, begin = [], 1
    with ThreadPoolExecutor(WORKERS) as pool:
        while True:
            found = list(pool.map(attempt, range(begin, begin + STRIDE)))
            statuses += [status for is_refused, status in found if is_refused]
            begin += STRIDE
            if begin > most and not any(is_refused for is_refused, _ in found):
                return statuses


def main():
    program, names = os.path.abspath(sys.argv[1]), sys.argv[2:] or ROWS
    made = tempfile.mkdtemp()
    try:
        library = os.path.join(made, "refuse.so")
        subprocess.run(["cc", "-O1", "-shared", "-fPIC", "-o", library, os.path.join(HERE, "refuse.c")], check=True)
        for name in names:
            case = Case(program, library, name, os.path.join(made, "work"))
            for over_folders in (False, True):
                for is_one in (True, False):
                    began = time.time()
                    statuses = judge(case, over_folders, is_one)
                    where = "over folders" if over_folders else "in memory"
                    what = "one request refused" if is_one else "all requests from one on refused"
                    counts = ", ".join(f"{statuses.count(it)} with status {it}" for it in sorted(set(statuses)))
                    print(f"{name} {where}, {what}: {len(statuses)} runs, {counts}; {time.time() - began:.0f} s", flush=True)
    except ValueError as error:
        sys.exit(f"wrong: {error}")
    finally:
        shutil.rmtree(made, ignore_errors=True)


if __name__ == "__main__":
    main()
