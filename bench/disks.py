"""Reads the disks that `run --dir` leaves in folders, by docs/FORMATS.md alone. ValueError tells what is wrong."""
import os


def payloads(data):
    """The payloads of a log. A log is damaged where an open gate has no whole block and gate behind it."""
    found = []
    at = 0
    while len(data) > 1 and data[at] == 1:
        length = int.from_bytes(data[at + 1 : at + 5], "big")
        end = at + 5 + length
        if not 1 <= length <= 65536 or end >= len(data):
            raise ValueError(f"damaged at {at}")
        found.append(data[at + 5 : end])
        at = end
    return found


def logs_of(folder):
    """The payloads of each file of a disk, by the file's number. A disk without a folder has no files."""
    found = {}
    for name in os.listdir(folder) if os.path.isdir(folder) else []:
        with open(os.path.join(folder, name), "rb") as file:
            try:
                found[int(name)] = payloads(file.read())
            except ValueError as error:
                raise ValueError(f"{folder}/{name}: {error}") from error
    return found


class Fields:
    """The fields of a block, from left to right."""

    def __init__(self, block):
        self.block, self.at = block, 0

    def take(self, many):
        piece = self.block[self.at : self.at + many]
        if len(piece) != many:
            raise ValueError(f"a block of {len(self.block)} bytes is cut short")
        self.at += many
        return piece

    def number(self, size):
        return int.from_bytes(self.take(size), "big")

    def text(self):
        return self.take(self.number(1)).decode("ascii")

    def optional(self):
        return self.text() if self.number(1) else None

    def record(self):
        kind, txn = self.number(1), self.number(4)
        if kind == 1:
            vol = self.number(1)
            return ("image", txn, vol, (self.text(), self.text()), self.optional(), self.optional())
        return ({2: "commit", 3: "abort"}[kind], txn)

    def phase(self):
        kind = self.number(1)
        return ("taken", self.number(8)) if kind == 2 else (("running", "taking")[kind],)

    def end(self):
        if self.at != len(self.block):
            raise ValueError("bytes stand behind a block's last field")


def audit_trail(folder):
    """The records of the disk of an audit trail."""
    logs, records = logs_of(folder), []
    if list(logs) != [0]:
        raise ValueError(f"{folder} has the files {sorted(logs)}")
    for block in logs[0]:
        fields = Fields(block)
        records.append(fields.record())
        fields.end()
    return records


def volume(folder):
    """The rows of a volume's disk by file and key, and its restart point."""
    logs = logs_of(folder)
    numbers = sorted(logs)
    if not 1 <= len(numbers) <= 2 or numbers[-1] - numbers[0] != len(numbers) - 1:
        raise ValueError(f"{folder} has the files {numbers}")
    for number in reversed(numbers):
        if any(block[0] == 34 for block in logs[number]):
            return base_and_batches(logs[number])
    raise ValueError(f"{folder} has no whole base")


class Base:
    """A base, block by block: its rows, the entry that an index must have for each block of rows (where its gate stands in
    the file, and the file and key of its first row), and how many entries blocks of the index have listed."""

    def __init__(self):
        self.rows, self.last, self.found, self.listed = {}, None, [], 0

    def take_rows(self, at, fields):
        if self.listed:
            raise ValueError(f"the block at {at} has rows, and stands behind the index")
        for number in range(fields.number(2)):
            place = (fields.text(), fields.text())
            if self.last is not None and place <= self.last:
                raise ValueError(f"the block at {at} has the row {place} behind {self.last}")
            if number == 0:
                self.found.append((at, place))
            self.rows[place], self.last = fields.text(), place

    def take_entries(self, at, fields):
        entries = [(fields.number(8), (fields.text(), fields.text())) for _ in range(fields.number(2))]
        wanted = self.found[self.listed : self.listed + len(entries)]
        if not entries or entries != wanted:
            raise ValueError(f"the index at {at} has the entries {entries}, where {wanted} come next")
        self.listed += len(entries)

    def end(self, at, rows, blocks):
        counts = len(self.rows), len(self.found)
        if (rows, blocks) != counts:
            raise ValueError(f"a base has {counts[0]} rows in {counts[1]} blocks, and its end at {at} tells {rows} in {blocks}")
        if self.listed not in (0, blocks):
            raise ValueError(f"a base has {blocks} blocks of rows, and its index lists {self.listed}")


def base_and_batches(blocks):
    """What a base and the batches behind it make: the rows by file and key, and the restart point. A base of an older form
    has no index."""
    base, restart, is_whole, at = Base(), 0, False, 0
    for block in blocks:
        fields = Fields(block)
        kind = fields.number(1)
        if kind == 33 and not is_whole:
            base.take_rows(at, fields)
        elif kind == 36 and not is_whole:
            base.take_entries(at, fields)
        elif kind == 34 and not is_whole:
            restart = fields.number(8)
            base.end(at, fields.number(4), fields.number(4))
            is_whole = True
        elif kind == 35 and is_whole:
            restart = fields.number(8)
            for _ in range(fields.number(2)):
                change(base.rows, (fields.text(), fields.text()), fields.optional())
        else:
            raise ValueError(f"the block at {at} of kind {kind} is not in its place")
        fields.end()
        at += 5 + len(block)
    return base.rows, restart


def change(rows, place, value):
    """Sets a row, or removes it where there is no value."""
    if value is None:
        rows.pop(place, None)
    else:
        rows[place] = value


def image_trails(folder, trails):
    """What a disk of image trails stands for: the first position that is kept, the received position, the phase, and
    the records between, each with its position. `trails` are those that some volume is assigned to."""
    logs = logs_of(folder)
    standing = [number // 4 for number in sorted(logs) if number % 4 == 0 and logs[number] and logs[number][0][0] == 17]
    if not standing or standing != list(range(standing[0], standing[-1] + 1)):
        raise ValueError(f"{folder} has the generations {standing}")
    entries, received, kept, phase = {}, None, None, None
    for generation in standing:
        fields = Fields(logs[4 * generation][0][1:])
        start, phase = fields.number(8), fields.phase()
        if received is None:
            kept = received = start
        if start != received:
            raise ValueError(f"generation {generation} starts at {start}, and not at {received}")
        received, phase = shipments(logs[4 * generation][1:], 0, start, phase, entries)
        for trail in sorted(set(trails) - {0}):
            top, _ = shipments(logs[4 * generation + trail], trail, start, phase, entries)
            if top < received:
                raise ValueError(f"trail {trail} of generation {generation} ends at {top}, below its master")
    merged = {}
    for (position, _), record in sorted(entries.items(), reverse=True):
        if position < received:
            merged[position] = record
    return kept, received, phase, sorted(merged.items())


def shipments(blocks, trail, at, phase, entries):
    """Adds the records of a file's shipments, and tells where they end and the last phase."""
    for block in blocks:
        fields = Fields(block)
        kind = fields.number(1)
        if kind == 19 and trail == 0:
            phase = fields.phase()
        elif kind == 18:
            begin, end = fields.number(8), fields.number(8)
            if begin != at:
                raise ValueError(f"a shipment begins at {begin}, and not at {at}")
            for _ in range(fields.number(2)):
                position = fields.number(8)
                entries[position, trail] = fields.record()
            at = end
        else:
            raise ValueError(f"a block of kind {kind} is not in its place")
        fields.end()
    return at, phase
