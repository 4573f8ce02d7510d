#!/usr/bin/env python3
"""Prints the plan that `make SEED TXNS` performs, which no command prints.

bench/generated.py SEED TXNS
"""
import sys

state = 0


def draw(n):
    global state
    state = (1103515245 * state + 12345) % 2147483648
    return state // 65536 % n


def change(t):
    kind, vol, key, value = draw(4), draw(8), draw(100), draw(1000)
    if kind < 2:
        return f"insert {t} {vol} f k{key} {value}"
    if kind == 2:
        return f"update {t} {vol} f k{key} {value}"
    return f"delete {t} {vol} f k{key}"


def transaction(t):
    yield f"begin {t}"
    yield f"insert {t} {draw(8)} f n{t} {t}"
    for _ in range(draw(4)):
        yield change(t)
    yield f"abort {t}" if draw(8) == 0 else f"commit {t}"


def message(q):
    for node in "bc":
        yield from (f"ack {node}", f"rewind {node}", f"send {node} 64")
        chance = draw(4)
        yield from [f"deliver {node} {q}"] * (0 if chance == 0 else 2 if chance == 1 else 1)
    if q % 8 == 7:
        for node in "bc":
            yield from (f"session {node}", f"deliver {node} {q}", f"read {node} 0 f n1", "end", f"purge {node}")


def last_part(u, w):
    yield from (f"begin {u}", f"insert {u} 0 f n{u} {u}", "ack b", "rewind b", "send b 64", f"deliver b {w}", "lose")
    yield from ("takeover b", "takeover c", "copyaudit c b", "copyaudit b c", "takeover c", "takeover b")
    yield from (f"list {node} {vol}" for node in "bc" for vol in range(8))


def plan(seed, count):
    global state
    state = seed
    lines = ["rdfplan 1", "backups 2", "volumes 8", "trail 0 1 2 3 0 1 2 3", "protect 1 1 1 1 1 1 1 1", "extent 64", "retain 4", "go"]
    for t in range(1, count + 1):
        lines += transaction(t)
        if t % 4 == 0:
            lines += message(t // 4 - 1)
    lines += last_part(count + 1, count // 4)
    return lines


if __name__ == "__main__":
    print("\n".join(plan(int(sys.argv[1]), int(sys.argv[2]))))
