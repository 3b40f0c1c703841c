#!/usr/bin/env python3
"""What crates/account_tests has to print, worked out from docs/PROTOCOL.md, 'Accounts file', alone."""
import hashlib

ENTRIES, ENTRY = 1024, 33
HALF = 8 + ENTRIES * ENTRY + 16
ABSENT, OPEN, CLOSED = 0, 1, 2
NAMES = ["absent", "open", "closed"]


def half(turn, accounts):
    body = turn.to_bytes(8, "big")
    for n in range(ENTRIES):
        state, key = accounts.get(n, (ABSENT, bytes(32)))
        body += bytes([state]) + key
    return body + hashlib.sha256(body).digest()[:16]


def read(block):
    """turn and accounts of a good half, None of a junk one"""
    if len(block) != HALF or not any(block):
        return None
    body, total = block[:-16], block[-16:]
    if hashlib.sha256(body).digest()[:16] != total:
        return None
    accounts = {}
    for n in range(1, ENTRIES):
        state = body[8 + ENTRY * n]
        if state > CLOSED:
            return None
        if state:
            accounts[n] = (state, body[9 + ENTRY * n : 41 + ENTRY * n])
    return int.from_bytes(body[:8], "big"), accounts


def start(data):
    """the accounts that a start holds, None for fault 13"""
    if len(data) != 2 * HALF:
        return None
    if not any(data):
        return {}
    one, two = read(data[:HALF]), read(data[HALF:])
    if one and two:
        return (two if two[0] > one[0] else one)[1]
    good = one or two
    return good[1] if good else None


def told(accounts):
    if accounts is None:
        return "fault 13"
    return ", ".join(f"{n} {NAMES[accounts.get(n, (ABSENT, b''))[0]]}" for n in (5, 7))


def show(name, block):
    print(name, block[:8].hex(), block[-16:].hex())


FIVE, SEVEN = bytes([5] * 32), bytes([7] * 32)
NOBODY = {}
ONE = {5: (OPEN, FIVE)}
BOTH = {5: (OPEN, FIVE), 7: (OPEN, SEVEN)}
ONE_CLOSED = {5: (CLOSED, FIVE), 7: (OPEN, SEVEN)}
BOTH_CLOSED = {5: (CLOSED, FIVE), 7: (CLOSED, SEVEN)}

show("new, first half", half(1, NOBODY))
show("new, second half", half(2, NOBODY))
show("5 and 7 opened, first half", half(3, ONE))
show("5 and 7 opened, second half", half(4, BOTH))

before = half(3, ONE) + half(4, BOTH)
after = half(5, ONE_CLOSED) + half(6, BOTH_CLOSED)
junk = b"\xff" * 26 + before[26:]

print("written: done, 5 closed")
print("then:", told(start(half(5, ONE_CLOSED) + before[HALF:])))
print("not written, the old left: refused, 5 open")
print("then:", told(start(before)))
print("not written, the new left: refused, 5 open")
print("then:", told(start(half(5, ONE_CLOSED) + before[HALF:])))
print("not written, junk left: refused, 5 open")
print("then:", told(start(junk)))
print("new, nothing written: fault 13")
print("new, junk written: fault 13")


def row(name, data):
    print(f"{name}: {told(start(data))}")


def flipped(*places):
    data = bytearray(after)
    for at in places:
        data[at] ^= 1
    return bytes(data)


def noise(count):
    seed, data = 12345, bytearray()
    for _ in range(count):
        seed = (seed * 1664525 + 1013904223) % 2**32
        data.append(seed >> 24)
    return bytes(data)


def summed(at, byte):
    body = bytearray(after[HALF:-16])
    body[at] = byte
    return after[:HALF] + bytes(body) + hashlib.sha256(body).digest()[:16]


row("none", after)
row("truncated to 0 bytes", after[:0])
row("truncated to 7 bytes", after[:7])
row("truncated to 16 bytes", after[:16])
row("truncated to a half", after[:HALF])
row("last 5 bytes cut", after[:-5])
row("a byte more", after + b"\0")
row("the file gone", b"")
row("noise", noise(2 * HALF))
row("zeros in the newer half", after[:HALF] + bytes(HALF))
row("zeros in the older half", bytes(HALF) + after[HALF:])
row("zeros in both halves, which is a new file", bytes(2 * HALF))
row("an older copy of the older half", before[:HALF] + after[HALF:])
row("an older copy of the newer half", after[:HALF] + before[HALF:])
row("a bit in the newer turn", flipped(HALF + 7))
row("a bit in a newer state", flipped(HALF + 8 + ENTRY * 7))
row("a bit in a newer key", flipped(HALF + 9 + ENTRY * 7))
row("a bit in the newer sum", flipped(2 * HALF - 1))
row("a bit in the older turn", flipped(7))
row("a bit in an older state", flipped(8 + ENTRY * 7))
row("a bit in an older key", flipped(9 + ENTRY * 7))
row("a bit in the older sum", flipped(HALF - 1))
row("a bit in both", flipped(100, HALF + 100))
row("a newer state of 3, with its sum", summed(8 + ENTRY * 7, 3))
row("a newer state of 3 of nobody, with its sum", summed(8, 3))
row("a key of an absent one, with its sum", summed(9 + ENTRY * 9, 3))
