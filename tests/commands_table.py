#!/usr/bin/env python3
"""The table of whole and damaged lines for crates/commands_table, with what each must say.

Every expected answer is written down by hand from the rules of docs/PROTOCOL.md. A second reader, here in Python with
regular expressions, works each out again from the line; where the two differ the script stops. So no expected line
comes from the program itself.

    python3 tests/commands_table.py            compares the two readers and the files of crates/commands_table
    python3 tests/commands_table.py --write    writes crates/commands_table/stdin and stdout
"""
import pathlib
import re
import sys

HERE = pathlib.Path(__file__).resolve().parent.parent / "crates" / "commands_table"
ROWS = []
NO = "13"
MOST = 2**64 - 1
KEY = "00112233445566778899aabbccddeeff102132435465768798a9bacbdcedfe0f"


def row(line, expected):
    """One line of the table, and what it says by the rules."""
    ROWS.append((line, expected))


# --- the second reader -------------------------------------------------------------------------------------------

NUMBER = r"(0|[1-9][0-9]*)"
HEX = r"(-|(?:[0-9a-f]{2})+)"
KEYS = r"([0-9a-f]{64})"
SIDE = r"(house|[sr][1-9][0-9]*)"
PIECE = r"((?:0|[1-9][0-9]*)\.[12])"
FORMS = {
    "town": [NUMBER, NUMBER, NUMBER, KEYS],
    "reader": [NUMBER, KEYS],
    "service": [NUMBER, KEYS],
    "tick": [NUMBER],
    "want": [NUMBER, NUMBER, r"(none|0|[1-9][0-9]*)", HEX],
    "close": [NUMBER],
    "hold": [NUMBER],
    "repeat": [NUMBER, SIDE],
    "steal": [NUMBER],
    "lock": ["([1-5])", KEYS, HEX],
    "unlock": [PIECE, "([1-5])", KEYS],
    "bytes": [HEX],
    "fall": [SIDE],
    "cut": [SIDE, "(old|new|junk)"],
    "device": [SIDE, "(ok|fail)"],
}


class Unread(Exception):
    pass


def number(text, most=None):
    n = int(text)
    if most is not None and n > most:
        raise Unread
    return str(min(n, MOST))


def principal(text):
    if not 1 <= int(text) <= 1023:
        raise Unread
    return text


def counted(text):
    digits = "" if text == "-" else text
    return f"{len(digits) // 2}:{digits}"


def side(text):
    if text == "house":
        return "the-house"
    return {"s": "service-", "r": "box-"}[text[0]] + principal(text[1:])


def piece(text):
    word, place = text.split(".")
    return {"1": "first", "2": "second"}[place] + "-of-" + number(word)


def joined(rest):
    """After `join`: a login from one lock, a letter or an asking from two."""
    login = re.fullmatch(f"1 {NUMBER} {PIECE}", rest, re.ASCII)
    if login:
        return f"join login {number(login[1], 65535)} {piece(login[2])}"
    two = re.fullmatch(f"([23]) {PIECE} {PIECE}", rest, re.ASCII)
    if not two:
        raise Unread
    return f"join {'letter' if two[1] == '2' else 'asking'} {piece(two[2])} {piece(two[3])}"


def said(line):
    if len(line) > 1_048_576:
        raise Unread
    if line == "" or line[0] == "#":
        return "blank"
    verb, space, rest = line.partition(" ")
    if verb == "join" and space:
        return joined(rest)
    if verb not in FORMS:
        raise Unread
    found = re.fullmatch(" ".join(FORMS[verb]), rest, re.ASCII | re.DOTALL)
    if not space or not found:
        raise Unread
    a = found.groups()
    if verb == "town":
        return f"town {number(a[0])} {number(a[1])} {number(a[2])} {counted(a[3])}"
    if verb in ("reader", "service"):
        return f"{verb} {principal(a[0])} {counted(a[1])}"
    if verb in ("tick", "close", "hold", "steal"):
        return f"{verb} {number(a[0])}"
    if verb == "want":
        ticket = "no-ticket" if a[2] == "none" else "ticket-" + number(a[2])
        return f"want {number(a[0])} {number(a[1])} {ticket} {counted(a[3])}"
    if verb == "repeat":
        return f"repeat {number(a[0])} {side(a[1])}"
    if verb == "lock":
        return f"lock kind-{a[0]} {counted(a[1])} {counted(a[2])}"
    if verb == "unlock":
        return f"unlock {piece(a[0])} kind-{a[1]} {counted(a[2])}"
    if verb == "bytes":
        return f"bytes {counted(a[0])}"
    if verb == "fall":
        return f"fall {side(a[0])}"
    if verb == "cut":
        return f"cut {side(a[0])} leaves-{a[1]}"
    return f"device-{'writes' if a[1] == 'ok' else 'fails'} {side(a[0])}"


def second(line):
    try:
        return said(line)
    except Unread:
        return NO


# --- the table ---------------------------------------------------------------------------------------------------

ANY = "32:" + KEY

# passed over
row("", "blank")
row("#", "blank")
row("# a comment", "blank")
row("#town 1 1 1", "blank")
row(" ", NO)
row(" # no comment", NO)
row("\r", NO)

# no verb, or another
row("towns 1 2 3 " + KEY, NO)
row("Town 1 2 3 " + KEY, NO)
row("TICK 1", NO)
row("tic 1", NO)
row("house 100 1000 5 " + KEY, NO)
row("word a 0502", NO)
row("drawn 00", NO)
row("total", NO)
row("none", NO)

# town TICK LIFE LAG SEED: ranges are the town's to look at
row("town 100 1000 5 " + KEY, "town 100 1000 5 " + ANY)
row("town 0 0 0 " + KEY, "town 0 0 0 " + ANY)
row("town 18446744073709551614 18446744073709551615 18446744073709551616 " + KEY,
    "town 18446744073709551614 18446744073709551615 18446744073709551615 " + ANY)
row("town", NO)
row("town ", NO)
row("town 100", NO)
row("town 100 1000 5", NO)
row("town 100 1000 5 ", NO)
row("town 100 1000 " + KEY, NO)
row("town 100 1000 5 5 " + KEY, NO)
row("town 100 1000 5 " + KEY + " ", NO)
row("town 100 1000 5 " + KEY + " 1", NO)
row("town  100 1000 5 " + KEY, NO)
row("town 100  1000 5 " + KEY, NO)
row(" town 100 1000 5 " + KEY, NO)
row("town 0100 1000 5 " + KEY, NO)
row("town +100 1000 5 " + KEY, NO)
row("town -100 1000 5 " + KEY, NO)
row("town 1e2 1000 5 " + KEY, NO)
row("town 100 1000 5 " + KEY + "\r", NO)
row("town 100 1000 5 " + KEY.upper(), NO)
row("town 100 1000 5 " + KEY[:62], NO)
row("town 100 1000 5 " + KEY[:63], NO)
row("town 100 1000 5 " + KEY + "00", NO)
row("town 100 1000 5 -", NO)
row("town\t100 1000 5 " + KEY, NO)

# reader N KEY, service N KEY
for verb in ("reader", "service"):
    row(f"{verb} 1 {KEY}", f"{verb} 1 {ANY}")
    row(f"{verb} 1023 {KEY}", f"{verb} 1023 {ANY}")
    row(f"{verb} 0 {KEY}", NO)
    row(f"{verb} 1024 {KEY}", NO)
    row(f"{verb} 65537 {KEY}", NO)
    row(f"{verb} 18446744073709551617 {KEY}", NO)
    row(f"{verb} 05 {KEY}", NO)
    row(f"{verb} 5", NO)
    row(f"{verb} {KEY}", NO)
    row(f"{verb} 5 -", NO)
    row(f"{verb} 5 {KEY[:63]}g", NO)
    row(f"{verb} 5 {KEY} 5", NO)
    row(f"{verb} 5  {KEY}", NO)
    row(f"{verb}", NO)

# tick N, close N, hold K, steal N: any decimal
for verb in ("tick", "close", "hold", "steal"):
    row(f"{verb} 0", f"{verb} 0")
    row(f"{verb} 2000", f"{verb} 2000")
    row(f"{verb} 18446744073709551615", f"{verb} 18446744073709551615")
    row(f"{verb} 99999999999999999999999999", f"{verb} 18446744073709551615")
    row(f"{verb}", NO)
    row(f"{verb} ", NO)
    row(f"{verb} 00", NO)
    row(f"{verb} 07", NO)
    row(f"{verb} +7", NO)
    row(f"{verb} -7", NO)
    row(f"{verb} 7 ", NO)
    row(f"{verb} 7 7", NO)
    row(f"{verb}  7", NO)
    row(f"{verb} 7\r", NO)
    row(f"{verb} 7a", NO)
    row(f"{verb} s7", NO)

# want READER SERVICE TICKET WHAT
row("want 5 7 none 7363616e", "want 5 7 no-ticket 4:7363616e")
row("want 5 7 1 7363616e", "want 5 7 ticket-1 4:7363616e")
row("want 5 7 0 -", "want 5 7 ticket-0 0:")
row("want 0 0 none -", "want 0 0 no-ticket 0:")
row("want 2000 18446744073709551616 18446744073709551616 00",
    "want 2000 18446744073709551615 ticket-18446744073709551615 1:00")
row("want 5 7 none " + "ab" * 1024, "want 5 7 no-ticket 1024:" + "ab" * 1024)
row("want 5 7 none " + "ab" * 1025, "want 5 7 no-ticket 1025:" + "ab" * 1025)
row("want", NO)
row("want 5", NO)
row("want 5 7", NO)
row("want 5 7 none", NO)
row("want 5 7 none ", NO)
row("want 5 7 7363616e", NO)
row("want 5 7 none 7363616e 0", NO)
row("want 5 7 None 7363616e", NO)
row("want 5 7 no 7363616e", NO)
row("want 5 7 - 7363616e", NO)
row("want 5 7 01 7363616e", NO)
row("want none 7 none 7363616e", NO)
row("want r5 s7 none 7363616e", NO)
row("want 05 7 none 7363616e", NO)
row("want 5 07 none 7363616e", NO)
row("want 5 7 none 7363616", NO)
row("want 5 7 none 7363616E", NO)
row("want 5 7 none 7363616g", NO)
row("want 5 7 none --", NO)
row("want 5 7 none scan", NO)
row("want 5 7  none 7363616e", NO)
row("want 5 7 none  7363616e", NO)
row("want 5 7 none 7363616e\r", NO)

# repeat W SIDE
row("repeat 3 house", "repeat 3 the-house")
row("repeat 3 s7", "repeat 3 service-7")
row("repeat 3 r5", "repeat 3 box-5")
row("repeat 0 s1", "repeat 0 service-1")
row("repeat 18446744073709551616 r1023", "repeat 18446744073709551615 box-1023")
row("repeat 3", NO)
row("repeat house", NO)
row("repeat 3 ", NO)
row("repeat 3 7", NO)
row("repeat 3 s", NO)
row("repeat 3 s0", NO)
row("repeat 3 s1024", NO)
row("repeat 3 r01", NO)
row("repeat 3 S7", NO)
row("repeat 3 x7", NO)
row("repeat 3 s-7", NO)
row("repeat 3 s 7", NO)
row("repeat 3 houses", NO)
row("repeat 3 House", NO)
row("repeat 3 house house", NO)
row("repeat 03 house", NO)
row("repeat 3.1 house", NO)
row("repeat 3  house", NO)

# join KIND ..: a login from a reader's number and a lock, a letter and an asking from two locks
row("join 1 5 3.1", "join login 5 first-of-3")
row("join 1 0 3.2", "join login 0 second-of-3")
row("join 1 65535 0.1", "join login 65535 first-of-0")
row("join 1 65536 3.1", NO)
row("join 1 18446744073709551617 3.1", NO)
row("join 2 2.1 4.2", "join letter first-of-2 second-of-4")
row("join 3 4.1 3.2", "join asking first-of-4 second-of-3")
row("join 3 18446744073709551616.1 3.2", "join asking first-of-18446744073709551615 second-of-3")
row("join 0 2.1 4.2", NO)
row("join 4 2.1 4.2", NO)
row("join 4 2.1", NO)
row("join 5 2.1 4.2", NO)
row("join 03 2.1 4.2", NO)
row("join 1 3.1", NO)
row("join 1 3.1 5", NO)
row("join 1 2.1 4.2", NO)
row("join 1 r5 3.1", NO)
row("join 1 5 3.1 3.2", NO)
row("join 3 5 3.1", NO)
row("join 3 4.1", NO)
row("join 3 4.1 3.2 1.1", NO)
row("join 3 4.0 3.2", NO)
row("join 3 4.3 3.2", NO)
row("join 3 4.1 3.3", NO)
row("join 3 4.01 3.2", NO)
row("join 3 04.1 3.2", NO)
row("join 3 4. 3.2", NO)
row("join 3 .1 3.2", NO)
row("join 3 4 3.2", NO)
row("join 3 4.1.1 3.2", NO)
row("join 3 4..1 3.2", NO)
row("join 3 4,1 3.2", NO)
row("join 3 4.1  3.2", NO)
row("join", NO)
row("join ", NO)
row("join 3", NO)

# lock KIND KEY INSIDE
for kind in "12345":
    row(f"lock {kind} {KEY} 01ff", f"lock kind-{kind} {ANY} 2:01ff")
row(f"lock 3 {KEY} -", f"lock kind-3 {ANY} 0:")
row(f"lock 3 {KEY} " + "0f" * 2000, f"lock kind-3 {ANY} 2000:" + "0f" * 2000)
row(f"lock 0 {KEY} 01ff", NO)
row(f"lock 6 {KEY} 01ff", NO)
row(f"lock 18446744073709551617 {KEY} 01ff", NO)
row(f"lock 01 {KEY} 01ff", NO)
row(f"lock ticket {KEY} 01ff", NO)
row(f"lock 3 {KEY}", NO)
row(f"lock 3 {KEY} ", NO)
row(f"lock {KEY} 01ff", NO)
row(f"lock 3 {KEY[2:]} 01ff", NO)
row(f"lock 3 {KEY.upper()} 01ff", NO)
row(f"lock 3 - 01ff", NO)
row(f"lock 3 {KEY} 01f", NO)
row(f"lock 3 {KEY} 01FF", NO)
row(f"lock 3 {KEY} 01ff 00", NO)
row(f"lock 3  {KEY} 01ff", NO)
row(f"lock 3 {KEY}  01ff", NO)
row(f"lock 3 {KEY} 01ff\r", NO)

# unlock W.I KIND KEY
row(f"unlock 3.1 1 {KEY}", f"unlock first-of-3 kind-1 {ANY}")
row(f"unlock 12.2 5 {KEY}", f"unlock second-of-12 kind-5 {ANY}")
row(f"unlock 3 1 {KEY}", NO)
row(f"unlock 3.0 1 {KEY}", NO)
row(f"unlock 3.3 1 {KEY}", NO)
row(f"unlock 3.12 1 {KEY}", NO)
row(f"unlock 3.1 0 {KEY}", NO)
row(f"unlock 3.1 6 {KEY}", NO)
row(f"unlock 3.1 1 {KEY[:62]}", NO)
row(f"unlock 3.1 1 {KEY} -", NO)
row(f"unlock 3.1 {KEY}", NO)
row(f"unlock 1 3.1 {KEY}", NO)
row(f"unlock 3.1  1 {KEY}", NO)
row(f"unlock 3.1 1", NO)
row(f"unlock", NO)

# bytes HEX
row("bytes -", "bytes 0:")
row("bytes 0502", "bytes 2:0502")
row("bytes " + KEY * 2, "bytes 64:" + KEY * 2)
row("bytes 00ff10a9", "bytes 4:00ff10a9")
row("bytes", NO)
row("bytes ", NO)
row("bytes 0", NO)
row("bytes 050", NO)
row("bytes 0G", NO)
row("bytes 05 02", NO)
row("bytes 0502 ", NO)
row("bytes  0502", NO)
row("bytes 05FF", NO)
row("bytes 0x05", NO)
row("bytes 0502-", NO)
row("bytes --", NO)
row("bytes /:", NO)
row("bytes `g", NO)
row("bytes 0502\r", NO)

# fall SIDE
row("fall house", "fall the-house")
row("fall s7", "fall service-7")
row("fall r1023", "fall box-1023")
row("fall", NO)
row("fall ", NO)
row("fall 7", NO)
row("fall r0", NO)
row("fall r1024", NO)
row("fall s7 r5", NO)
row("fall  s7", NO)
row("fall s7 ", NO)
row("fall s7\r", NO)
row("fall sr7", NO)

# cut SIDE old, new or junk
for left in ("old", "new", "junk"):
    row(f"cut house {left}", f"cut the-house leaves-{left}")
    row(f"cut s7 {left}", f"cut service-7 leaves-{left}")
    row(f"cut {left}", NO)
    row(f"cut s7 {left} ", NO)
    row(f"cut s7 {left} {left}", NO)
    row(f"cut s7 {left}\r", NO)
row("cut r5 old", "cut box-5 leaves-old")
row("cut s7", NO)
row("cut s7 ", NO)
row("cut s7 Old", NO)
row("cut s7 half", NO)
row("cut s7  old", NO)
row("cut 7 old", NO)

# device SIDE ok or fail
row("device house ok", "device-writes the-house")
row("device house fail", "device-fails the-house")
row("device s7 ok", "device-writes service-7")
row("device r5 fail", "device-fails box-5")
row("device s7", NO)
row("device ok", NO)
row("device s7 ", NO)
row("device s7 OK", NO)
row("device s7 fails", NO)
row("device s7 ok fail", NO)
row("device s7  ok", NO)
row("device 7 ok", NO)

# the last line has no end
row("tick 12", "tick 12")

# What the program makes itself, after its input: a comment of 1,048,576 bytes is read, and one of a byte more is not.
MADE = [("#" * 1_048_576, "blank"), ("#" * 1_048_577, NO)]


def main():
    for line, expected in ROWS + MADE:
        if second(line) != expected:
            sys.exit(f"{line[:80]!r}: by the rules {expected[:80]}, by the second reader {second(line)[:80]}")
    text = {
        "stdin": "\n".join(line for line, _ in ROWS),
        "stdout": "".join(expected + "\n" for _, expected in ROWS + MADE),
    }
    for name, data in text.items():
        path = HERE / name
        if "--write" in sys.argv[1:]:
            path.write_bytes(data.encode("ascii"))
        elif path.read_bytes() != data.encode("ascii"):
            sys.exit(f"{path} differs from the table: run with --write")
    print(f"{len(ROWS)} lines, the two readers agree")


if __name__ == "__main__":
    main()
