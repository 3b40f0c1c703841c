#!/usr/bin/env python3
"""The table of whole and damaged words for crates/words_table, with what each must be read as.

Every expected line is written down by hand from the rules of docs/PROTOCOL.md. A second reader, here in Python, works
each out again from the bytes; where the two differ the script stops. So no expected line comes from the program itself.

    python3 tests/words_table.py            compares the two readers and the files of crates/words_table
    python3 tests/words_table.py --write    writes crates/words_table/stdin and stdout
"""
import pathlib
import sys

HERE = pathlib.Path(__file__).resolve().parent.parent / "crates" / "words_table"
ROWS = []


def row(verb, groups, expected):
    """One line of the table: a verb, its bytes, and the answer by the rules."""
    ROWS.append((verb, groups, expected))


def note(text):
    ROWS.append(("#", text, None))


# --- the second reader -------------------------------------------------------------------------------------------


def expand(groups):
    out = bytearray()
    for group in groups.split():
        digits, _, times = group.partition("*")
        out += bytes.fromhex(digits) * int(times or 1)
    return bytes(out)


class Refused(Exception):
    pass


class Cursor:
    """Takes fields off the front; running dry is a fault."""

    def __init__(self, data):
        self.data = data

    def take(self, n):
        if len(self.data) < n:
            raise Refused
        front, self.data = self.data[:n], self.data[n:]
        return front

    def number(self, n):
        return int.from_bytes(self.take(n), "big")

    def lock(self):
        n = self.number(2)
        if n < 32:
            raise Refused
        return self.take(n)

    def end(self):
        if self.data:
            raise Refused


def read_word(c):
    kind = c.number(1)
    if kind == 1:
        reader = c.number(2)
        said = f"login {reader} {len(c.lock())}"
    elif kind in (2, 3):
        name = "ticket-and-letter" if kind == 2 else "asking"
        said = f"{name} {len(c.lock())} {len(c.lock())}"
    elif kind == 4:
        said = f"receipt {len(c.lock())}"
    elif kind == 5:
        said = f"refusal {c.number(1)}"
        if said[-1] not in "123" or len(said) != len("refusal 1"):
            raise Refused
    else:
        raise Refused
    c.end()
    return said


def read_inside(verb, c):
    kinds = {"ticket": 1, "letter": 2, "asking": 3, "login": 4, "receipt": 5}
    if c.number(1) != kinds[verb]:
        raise Refused
    if verb == "ticket":
        service, reader = c.number(2), c.number(2)
        c.take(32)
        said = f"ticket {service} {reader} {c.number(8)}"
    elif verb == "letter":
        c.take(16)
        service = c.number(2)
        c.take(32)
        said = f"letter {service} {c.number(8)}"
    elif verb == "asking":
        service = c.number(2)
        c.take(16)
        n = c.number(2)
        if n > 1024:
            raise Refused
        c.take(n)
        said = f"asking {service} {n} {c.number(8)}"
    elif verb == "login":
        c.take(16)
        said = f"login {c.number(8)}"
    else:
        c.take(16)
        said = "receipt"
    c.end()
    return said


def second(verb, groups):
    data = expand(groups)
    if verb == "pack":
        return f"written {3 + len(data)}" if 32 <= len(data) <= 65535 else "lock length"
    if verb == "fill":
        n = 29 + len(data)
        return f"written {n if len(data) <= 1024 else 0} {n if n <= 59 else 0}"
    try:
        said = read_word(Cursor(data)) if verb == "word" else read_inside(verb, Cursor(data))
        return said + " same"
    except Refused:
        return "fault 1" if verb == "word" else "fault 4"


# --- the table ---------------------------------------------------------------------------------------------------

LOCK = "0020 aa*32"
ONE = "0021 bb*33"

note("no byte at all, and kinds that are not there")
row("word", "", "fault 1")
for kind in ("00", "06", "07", "7f", "80", "ff"):
    row("word", kind, "fault 1")
    row("word", f"{kind} 0005 {LOCK}", "fault 1")
    row("word", f"{kind} {LOCK} {ONE}", "fault 1")

note("logins: whole; cut in each field; longer")
row("word", f"01 0005 {LOCK}", "login 5 32 same")
row("word", f"01 0000 {ONE}", "login 0 33 same")
row("word", f"01 ffff {LOCK}", "login 65535 32 same")
row("word", f"01 0102 {LOCK}", "login 258 32 same")
for cut in ("01", "01 00", "01 0005", "01 0005 00", "01 0005 0020", "01 0005 0020 aa", "01 0005 0020 aa*31"):
    row("word", cut, "fault 1")
row("word", f"01 0005 {LOCK} 00", "fault 1")
row("word", f"01 0005 {LOCK} {LOCK}", "fault 1")
row("word", f"01 {LOCK}", "fault 1")

note("lengths of locks: 0, 31, 32, 33, 65,535, and a length that says more or less than is there")
row("word", "01 0005 0000", "fault 1")
row("word", "01 0005 001f aa*31", "fault 1")
row("word", "01 0005 0021 aa*32", "fault 1")
row("word", "01 0005 001f aa*32", "fault 1")
row("word", "01 0005 2000 aa*32", "fault 1")
row("word", "01 0005 0120 aa*32", "fault 1")
row("word", "01 0005 ffff aa*65535", "login 5 65535 same")
row("word", "01 0005 ffff aa*65534", "fault 1")
row("word", "01 0005 ffff aa*65536", "fault 1")
row("word", "01 0005 ffff aa*32", "fault 1")
row("word", "01 0005 0100 aa*256", "login 5 256 same")

note("a ticket and a letter, and a ticket and an asking")
for kind, name in (("02", "ticket-and-letter"), ("03", "asking")):
    row("word", f"{kind} {LOCK} {ONE}", f"{name} 32 33 same")
    row("word", f"{kind} {ONE} {LOCK}", f"{name} 33 32 same")
    row("word", f"{kind} ffff 11*65535 ffff 22*65535", f"{name} 65535 65535 same")
    for cut in ("", "00", "0020", "0020 aa", "0020 aa*31", LOCK, f"{LOCK} 00", f"{LOCK} 0021", f"{LOCK} 0021 bb*32"):
        row("word", f"{kind} {cut}", "fault 1")
    row("word", f"{kind} {LOCK} {ONE} 00", "fault 1")
    row("word", f"{kind} {LOCK} {ONE} {LOCK}", "fault 1")
    row("word", f"{kind} 0000 {LOCK}", "fault 1")
    row("word", f"{kind} 001f aa*31 {ONE}", "fault 1")
    row("word", f"{kind} {LOCK} 0000", "fault 1")
    row("word", f"{kind} {LOCK} 001f bb*31", "fault 1")
    row("word", f"{kind} ffff aa*32 {ONE}", "fault 1")
    row("word", f"{kind} {LOCK} ffff bb*33", "fault 1")
    row("word", f"{kind} 0005 {LOCK}", "fault 1")

note("a first lock whose length takes in the second")
row("word", f"02 0043 aa*32 {ONE}", "fault 1")
row("word", f"02 0043 aa*32 {ONE} {LOCK}", "ticket-and-letter 67 32 same")

note("receipts")
row("word", f"04 {LOCK}", "receipt 32 same")
row("word", "04 ffff cc*65535", "receipt 65535 same")
for cut in ("", "00", "0020", "0020 aa*31", "001f aa*31", "0000", "ffff", "ffff aa*32"):
    row("word", f"04 {cut}", "fault 1")
row("word", f"04 {LOCK} 00", "fault 1")
row("word", f"04 {LOCK} {LOCK}", "fault 1")

note("refusals: two bytes, classes 1 to 3")
for n in (1, 2, 3):
    row("word", f"05 0{n}", f"refusal {n} same")
    row("word", f"05 0{n} 00", "fault 1")
for n in ("00", "04", "05", "20", "80", "ff"):
    row("word", f"05 {n}", "fault 1")
row("word", "05", "fault 1")
row("word", "05 01 01", "fault 1")
row("word", f"05 {LOCK}", "fault 1")

KEY = "4b*32"
NONCE = "0e*16"
TICK = "00*6 04b0"
MOST = "ff*8"

note("tickets: 45 bytes, kind 1")
row("ticket", f"01 0007 0005 {KEY} {TICK}", "ticket 7 5 1200 same")
row("ticket", f"01 0000 0000 {KEY} 00*8", "ticket 0 0 0 same")
row("ticket", f"01 ffff fffe {KEY} {MOST}", "ticket 65535 65534 18446744073709551615 same")
row("ticket", f"01 0100 0001 {KEY} 01 00*7", "ticket 256 1 72057594037927936 same")
for kind in ("00", "02", "03", "04", "05", "06", "ff"):
    row("ticket", f"{kind} 0007 0005 {KEY} {TICK}", "fault 4")
for cut in ("", "01", "01 00", "01 0007", "01 0007 0005", f"01 0007 0005 {KEY}", f"01 0007 0005 {KEY} 00*7", "01*44"):
    row("ticket", cut, "fault 4")
row("ticket", "01*45", "ticket 257 257 72340172838076673 same")
row("ticket", f"01 0007 0005 {KEY} {TICK} 00", "fault 4")
row("ticket", "01*59", "fault 4")

note("letters: 59 bytes, kind 2")
row("letter", f"02 {NONCE} 0007 {KEY} {TICK}", "letter 7 1200 same")
row("letter", f"02 {NONCE} 0000 {KEY} {TICK}", "letter 0 1200 same")
row("letter", f"02 00*16 ffff ff*32 {MOST}", "letter 65535 18446744073709551615 same")
for kind in ("00", "01", "03", "04", "05", "06", "ff"):
    row("letter", f"{kind} {NONCE} 0007 {KEY} {TICK}", "fault 4")
for cut in ("", "02", f"02 {NONCE}", f"02 {NONCE} 0007", f"02 {NONCE} 0007 {KEY}", "02*45", "02*58", "02*60"):
    row("letter", cut, "fault 4")
row("letter", "02*59", "letter 514 144680345676153346 same")

note("askings: 29 bytes and what is asked, 0 to 1,024 bytes, kind 3")
row("asking", f"03 0007 {NONCE} 0000 {TICK}", "asking 7 0 1200 same")
row("asking", f"03 0000 {NONCE} 0002 0007 {TICK}", "asking 0 2 1200 same")
row("asking", f"03 0007 {NONCE} 0001 77 {TICK}", "asking 7 1 1200 same")
row("asking", f"03 0007 {NONCE} 03ff 77*1023 {TICK}", "asking 7 1023 1200 same")
row("asking", f"03 ffff {NONCE} 0400 77*1024 {MOST}", "asking 65535 1024 18446744073709551615 same")
row("asking", f"03 0007 {NONCE} 0401 77*1025 {TICK}", "fault 4")
row("asking", f"03 0007 {NONCE} ffff 77*65535 {TICK}", "fault 4")
row("asking", f"03 0007 {NONCE} 0401 77*1024 {TICK}", "fault 4")
row("asking", f"03 0007 {NONCE} 0400 77*1025 {TICK}", "fault 4")
row("asking", f"03 0007 {NONCE} 0001 {TICK}", "fault 4")
row("asking", f"03 0007 {NONCE} 0000 77 {TICK}", "fault 4")
row("asking", f"03 0007 {NONCE} 0200 77*2 {TICK}", "fault 4")
for kind in ("00", "01", "02", "04", "05", "06", "ff"):
    row("asking", f"{kind} 0007 {NONCE} 0001 77 {TICK}", "fault 4")
for cut in ("", "03", "03 0007", f"03 0007 {NONCE}", f"03 0007 {NONCE} 00", f"03 0007 {NONCE} 0000", f"03 0007 {NONCE} 0000 00*7", f"03 0007 {NONCE} 0001 77", f"03 0007 {NONCE} 0001 77 00*7", f"03 0007 {NONCE} 0001 77 {TICK} 00", "03*28"):
    row("asking", cut, "fault 4")

note("logins: 25 bytes, kind 4")
row("login", f"04 {NONCE} {TICK}", "login 1200 same")
row("login", f"04 {NONCE} {MOST}", "login 18446744073709551615 same")
for kind in ("00", "01", "02", "03", "05", "06", "ff"):
    row("login", f"{kind} {NONCE} {TICK}", "fault 4")
for cut in ("", "04", f"04 {NONCE}", f"04 {NONCE} 00*7", f"04 {NONCE} {TICK} 00", "04*17", "04*24", "04*26"):
    row("login", cut, "fault 4")

note("receipts: 17 bytes, kind 5")
row("receipt", f"05 {NONCE}", "receipt same")
for kind in ("00", "01", "02", "03", "04", "06", "ff"):
    row("receipt", f"{kind} {NONCE}", "fault 4")
for cut in ("", "05", "05 0e*15", "05 0e*17", "05*25"):
    row("receipt", cut, "fault 4")

note("writing a lock of 0, 31, 32, 65,535 and 65,536 bytes")
row("pack", "", "lock length")
row("pack", "aa*31", "lock length")
row("pack", "aa*32", "written 35")
row("pack", "aa*65535", "written 65538")
row("pack", "aa*65536", "lock length")

note("writing what is asked, of 0 to 1,025 bytes, into 2,048 bytes and into 59; 0 stands for refused")
row("fill", "", "written 29 29")
row("fill", "77*30", "written 59 59")
row("fill", "77*31", "written 60 0")
row("fill", "77*1024", "written 1053 0")
row("fill", "77*1025", "written 0 0")


def main():
    table, answers = [], []
    for verb, groups, expected in ROWS:
        if verb == "#":
            table.append(f"# {groups}")
            continue
        line = f"{verb} {groups}".strip()
        found = second(verb, groups)
        if found != expected:
            sys.exit(f"{line}: by hand {expected}, by the second reader {found}")
        table.append(line)
        answers.append(expected)
    files = {"stdin": table, "stdout": answers}
    for name, lines in files.items():
        text = "".join(line + "\n" for line in lines)
        if "--write" in sys.argv:
            (HERE / name).write_text(text)
        elif (HERE / name).read_text() != text:
            sys.exit(f"crates/words_table/{name} is behind this table")
    print(f"{len(answers)} rows")


main()
