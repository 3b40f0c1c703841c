#!/usr/bin/env python3
"""A script for `town` that fills a memory and uses drawn bytes up: faults 9 and 12, which no short script reaches.

    python3 tests/crowd.py                     prints the script, some 12,000 lines
    python3 tests/crowd.py --expected          prints the lines with `fault` and `total` that it must lead to
    python3 tests/crowd.py --long              the same, and the service's drawn bytes are used up too: some 20,000 lines
    python3 tests/crowd.py --long --expected

To compare:

    python3 tests/crowd.py > crowd.town
    bin/byte_town crowd.town | grep -E '^(fault|total)' | diff - <(python3 tests/crowd.py --expected)

A service or house remembers 8,192 things. In the town each side has 262,208 drawn bytes: that is 8,194 acts of a box at
32, 4,097 grants of the house at 64, and 16,388 receipts of a service at 16.
What is expected is counted out here by hand, and by no program."""
import sys

ROOM = 8192
ACTS = 8194
GRANTS = 4097
RECEIPTS = 16388
LONG = "--long" in sys.argv

SCRIPT = []
EXPECTED = []


def line(text, *expected, times=1):
    """A line of the script, and the lines with `fault` or `total` that it leads to."""
    SCRIPT.extend([text] * times)
    EXPECTED.extend(list(expected) * times)


def note(text):
    SCRIPT.append(f"# {text}")


note("The settings, two or three readers, one service.")
line("town 100 1000 5 00000000000000000000000000000000000000000000000000000000000000c0")
line(f"reader 5 {'05' * 32}")
line(f"reader 6 {'06' * 32}")
line(f"reader 9 {'09' * 32}")
line(f"service 7 {'07' * 32}")

note("Reader 5 asks 8,191 times: once with three acts of its box (words 1 to 6), then with one (two words each).")
line("want 5 7 none 00")
line("want 5 7 2 00", times=ROOM - 2)
words = 6 + 2 * (ROOM - 2)
box_5 = 3 + (ROOM - 2)
note("Reader 6 asks once: 8,192 things are remembered.")
line("want 6 7 none 00")
words += 6

note("There is no room for one more: 9. What was done before is 8 all the same, since that is the lower number.")
line("want 6 7 2 00", "fault s7 9")
words += 2
line("repeat 5 s7", "fault s7 8")
words += 1

note("The box of reader 5 has drawn bytes for one act more: a login. For the letter that comes there are none: 12.")
assert ACTS - box_5 == 1
line("want 5 7 none 00", "fault r5 12")
words += 2
note("Nor for another line: 12, and no word is sent.")
line("want 5 7 2 00", "fault r5 12")
line("want 5 7 none 00", "fault r5 12")
grants = 2 + 2 + 1

note("At 105 nothing is forgotten yet: 9. At 106 all is.")
line("tick 105")
line("want 6 7 2 00", "fault s7 9")
words += 2
line("tick 106")
line("want 6 7 2 00")
words += 2
deeds = ROOM + 1

if LONG:
    note("Reader 9 asks 8,191 times, so that there is no room again: 9.")
    line("want 9 7 none 00")
    line("want 9 7 2 00", times=ROOM - 2)
    line("want 6 7 2 00", "fault s7 9")
    words += 6 + 2 * (ROOM - 2) + 2
    grants += 2
    deeds += ROOM - 1
    note("At 112 there is, but the service has drawn bytes for four receipts only; then 12. What was done before is 8.")
    assert RECEIPTS - deeds == 4
    line("tick 112")
    line("want 6 7 2 00", times=4)
    line("want 6 7 2 00", "fault s7 12")
    words += 4 * 2
    line(f"repeat {words} r6")
    line(f"repeat {words - 1} s7", "fault s7 8")
    words += 2 + 1
    deeds += 4

note("The house: a login that outsiders bring again and again is granted each time, until its drawn bytes are used up: 12.")
line("hold 1")
line("want 6 7 none 00")
line(f"join 1 6 {words + 1}.1")
line(f"repeat {words + 2} house", times=GRANTS - grants)
line(f"repeat {words + 2} house", "fault house 12")
note("Nor is a ticket for a service given: 12.")
line("want 6 7 1 00", "fault house 12")
EXPECTED.append(f"total {deeds} {deeds} 0 0")

sys.stdout.write("".join(text + "\n" for text in (EXPECTED if "--expected" in sys.argv else SCRIPT)))
