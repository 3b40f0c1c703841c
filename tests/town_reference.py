#!/usr/bin/env python3
"""A second town, in Python: what the program `town` has to print for a script, worked out from docs/PROTOCOL.md alone.

It shares no code with the program, so the two agree only where both follow the page. Nothing has to be installed.

    python3 tests/town_reference.py SCRIPT         plays a script and prints what it leads to
    python3 tests/town_reference.py --self-test    the worked exchange, cases A to G and published vectors
    python3 tests/town_reference.py --check        compares scripts/NAME.out with what each scripts/NAME.town leads to
    python3 tests/town_reference.py --write        writes scripts/NAME.out
"""
import hashlib
import hmac
import pathlib
import re
import struct
import sys
from collections import namedtuple
from functools import lru_cache

ROOM = 8192  # things a side can remember
TABLE = 16  # entries of each of a box's tables
MOST_ASKED = 1024  # bytes of what is asked
SUPPLY = 4097 * 64  # drawn bytes of each side
MOST_READERS = 16
MOST_SERVICES = 8
PRINCIPALS = 1024
LINE_LENGTH = 1048576
MOST_NUMBER = 2**64 - 1
END_OF_TIME = 2**63
HOUSE_KEY_STREAM = 65534  # the stream that the house's own key is taken from
OUTSIDERS_STREAM = 65535  # the stream that outsiders' locks draw from
CLASSES = {1: 1, 2: 3, 3: 3, 4: 3, 5: 3, 6: 2, 7: 2, 8: 2, 9: 2, 10: 3, 12: 2, 14: 2}


class Fault(Exception):
    """A cause of refusal, by its number."""

    def __init__(self, number):
        super().__init__(number)
        self.number = number


class Crash(Exception):
    """A write was cut: the side is down."""


def lowest(conditions):
    """Of all conditions that fail the lowest number is told."""
    failing = [number for number, fails in conditions if fails]
    if failing:
        raise Fault(min(failing))


# --- ChaCha20 (RFC 8439) ------------------------------------------------------------------------------------------

ROUNDS = (
    (0, 4, 8, 12), (1, 5, 9, 13), (2, 6, 10, 14), (3, 7, 11, 15),
    (0, 5, 10, 15), (1, 6, 11, 12), (2, 7, 8, 13), (3, 4, 9, 14),
)  # fmt: skip


@lru_cache(maxsize=4096)
def chacha_block(key, counter, nonce):
    """One block of 64 bytes of the key stream."""
    start = struct.unpack("<4I", b"expand 32-byte k") + struct.unpack("<8I", key)
    start += (counter,) + struct.unpack("<3I", nonce)
    s = list(start)
    for _ in range(10):
        for a, b, c, d in ROUNDS:
            sa, sb, sc, sd = s[a], s[b], s[c], s[d]
            sa = (sa + sb) & 0xFFFFFFFF
            sd ^= sa
            sd = (sd << 16 | sd >> 16) & 0xFFFFFFFF
            sc = (sc + sd) & 0xFFFFFFFF
            sb ^= sc
            sb = (sb << 12 | sb >> 20) & 0xFFFFFFFF
            sa = (sa + sb) & 0xFFFFFFFF
            sd ^= sa
            sd = (sd << 8 | sd >> 24) & 0xFFFFFFFF
            sc = (sc + sd) & 0xFFFFFFFF
            sb ^= sc
            sb = (sb << 7 | sb >> 25) & 0xFFFFFFFF
            s[a], s[b], s[c], s[d] = sa, sb, sc, sd
    return struct.pack("<16I", *((x + y) & 0xFFFFFFFF for x, y in zip(s, start)))


def chacha_stream(key, nonce, start, length):
    """The bytes of the key stream from `start` on, the block counter beginning at 0."""
    first, last = start // 64, (start + length + 63) // 64
    blocks = b"".join(chacha_block(key, i, nonce) for i in range(first, last))
    return blocks[start - 64 * first : start - 64 * first + length]


def turned(key, nonce, data):
    stream = chacha_stream(key, nonce, 0, len(data))
    return bytes(x ^ y for x, y in zip(data, stream))


# --- locks --------------------------------------------------------------------------------------------------------

TICKET, LETTER, ASKING, LOGIN, RECEIPT = 1, 2, 3, 4, 5


def mac(key, message):
    return hmac.new(key, message, hashlib.sha256).digest()


@lru_cache(maxsize=1024)
def turning_key(kind, key):
    return mac(key, bytes([1, kind]))


def lock(kind, key, drawn, inside):
    """Drawn bytes, the inside turned, and the sum."""
    body = drawn + turned(turning_key(kind, key), drawn[:12], inside)
    return body + mac(key, bytes([2, kind]) + body)[:16]


def opened(kind, key, locked):
    """The inside, or None where the sum does not fit."""
    body, total = locked[:-16], locked[-16:]
    if not hmac.compare_digest(mac(key, bytes([2, kind]) + body)[:16], total):
        return None
    return turned(turning_key(kind, key), body[:12], body[16:])


def must_open(kind, key, locked):
    inside = opened(kind, key, locked)
    if inside is None:
        raise Fault(3)
    return inside


# --- insides ------------------------------------------------------------------------------------------------------

Ticket = namedtuple("Ticket", "service reader key until")
Letter = namedtuple("Letter", "number service key until")
Asking = namedtuple("Asking", "service number what tick")
Login = namedtuple("Login", "number tick")


def two(number):
    return number.to_bytes(2, "big")


def eight(number):
    return number.to_bytes(8, "big")


def number_of(data):
    return int.from_bytes(data, "big")


def whole(inside, kind, length):
    """An inside has just its length and begins with its kind."""
    if len(inside) != length or inside[0] != kind:
        raise Fault(4)


def write_ticket(ticket):
    return bytes([TICKET]) + two(ticket.service) + two(ticket.reader) + ticket.key + eight(ticket.until)


def read_ticket(inside):
    whole(inside, TICKET, 45)
    return Ticket(number_of(inside[1:3]), number_of(inside[3:5]), inside[5:37], number_of(inside[37:]))


def write_letter(letter):
    return bytes([LETTER]) + letter.number + two(letter.service) + letter.key + eight(letter.until)


def read_letter(inside):
    whole(inside, LETTER, 59)
    return Letter(inside[1:17], number_of(inside[17:19]), inside[19:51], number_of(inside[51:]))


def write_asking(asking):
    head = bytes([ASKING]) + two(asking.service) + asking.number
    return head + two(len(asking.what)) + asking.what + eight(asking.tick)


def read_asking(inside):
    if len(inside) < 29:
        raise Fault(4)
    length = number_of(inside[19:21])
    if length > MOST_ASKED:
        raise Fault(4)
    whole(inside, ASKING, 29 + length)
    return Asking(number_of(inside[1:3]), inside[3:19], inside[21 : 21 + length], number_of(inside[-8:]))


def write_login(login):
    return bytes([LOGIN]) + login.number + eight(login.tick)


def read_login(inside):
    whole(inside, LOGIN, 25)
    return Login(inside[1:17], number_of(inside[17:]))


def write_receipt(number):
    return bytes([RECEIPT]) + number


def read_receipt(inside):
    whole(inside, RECEIPT, 17)
    return inside[1:]


# --- words --------------------------------------------------------------------------------------------------------

Framed = namedtuple("Framed", "kind locks reader refusal")


def framed(word):
    """A word taken apart into its locks; fault 1 where it is none."""
    if not word:
        raise Fault(1)
    kind, rest, reader, locks = word[0], word[1:], None, []
    if kind == 5:
        if len(rest) != 1 or rest[0] not in (1, 2, 3):
            raise Fault(1)
        return Framed(5, [], None, rest[0])
    if kind not in (1, 2, 3, 4):
        raise Fault(1)
    if kind == 1:
        if len(rest) < 2:
            raise Fault(1)
        reader, rest = number_of(rest[:2]), rest[2:]
    for _ in range(2 if kind in (2, 3) else 1):
        if len(rest) < 2:
            raise Fault(1)
        length, rest = number_of(rest[:2]), rest[2:]
        if length < 32 or len(rest) < length:
            raise Fault(1)
        locks.append(rest[:length])
        rest = rest[length:]
    if rest:
        raise Fault(1)
    return Framed(kind, locks, reader, None)


def with_length(locked):
    return two(len(locked)) + locked


def login_word(reader, locked):
    return b"\x01" + two(reader) + with_length(locked)


def pair_word(kind, first, second):
    """Ticket and letter (2), or ticket and asking (3)."""
    return bytes([kind]) + with_length(first) + with_length(second)


def receipt_word(locked):
    return b"\x04" + with_length(locked)


def refusal_word(fault):
    return bytes([5, CLASSES[fault]])


# --- drawn bytes --------------------------------------------------------------------------------------------------


class Stream:
    """A side's drawn bytes in the town: the front of a ChaCha20 stream. A crash does not rewind it."""

    def __init__(self, seed, number):
        self.seed, self.nonce, self.used = seed, number.to_bytes(12, "big"), 0

    def left(self):
        return SUPPLY - self.used

    def draw(self, length):
        drawn = chacha_stream(self.seed, self.nonce, self.used, length)
        self.used += length
        return drawn


class Given:
    """Drawn bytes that are handed over whole."""

    def __init__(self, data):
        self.data = data

    def left(self):
        return len(self.data)

    def draw(self, length):
        drawn, self.data = self.data[:length], self.data[length:]
        return drawn


# --- memory against repeating, on its device ----------------------------------------------------------------------

Done = namedtuple("Done", "digest at")
Half = namedtuple("Half", "turn entries")


def digest(key, number):
    return hashlib.sha256(key + number).digest()[:16]


def half_bytes(half):
    """A half as it stands on the device."""
    data = eight(half.turn) + two(len(half.entries))
    data += b"".join(entry.digest + eight(entry.at) for entry in half.entries)
    return data + hashlib.sha256(data).digest()[:16]


class Device:
    """Two halves, each good or junk (None). It begins as a new device does after its first start."""

    def __init__(self):
        self.halves = [Half(1, []), Half(2, [])]

    def newest(self):
        first, second = self.halves
        if first is None or second is None:
            return second if first is None else first
        return second if second.turn > first.turn else first

    def place(self):
        """Where the next write goes, and with which turn."""
        newest = self.newest()
        if newest is None:
            return 0, 1
        if None in self.halves:
            return self.halves.index(None), newest.turn + 1
        return (1 if newest is self.halves[0] else 0), newest.turn + 1

    def write(self, entries):
        place, turn = self.place()
        self.halves[place] = Half(turn, entries)

    def spoil(self):
        self.halves[self.place()[0]] = None


class Keeper:
    """What house and services have in common: a memory, its device, and how they start."""

    def __init__(self, key, lag, drawn, now):
        self.key, self.lag, self.drawn = key, lag, drawn
        self.device, self.writes, self.cut = Device(), True, None
        self.start(now)

    def start(self, now):
        """Every start is a recovery. True if the side is ready, False if it waits."""
        newest = self.device.newest()
        self.done = list(newest.entries) if newest else []
        self.started, self.spoiled = now, None in self.device.halves
        return not self.spoiled

    def waits(self, now):
        return self.spoiled and now - self.started <= self.lag

    def lately(self, tick, now):
        return tick <= now and now - tick <= self.lag

    def kept(self, now):
        """What is not forgotten."""
        return [entry for entry in self.done if now - entry.at <= self.lag]

    def write(self, do, spoil):
        """One write of a device: it is made, or does not happen (14), or is cut."""
        if not self.writes:
            raise Fault(14)
        how, self.cut = self.cut, None
        if how in (None, "new"):
            do()
        if how == "junk":
            spoil()
        if how is not None:
            raise Crash

    def remember(self, entry, now):
        entries = self.kept(now) + [entry]
        self.write(lambda: self.device.write(entries), self.device.spoil)
        self.done = entries

    def read_pair(self, word):
        """Ticket and asking, opened and read in the order of the word."""
        ticket = read_ticket(must_open(TICKET, self.key, word.locks[0]))
        return ticket, read_asking(must_open(ASKING, ticket.key, word.locks[1]))

    def conditions(self, own, ticket, asking, need, now):
        """What house and services ask alike of a ticket and an asking."""
        kept = self.kept(now)
        entry = Done(digest(ticket.key, asking.number), now)
        return entry, [
            (6, not self.lately(asking.tick, now)),
            (7, ticket.until < now),
            (8, any(entry.digest == one.digest for one in kept)),
            (9, len(kept) >= ROOM),
            (10, ticket.service != own or asking.service != own),
            (12, self.drawn.left() < need),
            (14, self.waits(now)),
        ]


# --- the service --------------------------------------------------------------------------------------------------

Deed = namedtuple("Deed", "service reader what")


class Service(Keeper):
    def __init__(self, number, key, lag, drawn, now):
        super().__init__(key, lag, drawn, now)
        self.number = number

    def hear(self, word, now):
        """A deed and the receipt for it."""
        word = framed(word)
        if word.kind != 3:
            raise Fault(1)
        ticket, asking = self.read_pair(word)
        entry, conditions = self.conditions(self.number, ticket, asking, 16, now)
        lowest(conditions + [(2, not 0 < ticket.reader < PRINCIPALS)])
        self.remember(entry, now)
        answer = lock(RECEIPT, ticket.key, self.drawn.draw(16), write_receipt(asking.number))
        return Deed(self.number, ticket.reader, asking.what), receipt_word(answer)


# --- the house ----------------------------------------------------------------------------------------------------

Account = namedtuple("Account", "key closed")


class House(Keeper):
    def __init__(self, key, life, lag, drawn, now):
        super().__init__(key, lag, drawn, now)
        self.life, self.accounts = life, {}

    def change(self, number, account):
        """Accounts are written before a change takes effect; a half of them that is junk loses none."""

        def do():
            self.accounts[number] = account

        self.write(do, lambda: None)

    def open(self, number, key):
        """True if the account was opened, False if that changes nothing."""
        if not 0 < number < PRINCIPALS:
            raise Fault(2)
        if number in self.accounts:
            return False
        self.change(number, Account(key, False))
        return True

    def close(self, number):
        """True if the account was closed, False if that changes nothing."""
        if number not in self.accounts:
            raise Fault(2)
        if self.accounts[number].closed:
            return False
        self.change(number, self.accounts[number]._replace(closed=True))
        return True

    def hear(self, word, now):
        """No deed of a service, and the ticket and letter that are given."""
        word = framed(word)
        if word.kind == 1:
            return None, self.hear_login(word, now)
        if word.kind == 3:
            return None, self.hear_asking(word, now)
        raise Fault(1)

    def hear_login(self, word, now):
        account = self.accounts.get(word.reader)
        if account is None:
            raise Fault(2)
        login = read_login(must_open(LOGIN, account.key, word.locks[0]))
        lowest(
            [
                (5, account.closed),
                (6, not self.lately(login.tick, now)),
                (12, self.drawn.left() < 64),
                (14, self.waits(now)),
            ]
        )
        return self.grant(0, word.reader, self.key, login.number, account.key, now)

    def hear_asking(self, word, now):
        ticket, asking = self.read_pair(word)
        wanted = None
        if asking.service == 0:
            if len(asking.what) != 2:
                raise Fault(4)
            wanted = number_of(asking.what)
        account = self.accounts.get(ticket.reader)
        entry, conditions = self.conditions(0, ticket, asking, 64, now)
        conditions += [
            (2, account is None),
            (2, wanted not in (None, 0) and wanted not in self.accounts),
            (5, account is not None and account.closed),
            (10, wanted == 0),
        ]
        lowest(conditions)
        self.remember(entry, now)
        return self.grant(wanted, ticket.reader, self.accounts[wanted].key, asking.number, ticket.key, now)

    def grant(self, service, reader, ticket_key, number, letter_key, now):
        session, until = self.drawn.draw(32), now + self.life
        ticket = write_ticket(Ticket(service, reader, session, until))
        letter = write_letter(Letter(number, service, session, until))
        first = lock(TICKET, ticket_key, self.drawn.draw(16), ticket)
        return pair_word(2, first, lock(LETTER, letter_key, self.drawn.draw(16), letter))


# --- the box ------------------------------------------------------------------------------------------------------

Line = namedtuple("Line", "service what tick count")
LoginSent = namedtuple("LoginSent", "number line")
Held = namedtuple("Held", "id service lock key until")
AskingSent = namedtuple("AskingSent", "number key service line")


def put(table, entry):
    """A new entry in a full table drives out the oldest."""
    table.append(entry)
    if len(table) > TABLE:
        table.pop(0)


class Box:
    def __init__(self, number, key, drawn):
        self.number, self.key, self.drawn = number, key, drawn
        self.start()

    def start(self):
        self.logins, self.tickets, self.askings = [], [], []
        self.lines = self.letters = 0
        return True

    def want(self, service, ticket_id, what, now):
        """The word that a reader's line leads to, and the side it is for; ticket_id is None for no ticket."""
        if service >= PRINCIPALS or len(what) > MOST_ASKED:
            raise Fault(13)
        ticket = next((one for one in self.tickets if one.id == ticket_id), None)
        lowest(
            [
                (2, ticket_id is not None and ticket is None),
                (7, ticket is not None and ticket.until < now),
                (10, service == 0),
                (10, ticket is not None and ticket.service not in (0, service)),
                (12, self.drawn.left() < 32),
            ]
        )
        self.lines += 1
        line = Line(service, what, now, self.lines)
        if ticket is None:
            return self.log_in(line, now)
        if ticket.service == 0:
            return self.ask_house(ticket, line, now)
        return self.ask_service(ticket, line)

    def log_in(self, line, now):
        number = self.drawn.draw(16)
        locked = lock(LOGIN, self.key, self.drawn.draw(16), write_login(Login(number, now)))
        put(self.logins, LoginSent(number, line))
        return 0, login_word(self.number, locked)

    def ask_house(self, ticket, line, now):
        return self.ask(ticket, 0, two(line.service), now, line)

    def ask_service(self, ticket, line):
        return self.ask(ticket, line.service, line.what, line.tick, line)

    def ask(self, ticket, service, what, tick, line):
        number = self.drawn.draw(16)
        asking = write_asking(Asking(service, number, what, tick))
        locked = lock(ASKING, ticket.key, self.drawn.draw(16), asking)
        put(self.askings, AskingSent(number, ticket.key, service, line))
        return service, pair_word(3, ticket.lock, locked)

    def hear(self, word, now):
        """What is shown, and the word that is sent with the side it is for, or None."""
        word = framed(word)
        if word.kind == 2:
            return self.hear_letter(word, now)
        if word.kind == 4:
            return self.hear_receipt(word), None
        if word.kind == 5:
            return f"refused r{self.number} {word.refusal}", None
        raise Fault(1)

    def letter_keys(self):
        """The keys that are tried, in this order."""
        held = [ticket.key for ticket in self.tickets if ticket.service == 0]
        strays = [one.key for one in self.askings if one.service == 0 and one.key not in held]
        return [self.key] + held + strays

    def hear_letter(self, word, now):
        for place, key in enumerate(self.letter_keys()):
            inside = opened(LETTER, key, word.locks[1])
            if inside is not None:
                break
        else:
            raise Fault(3)
        letter = read_letter(inside)
        if place == 0:
            table = self.logins
            fits = [one for one in table if letter.service == 0 and one.number == letter.number]
        else:
            table = self.askings
            fits = [
                one
                for one in table
                if (one.service, one.key, one.number) == (0, key, letter.number)
                and one.line.service == letter.service
            ]
        lowest([(11, not fits), (12, self.drawn.left() < 32)])
        table.remove(fits[0])
        self.letters += 1
        ticket = Held(self.letters, letter.service, word.locks[0], letter.key, letter.until)
        put(self.tickets, ticket)
        line = fits[0].line
        shown = f"ticket r{self.number} {ticket.id} {ticket.service} {ticket.until}"
        if place == 0:
            return shown, self.ask_house(ticket, line, now)
        return shown, self.ask_service(ticket, line)

    def hear_receipt(self, word):
        sent = [one for one in self.askings if one.service != 0]
        for one in sent:
            inside = opened(RECEIPT, one.key, word.locks[0])
            if inside is not None:
                break
        else:
            raise Fault(3)
        number, key = read_receipt(inside), one.key
        for one in sent:
            if (one.key, one.number) == (key, number):
                return f"receipt r{self.number} {one.line.count}"
        raise Fault(11)


# --- lines of a script --------------------------------------------------------------------------------------------


class Unread(Exception):
    """A line that the town can't read or obey: fault 13."""


def read_number(text, most=MOST_NUMBER):
    if not re.fullmatch(r"0|[1-9][0-9]*", text):
        raise Unread
    value = MOST_NUMBER if len(text) > 20 else min(int(text), MOST_NUMBER)
    if value > most:
        raise Unread
    return value


def read_hex(text):
    if text == "-":
        return b""
    if not re.fullmatch(r"(?:[0-9a-f]{2})+", text):
        raise Unread
    return bytes.fromhex(text)


def read_key(text):
    if len(text) != 64:
        raise Unread
    return read_hex(text)


def read_kind(text):
    kind = read_number(text)
    if not TICKET <= kind <= RECEIPT:
        raise Unread
    return kind


def show(data):
    return data.hex() or "-"


def script_lines(text):
    """The lines that say something. A line that is too long is one, also as a comment."""
    parts = text.split(b"\n")
    if not parts[-1]:
        parts.pop()
    for line in parts:
        if len(line) > LINE_LENGTH or (line and not line.startswith(b"#")):
            yield line


def words_of(line):
    if len(line) > LINE_LENGTH or not line.isascii():
        raise Unread
    words = line.decode("ascii").split(" ")
    if "" in words:
        raise Unread
    return words


# --- the town -----------------------------------------------------------------------------------------------------

Word = namedtuple("Word", "data sender piece")
TownLine = namedtuple("TownLine", "count reader service what tick")


class Town:
    def __init__(self, words, out):
        if len(words) != 5 or words[0] != "town":
            raise Unread
        self.now = read_number(words[1], END_OF_TIME - 1)
        self.life = read_number(words[2], 86400)
        self.lag = read_number(words[3], 600)
        self.seed = read_key(words[4])
        if self.life == 0:
            raise Unread
        self.out = out
        house_key = Stream(self.seed, HOUSE_KEY_STREAM).draw(32)
        self.house = House(house_key, self.life, self.lag, Stream(self.seed, 0), self.now)
        self.boxes, self.services, self.words = {}, {}, []
        self.outsiders, self.held = Stream(self.seed, OUTSIDERS_STREAM), 0
        self.line_count, self.unspent, self.stolen = 0, [], set()
        self.counts = {"asked": 0, "stolen": 0, "NOT": 0}
        out(f"town {self.now} {self.life} {self.lag}")

    # Names

    def side(self, name):
        """A side by its name; None where the town has none such."""
        if name == "house":
            return self.house
        match = re.fullmatch(r"([sr])(0|[1-9][0-9]*)", name)
        if not match or len(name) > 20:
            return None
        table = self.services if match[1] == "s" else self.boxes
        return table.get(int(match[2]))

    def known_side(self, name):
        side = self.side(name)
        if side is None:
            raise Unread
        return side

    def keeper(self, name):
        """A side that has a device."""
        side = self.known_side(name)
        if isinstance(side, Box):
            raise Unread
        return side

    def word(self, text):
        number = read_number(text)
        if not 1 <= number <= len(self.words):
            raise Unread
        return self.words[number - 1]

    def lock_named(self, text):
        """W.I: a lock of a word that frames, or a piece made by `lock`."""
        match = re.fullmatch(r"([0-9]+)\.([0-9]+)", text)
        if not match:
            raise Unread
        word, place = self.word(match[1]), read_number(match[2])
        try:
            locks = [word.data] if word.piece else framed(word.data).locks
        except Fault:
            raise Unread from None
        if not 1 <= place <= len(locks):
            raise Unread
        return locks[place - 1]

    # Words on the line

    def made(self, data, piece=False):
        """A word or piece that outsiders made: it goes nowhere until it is brought."""
        self.words.append(Word(data, "-", piece))
        self.out(f"w{len(self.words)} - - {show(data)}")

    def sent(self, sender, to, data):
        """A word that a side sends: held back, or delivered at once if there is such a side."""
        word = Word(data, sender, False)
        self.words.append(word)
        self.out(f"w{len(self.words)} {sender} {to} {show(data)}")
        if self.held > 0:
            self.held -= 1
        elif self.side(to) is not None:
            self.bring(word, to)

    def bring(self, word, name):
        side = self.side(name)
        if isinstance(side, Box):
            self.bring_to_box(word, name, side)
        else:
            self.bring_to_keeper(word, name, side)

    def bring_to_box(self, word, name, box):
        try:
            shown, answer = box.hear(word.data, self.now)
        except Fault as fault:
            self.out(f"fault {name} {fault.number}")
            return
        self.out(shown)
        if answer is not None:
            self.send_from_box(name, answer)

    def send_from_box(self, name, answer):
        to, data = answer
        self.sent(name, "house" if to == 0 else f"s{to}", data)

    def bring_to_keeper(self, word, name, side):
        """An answer goes to the box that sent the word, and nowhere if no box did."""
        back = word.sender if word.sender.startswith("r") else "-"
        try:
            deed, answer = side.hear(word.data, self.now)
        except Crash:
            self.restart(name)
            return
        except Fault as fault:
            self.out(f"fault {name} {fault.number}")
            self.sent(name, back, refusal_word(fault.number))
            return
        if deed is not None:
            self.judge(deed)
        self.sent(name, back, answer)

    def restart(self, name):
        side = self.side(name)
        ready = side.start() if isinstance(side, Box) else side.start(self.now)
        self.out(f"start {name} {'ready' if ready else 'waits'}")

    # The judge

    def judge(self, deed):
        head = f"done {deed.service} {deed.reader} {show(deed.what)} {self.now}"
        for line in self.unspent:
            fits = (line.service, line.reader, line.what) == deed and 0 <= self.now - line.tick <= self.lag
            if fits:
                self.unspent.remove(line)
                self.counts["asked"] += 1
                self.out(f"{head} asked {line.count} {line.tick}")
                return
        thefts = [number for number in (deed.reader, deed.service, 0) if self.own_key(number) in self.stolen]
        if thefts:
            self.counts["stolen"] += 1
            self.out(f"{head} stolen {' '.join(map(str, thefts))}")
        else:
            self.counts["NOT"] += 1
            self.out(f"{head} NOT ASKED")

    def own_key(self, number):
        """The own key of a principal of the town; None where there is none such."""
        if number == 0:
            return self.house.key
        side = self.boxes.get(number) or self.services.get(number)
        return side.key if side else None

    # Lines of the script

    def obey(self, words):
        verb, fields = words[0], words[1:]
        if verb == "join":
            return self.do_join(fields)
        act, count = {
            "reader": (self.do_reader, 2),
            "service": (self.do_service, 2),
            "tick": (self.do_tick, 1),
            "want": (self.do_want, 4),
            "close": (self.do_close, 1),
            "hold": (self.do_hold, 1),
            "repeat": (self.do_repeat, 2),
            "steal": (self.do_steal, 1),
            "lock": (self.do_lock, 3),
            "unlock": (self.do_unlock, 3),
            "bytes": (self.do_bytes, 1),
            "fall": (self.do_fall, 1),
            "cut": (self.do_cut, 2),
            "device": (self.do_device, 2),
        }.get(verb, (None, 0))
        if act is None or len(fields) != count:
            raise Unread
        act(*fields)

    def new_principal(self, number, key, table, most):
        """A number that nobody in the town has yet, and room for it."""
        number, key = read_number(number), read_key(key)
        if not 0 < number < PRINCIPALS or number in self.boxes or number in self.services:
            raise Unread
        if len(table) >= most:
            raise Unread
        return number, key

    def at_house(self, act):
        """What the house makes of a line about accounts; None where it refuses or crashes."""
        try:
            return act()
        except Crash:
            self.restart("house")
        except Fault as fault:
            self.out(f"fault house {fault.number}")
        return None

    def do_reader(self, number, key):
        number, key = self.new_principal(number, key, self.boxes, MOST_READERS)
        if self.at_house(lambda: self.house.open(number, key)) is not None:
            self.boxes[number] = Box(number, key, Stream(self.seed, number))
            self.out(f"reader {number}")

    def do_service(self, number, key):
        number, key = self.new_principal(number, key, self.services, MOST_SERVICES)
        if self.at_house(lambda: self.house.open(number, key)) is not None:
            self.services[number] = Service(number, key, self.lag, Stream(self.seed, number), self.now)
            self.out(f"service {number}")

    def do_tick(self, tick):
        tick = read_number(tick, END_OF_TIME - 1)
        if tick < self.now:
            raise Unread
        self.now = tick
        self.out(f"tick {tick}")

    def do_want(self, reader, service, ticket, what):
        reader, service = read_number(reader), read_number(service)
        ticket = None if ticket == "none" else read_number(ticket)
        what = read_hex(what)
        if reader not in self.boxes:
            raise Unread
        try:
            answer = self.boxes[reader].want(service, ticket, what, self.now)
        except Fault as fault:
            self.out(f"fault r{reader} {fault.number}")
            return
        self.line_count += 1
        self.unspent.append(TownLine(self.line_count, reader, service, what, self.now))
        self.send_from_box(f"r{reader}", answer)

    def do_close(self, number):
        number = read_number(number)
        changed = self.at_house(lambda: self.house.close(number))
        if changed is not None:
            self.out(f"{'closed' if changed else 'same'} {number}")

    def do_hold(self, count):
        self.held = read_number(count)

    def do_repeat(self, word, name):
        word = self.word(word)
        self.known_side(name)
        self.bring(word, name)

    def do_join(self, fields):
        if len(fields) != 3:
            raise Unread
        kind = read_number(fields[0])
        if kind == 1:
            reader, locked = read_number(fields[1], 65535), self.lock_named(fields[2])
            self.fits_length(locked)
            self.made(login_word(reader, locked))
        elif kind in (2, 3):
            first, second = self.lock_named(fields[1]), self.lock_named(fields[2])
            self.fits_length(first, second)
            self.made(pair_word(kind, first, second))
        else:
            raise Unread

    @staticmethod
    def fits_length(*locks):
        """A lock's length has two bytes."""
        if any(len(locked) > 65535 for locked in locks):
            raise Unread

    def do_steal(self, number):
        number = read_number(number)
        key = self.own_key(number)
        if key is None:
            raise Unread
        self.stolen.add(key)
        self.out(f"key {number} {key.hex()}")

    def do_lock(self, kind, key, inside):
        kind, key, inside = read_kind(kind), read_key(key), read_hex(inside)
        if self.outsiders.left() < 16:
            raise Unread
        self.made(lock(kind, key, self.outsiders.draw(16), inside), piece=True)

    def do_unlock(self, name, kind, key):
        kind, key, locked = read_kind(kind), read_key(key), self.lock_named(name)
        inside = opened(kind, key, locked)
        self.out("shut" if inside is None else f"inside {show(inside)}")

    def do_bytes(self, data):
        self.made(read_hex(data))

    def do_fall(self, name):
        self.known_side(name)
        self.restart(name)

    def do_cut(self, name, how):
        if how not in ("old", "new", "junk"):
            raise Unread
        self.keeper(name).cut = how

    def do_device(self, name, how):
        if how not in ("ok", "fail"):
            raise Unread
        self.keeper(name).writes = how == "ok"

    def total(self):
        asked, stolen, rest = self.counts.values()
        self.out(f"total {asked + stolen + rest} {asked} {stolen} {rest}")


def play(text, out):
    """Plays a script; the exit status."""
    town = None
    for line in script_lines(text):
        try:
            words = words_of(line)
            if town is None:
                town = Town(words, out)
            else:
                town.obey(words)
        except Unread:
            out("fault 13")
            if town is None:
                print("town: the first line has to be: town TICK LIFE LAG SEED", file=sys.stderr)
                return 1
    if town is not None:
        town.total()
    return 0


# --- self-test ----------------------------------------------------------------------------------------------------


def same(found, expected, what):
    if found != expected:
        sys.exit(f"{what}\n  found    {found}\n  expected {expected}")


def test_vectors():
    """RFC 8439 sections 2.3.2 and 2.4.2, and the lock of the page."""
    key, nonce = bytes(range(32)), bytes.fromhex("000000090000004a00000000")
    block = (
        "10f1e7e4d13b5915500fdd1fa32071c4c7d1f4c733c068030422aa9ac3d46c4e"
        "d2826446079faa0914c2d705d98b02a2b5129cd1de164eb9cbd083e8a2503c4e"
    )
    same(chacha_block(key, 1, nonce).hex(), block, "ChaCha20 block")
    nonce = bytes.fromhex("000000000000004a00000000")
    text = b"Ladies and Gentlemen of the class of '99: If I could offer you only one tip for the future, sunscreen would be it."
    cipher = bytes(x ^ y for x, y in zip(text, chacha_stream(key, nonce, 64, len(text))))
    sunscreen = (
        "6e2e359a2568f98041ba0728dd0d6981e97e7aec1d4360c20a27afccfd9fae0bf91b65c5524733ab8f593dabcd62b3571639d624e65152ab8f530c359f0861d8"
        "07ca0dbf500d6a6156a38e088a22b65e52bc514d16ccf806818ce91ab77937365af90bbf74a35be6b40b8eedf2785e42874d"
    )
    same(cipher.hex(), sunscreen, "ChaCha20 encryption")
    own, drawn = b"\x05" * 32, bytes(range(0x10, 0x20))
    same(turning_key(4, own).hex(), "9c2dcbd701ed8fe0203d486e0c016577c57d1fadc2bcc93dae6e4bf5e9f799a0", "key for turning")
    locked = lock(LOGIN, own, drawn, write_login(Login(bytes(range(16)), 100)))
    same(locked.hex(), WORKED[0][10:], "lock of a login")
    same(opened(LETTER, own, locked), None, "a lock of another kind")


WORKED = [
    "0100050039101112131415161718191a1b1c1d1e1ffeb91bf6e97db669b6a084803517e31f9d2c06dc4bc1ebddb536193b3be952a3e80dcc7d480004f20b",
    "02004da0a1a2a3a4a5a6a7a8a9aaabacadaeafc5c6b9cc9358a08eef506d0d44ad25dec701f2d3c6cc3e56271bb80507f23c47e8b59795e68f8387674f77b1"
    "5643b93e7f62fd2ce6e4b93c9eb398dac2005bb0b1b2b3b4b5b6b7b8b9babbbcbdbebfe5db3c107b9a3d57843ffc493e30a52eed43cc6decf978ae8303e6a6"
    "90d3be2b9ae289f15448a3fc625c198c81d877acff1c87b5763ef059d8a65637d408c1d8f513bb51d9046e7677a714",
    "03004da0a1a2a3a4a5a6a7a8a9aaabacadaeafc5c6b9cc9358a08eef506d0d44ad25dec701f2d3c6cc3e56271bb80507f23c47e8b59795e68f8387674f77b1"
    "5643b93e7f62fd2ce6e4b93c9eb398dac2003f303132333435363738393a3b3c3d3e3f2143a1168e98fc75f7bacdb5017e1cae80cba128496ceece592118d3"
    "b6e8edbd30736784bdef790b0c8d072124ae79",
    "02004de0e1e2e3e4e5e6e7e8e9eaebecedeeefebe7d121251528ff21b29f2c2c84928a1710311c5e947e635ed31dea84d3ecdc75959d70e655883c611fbbbd"
    "915d5c8b13e0c18d1e2782c1a4c403ca6c005bf0f1f2f3f4f5f6f7f8f9fafbfcfdfeffa18d4b9c0fe6312b805dc9417f8be8ed6bf9d89d175ad50ebb994517"
    "5699e72c3ca224f8223bbf6c4b28a4b02cf999c0f6e3d3ad6a4d7ef05e49bd56c9499e320ba96d49f9b2b81563d089",
    "03004de0e1e2e3e4e5e6e7e8e9eaebecedeeefebe7d121251528ff21b29f2c2c84928a1710311c5e947e635ed31dea84d3ecdc75959d70e655883c611fbbbd"
    "915d5c8b13e0c18d1e2782c1a4c403ca6c0041505152535455565758595a5b5c5d5e5f642e39a5e893517bbef8fe9245e30b2a214ffc04fafa1a9ab3bed88e"
    "39b8ee95b4981942071c02d02fa75b55da63b18d59",
    "040031606162636465666768696a6b6c6d6e6f900f1c5ad6a9fcee4434a91c35ef980fca00942b328f33ce2d1f677b6185436da9",
]


def accounts_sum(turn, accounts):
    """The sum of a half of the accounts file, all accounts open."""
    entries = b"".join(b"\x01" + accounts[n] if n in accounts else bytes(33) for n in range(PRINCIPALS))
    return hashlib.sha256(eight(turn) + entries).hexdigest()[:32]


def test_exchange():
    """The six words of the worked exchange, and what stands on the devices after them."""
    house = House(b"\xa0" * 32, 1000, 5, Given(bytes(range(0x80, 0x100))), 100)
    five, seven = b"\x05" * 32, b"\x07" * 32
    same((house.open(5, five), house.open(7, seven)), (True, True), "accounts")
    service = Service(7, seven, 5, Given(bytes(range(0x60, 0x70))), 100)
    box = Box(5, five, Given(bytes(range(0x60))))
    to, first = box.want(7, None, bytes.fromhex("7363616e"), 100)
    same((to, first.hex()), (0, WORKED[0]), "word 1")
    second = house.hear(first, 100)[1]
    same(second.hex(), WORKED[1], "word 2")
    shown, (to, third) = box.hear(second, 100)
    same((shown, to, third.hex()), ("ticket r5 1 0 1100", 0, WORKED[2]), "word 3")
    fourth = house.hear(third, 100)[1]
    same(fourth.hex(), WORKED[3], "word 4")
    same(house.done, [Done(bytes.fromhex("4fe1ac1a063bc8eaf4a61ec0ec0a8251"), 100)], "memory of the house")
    shown, (to, fifth) = box.hear(fourth, 100)
    same((shown, to, fifth.hex()), ("ticket r5 2 7 1100", 7, WORKED[4]), "word 5")
    deed, sixth = service.hear(fifth, 100)
    same((deed, sixth.hex()), (Deed(7, 5, b"scan"), WORKED[5]), "word 6")
    same(box.hear(sixth, 100), ("receipt r5 1", None), "receipt")
    half = "00000000000000030001bfcf621e47c5e44a5fc17d937e5ec27900000000000000644749b99c7811ccd96d8d5c34ad432c47"
    same(half_bytes(service.device.halves[0]).hex(), half, "first half of the service's device")
    same(half_bytes(Half(1, [])).hex(), "00000000000000010000c4f3fb5c0f7f76b3fe0a74a6ae7472e6", "empty half, turn 1")
    same(half_bytes(Half(2, [])).hex(), "00000000000000020000296eb6eebd3ea9ded8041b6793424283", "empty half, turn 2")
    same(accounts_sum(3, {5: five}), "a1dfe50cd85494021760cca91f68bd92", "first half of the accounts")
    same(accounts_sum(4, {5: five, 7: seven}), "0d2c2d4d935ca53eb8d06b32bc4b7610", "second half of the accounts")
    service.drawn = Given(bytes(range(0x70, 0x80)))
    try:
        service.hear(fifth, 100)
        sys.exit("an asking that came again was done again")
    except Fault as fault:
        same(fault.number, 8, "an asking that comes again")
    same(service.drawn.left(), 16, "drawn bytes after a refusal")


FIVE, SIX, SEVEN, EIGHT, SESSION, OTHER = ("05" * 32, "06" * 32, "07" * 32, "08" * 32, "aa" * 32, "bb" * 32)
OPENING = [f"town 100 1000 5 {'00' * 32}", f"reader 5 {FIVE}", f"reader 6 {SIX}", f"service 7 {SEVEN}"]
SERVICE_8, ONE_KEY_8 = f"service 8 {EIGHT}", f"service 8 {SEVEN}"
CASE_A = ["want 5 7 none aa", "tick 200", "want 5 7 1 bb"]


def tale(*lines):
    """What a script leads to, without words and without what its first lines say."""
    out = []
    play("\n".join(lines).encode(), out.append)
    return [line for line in out if not re.match(r"(w[0-9]+|town|reader|service|tick|ticket|receipt|key) ", line)]


def tickets(*lines):
    out = []
    play("\n".join(lines).encode(), out.append)
    return [line for line in out if line.startswith("ticket ")]


def made_up(service, reader, key, session, number, what, tick, first):
    """Lines by which outsiders make up a ticket and an asking and bring them; `first` is the next word's number."""
    ticket = write_ticket(Ticket(service, reader, bytes.fromhex(session), 2000)).hex()
    asking = write_asking(Asking(service, bytes.fromhex(number), bytes.fromhex(what), tick)).hex()
    return [
        f"lock 1 {key} {ticket}",
        f"lock 3 {session} {asking}",
        f"join 3 {first}.1 {first + 1}.1",
        f"repeat {first + 2} s{service}",
    ]


def test_cases():
    """Cases A to G of the page, each as a town. In case A words 1 to 6 are at 100, 7 to 10 at 200."""
    start = OPENING + [SERVICE_8]
    case_a = ["done 7 5 aa 100 asked 1 100", "done 7 5 bb 200 asked 2 200"]
    same(tale(*start, *CASE_A), case_a + ["total 2 2 0 0"], "case A")
    given = ["ticket r5 1 0 1100", "ticket r5 2 7 1100", "ticket r5 3 7 1200"]
    same(tickets(*start, *CASE_A), given, "tickets of case A")

    again = tale(*start, *CASE_A, "tick 201", "repeat 9 s7", "tick 205", "repeat 9 s7", "tick 206", "repeat 9 s7")
    refused = ["fault s7 8", "refused r5 2", "fault s7 8", "refused r5 2", "fault s7 6", "refused r5 2"]
    same(again, case_a + refused + ["total 2 2 0 0"], "case B")

    closing = ["tick 300", "close 5", "tick 301", "want 5 7 1 cc", "want 5 7 none cc", "want 5 7 3 dd"]
    ending = ["tick 1200", "want 5 7 3 ee", "hold 1", "want 5 7 3 ff", "tick 1201", "repeat 19 s7", "want 5 7 3 00"]
    expected = ["closed 5", "fault house 5", "refused r5 3", "fault house 5", "refused r5 3"]
    expected += ["done 7 5 dd 301 asked 5 301", "done 7 5 ee 1200 asked 6 1200"]
    expected += ["fault s7 7", "refused r5 2", "fault r5 7", "total 4 4 0 0"]
    same(tale(*start, *CASE_A, *closing, *ending), case_a + expected, "case C")

    carried = case_a + ["fault s8 3", "refused r5 3", "total 2 2 0 0"]
    same(tale(*start, *CASE_A, "repeat 9 s8"), carried, "case D")
    carried = case_a + ["fault s8 10", "refused r5 3", "total 2 2 0 0"]
    same(tale(*OPENING, ONE_KEY_8, *CASE_A, "repeat 9 s8"), carried, "case D with one key")

    login = write_login(Login(bytes(16), 100)).hex()
    stolen = ["steal 5", f"lock 4 {FIVE} {login}", "join 1 5 1.1", "repeat 2 house", f"unlock 3.2 2 {FIVE}"]
    out = tale(*start, *stolen, "join 1 6 1.1", "repeat 4 house", "want 6 7 none aa")
    letter = "inside 02" + "00" * 16 + "0000"
    same(out[0][: len(letter)], letter, "case E: the letter of a stolen reader")
    same(out[1:], ["fault house 3", "done 7 6 aa 100 asked 1 100", "total 1 1 0 0"], "case E: the other reader")

    forged = made_up(7, 5, SEVEN, SESSION, "00" * 16, "ff", 100, 1)
    same(tale(*start, "steal 7", *forged), ["done 7 5 ff 100 stolen 7", "total 1 0 1 0"], "case F")
    same(tale(*start, "steal 7", *forged, "repeat 3 s8")[1:], ["fault s8 3", "total 1 0 1 0"], "case F: for no other")

    second = made_up(7, 5, SEVEN, OTHER, "00" * 16, "ff", 100, 5)
    both = ["done 7 5 ff 100 stolen 7"] * 2 + ["total 2 0 2 0"]
    same(tale(*start, "steal 7", *forged, *second), both, "case G")


def self_test():
    test_vectors()
    test_exchange()
    test_cases()
    print("the worked exchange, cases A to G and the published vectors are met")


# --- the command --------------------------------------------------------------------------------------------------


def expected_files(write):
    """Every scripts/NAME.out, compared or written."""
    folder = pathlib.Path(__file__).resolve().parent.parent / "scripts"
    scripts = sorted(folder.glob("*.town"))
    for script in scripts:
        out = []
        play(script.read_bytes(), out.append)
        text = "".join(line + "\n" for line in out)
        beside = script.with_suffix(".out")
        if write:
            beside.write_text(text)
        elif not beside.exists() or beside.read_text() != text:
            sys.exit(f"scripts/{beside.name} is not what scripts/{script.name} leads to")
    print(f"{len(scripts)} scripts")


def main():
    if len(sys.argv) != 2:
        sys.exit(__doc__)
    argument = sys.argv[1]
    if argument == "--self-test":
        self_test()
    elif argument in ("--check", "--write"):
        expected_files(argument == "--write")
    else:
        sys.exit(play(pathlib.Path(argument).read_bytes(), print))


if __name__ == "__main__":
    main()
