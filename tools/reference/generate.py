"""Prints a random script for shelf: generate.py SEED CALLS.

A model of the host answers each line as it is written, so that the script
can be steered into deep states and to the edges of the rules.
"""

import random
import sys
from collections import deque

import host
from host import State, write_length, write_lpdus
from shelf import ANNOUNCED, Shelf

SINGLE_OBJECTS = (host.C_T_C_REPLY, host.DELETE_T_C, host.D_T_C_REPLY, host.REQUEST_T_C)
DATA_OBJECTS = (host.T_DATA_LAST, host.T_DATA_MORE)
MODULE_OBJECTS = (None, *SINGLE_OBJECTS, *DATA_OBJECTS)
FOREIGN_TAGS = (0x81, 0x82, 0x87, 0x88, 0x00, 0x90, 0xA2, 0xFF)
SPDU_TAGS = (0x90, 0x91, 0x92, 0x93, 0x94, 0x95, 0x96, 0x00, 0x9F, 0xFF)
SETTLED = (State.IDLE, State.ACTIVE)
APDU_TAGS = (host.PROFILE_ENQUIRY, host.PROFILE, host.PROFILE_CHANGE,
             host.APPLICATION_ENQUIRY, host.APPLICATION_INFORMATION,
             host.TIME_ENQUIRY, host.TIME, 0x9F8000, 0x9F8013, 0x9F8022,
             0x9F8400, 0x9FFF7F)
OWN_TAGS = {
    host.ResourceManager.identifier:
        (host.PROFILE_ENQUIRY, host.PROFILE, host.PROFILE, host.PROFILE_CHANGE),
    host.ApplicationInformation.identifier: (host.APPLICATION_INFORMATION,),
    host.DateTime.identifier: (host.TIME_ENQUIRY,),
}
SIZES = (
    (16,),
    (16, 18, 18, 25, 25),
    (24, 32, 50, 64),
    (128, 200, 256),
    (1025, 1026, 1027),
    (16, 40, 300, 1026, 2048, 65535),
)


class Habits:
    """What a seed makes likely, so that seeds differ in kind."""

    def __init__(self, rng):
        settled = rng.random() < 0.4  # lets connections live, to have many sessions
        calm = 0 if settled else rng.choice((1, 0.3, 0.1))
        slots = (1, 1, 2) if settled else (1, 1, 2, 3, 4)
        self.slots = rng.sample(range(host.SLOTS), rng.choice(slots))
        self.sizes = rng.choice(SIZES)
        # Weights of opening, closing and talking in a session.
        self.session = rng.choice(((8, 1, 6), (2, 1, 8), (3, 3, 4), (1, 1, 14)))
        if settled:
            self.session = rng.choice(((20, 1, 1), (20, 1, 1), (2, 2, 9)))
        # The odds of all else, most of them at each step.
        self.restless = rng.choice((0.05, 0.2, 0.5))  # to turn to another connection
        self.second = rng.choice((0.15, 0.4, 0.6))  # that it is number 2
        self.untidy = rng.choice((0.0, 0.05, 0.3))  # of odd blanks, zeros and case
        self.bad_line = rng.choice((0.0, 0.02, 0.1))
        self.chain = rng.choice((0.05, 0.2, 0.5))  # of data in several TPDUs
        self.cut = rng.choice((0.05, 0.3, 0.7))  # of TPDUs in small LPDUs
        self.limit = rng.choice((0.0, 0.1, 0.3))  # of units at their limits
        self.room = rng.choice((0.03, 0.1, 0.3))  # that a room is given
        self.right = rng.choice((0.3, 0.6, 0.95))  # of the object that a state takes
        self.wrong_body = rng.choice((0.1, 0.4))  # of objects of the wrong length
        self.clock = rng.choice((0.003, 0.02, 0.05))
        self.patience = rng.choice((0.2, 0.9))  # to leave an old turn alone
        self.spoil = rng.choice((0.05, 0.2, 0.5))  # to feed what is refused first
        self.stray = calm * rng.choice((0.03, 0.1, 0.2))  # of calls out of place
        self.malform = calm * rng.choice((0.05, 0.15, 0.3))  # of malformed units
        self.leave = calm * rng.choice((0.0, 0.01, 0.04))  # to expire, delete or pull
        self.end = 0 if settled else rng.choice((0.0, 0.03, 0.2))
        self.hasty = 0 if settled else rng.choice((0.05, 0.2, 0.5))  # to make any call


class Dice:
    """Random choices."""

    def chance(self, odds):
        return self.rng.random() < odds

    def pick(self, choices):
        return self.rng.choice(choices)

    def weighted(self, weights):
        """Picks a key of a dictionary by its weight."""
        return self.rng.choices(list(weights), list(weights.values()))[0]

    def some_bytes(self, count):
        return self.rng.randbytes(count)


class Units(Dice):
    """What a module may send, well formed and not, in the state that a host is in.

    A key is a slot and a connection.
    """

    def slot(self, key):
        return self.shelf.host.slots[key[0]]

    def connection(self, key):
        return self.slot(key).connections[key[1]]

    def length(self, value):
        """A length field, sometimes in a longer form than needed."""
        if self.chance(0.85):
            return write_length(value)
        forms = [b"\x82" + value.to_bytes(2, "big")]
        if value < 0x100:
            forms.append(bytes([0x81, value]))
        return self.pick(forms)

    def broken(self, value, rest=b""):
        """A malformed length field in place of this one, and the rest if it is not cut off."""
        if self.chance(0.5):
            return self.pick((b"", b"\x81", b"\x82", b"\x82\x01"))
        return self.pick((b"\x80", bytes([0x80, value]), bytes([0x83, 0, 0, value]),
                          bytes([0x83, value]), bytes([0x84, 0, 0, 0, value]), b"\xFF")) + rest

    def large_length(self):
        """A length that is told in two bytes or three, and is more than is there."""
        return write_length(self.pick((0x80, 0xFF, 0x100, 0xFFFF)))

    def object(self, tag, number, data=b""):
        return bytes([tag]) + self.length(1 + len(data)) + bytes([number]) + data

    def status(self, key):
        value = self.pick((0x00, 0x00, 0x80, 0x80, 0x7F, 0xFF))
        return self.object(host.T_SB, key[1], bytes([value]))

    def tpdu(self, tag, key, data=None):
        """A TPDU; the objects that carry data carry an SPDU if not told otherwise."""
        if tag is None:
            return self.status(key)
        if tag not in DATA_OBJECTS:
            data = b""
        elif data is None:
            data = self.spdu(key)
        return self.object(tag, key[1], data) + self.status(key)

    def mutated(self, unit):
        """A unit with a byte or two changed, cut, added or lost."""
        unit = bytearray(unit)
        for _ in range(self.pick((1, 1, 2))):
            at = self.rng.randrange(len(unit) + 1)
            do = self.pick(("change", "change", "cut", "add", "lose", "append"))
            if do == "change" and unit:
                unit[at - 1] = self.pick((0x00, 0x01, 0x02, 0x80, 0x81, 0x82, 0xFF,
                                          self.rng.randrange(256)))
            elif do == "cut" and len(unit) > 1:
                del unit[max(at, 1):]
            elif do == "lose" and len(unit) > 1:
                del unit[at - 1]
            elif do == "add":
                unit.insert(at, self.rng.randrange(256))
            else:
                unit += self.some_bytes(1)
        return bytes(unit)

    def refusable(self, key):
        """A TPDU that is refused in most states, for what it is or what it carries."""
        connection = self.connection(key)
        if connection.state is not State.ACTIVE and self.chance(0.5):
            return self.tpdu(self.pick(MODULE_OBJECTS), key)
        left = host.MOST_DATA - len(connection.data)
        if left < 1000 and self.chance(0.5):
            return self.tpdu(self.pick(DATA_OBJECTS), key, bytes(left + 1))
        number = self.number(key)
        session = self.slot(key).sessions.get(number)
        head = b"\x90\x02" + number.to_bytes(2, "big")
        talk = 4 if session else 1
        do = self.weighted({"tpdu": 4, "spdu": 2, "apdu": 2 * talk, "body": talk, "wrong": 1})
        if do == "tpdu":
            return self.malformed_tpdu(key)
        if do == "wrong":
            return self.tpdu(self.pick((host.C_T_C_REPLY, host.D_T_C_REPLY)), key)
        spdu = {
            "spdu": lambda: self.malformed_spdu(key),
            "apdu": lambda: head + self.malformed_apdu(session),
            "body": lambda: head + self.apdu(session, 1),
        }[do]()
        return self.tpdu(host.T_DATA_LAST, key, spdu.removeprefix(connection.data))

    def refusable_rest(self, fragment, key):
        """A rest that makes the kept fragments a refusable TPDU, told from the right rest."""
        kept = self.connection(key).fragments
        units = (self.refusable(key) for _ in range(8))
        rests = (unit[len(kept):] for unit in units if unit.startswith(kept))
        return next(filter(None, rests), None) or self.mutated(fragment)

    def malformed_tpdu(self, key):
        number = key[1]
        stranger = self.pick((0, 3, host.other(number), 0xFF))
        single = self.pick(SINGLE_OBJECTS)
        data = self.pick(DATA_OBJECTS)
        either = self.pick((single, data))
        first = self.object(either, number)
        status = self.status(key)
        mine = self.pick((number, number, stranger))
        if self.chance(0.25):
            return self.pick((
                bytes([either]) + self.broken(1, bytes([number]) + status),
                self.pick((b"", first)) + b"\x80" + self.broken(2, bytes([number, 0])),
            ))
        return self.pick((
            lambda: bytes([self.pick(FOREIGN_TAGS), 1, number]) + status,
            lambda: first + bytes([self.pick(FOREIGN_TAGS), 2, number, 0]),
            lambda: first + self.object(single, number) + status,
            lambda: first,
            lambda: first + b"\x80" + self.large_length() + bytes([number, 0]),
            lambda: bytes([single, 0]) + status,
            lambda: bytes([single, 2, mine, number]) + status,
            lambda: bytes([single]) + self.length(2) + bytes([number, 0]) + status,
            lambda: bytes([data, 0]) + status,
            lambda: bytes([host.T_SB, 0]),
            lambda: first + b"\x80" + self.pick((bytes([1, mine]), bytes([3, mine, 0, 0]))),
            lambda: b"\x80" + self.pick((bytes([1, number]), bytes([3, number, 0, 0]))),
            lambda: bytes([data, 5, mine, 0xAA]),
            lambda: self.object(either, stranger) + status,
            lambda: first + self.object(host.T_SB, stranger, b"\x00"),
            lambda: self.object(host.T_SB, stranger, b"\x00") + self.pick((b"", b"\x00")),
            lambda: first + status + self.pick((b"\x00", status, first)),
            lambda: status + self.pick((b"\x00", status, first)),
            lambda: self.mutated(first + status),
            lambda: self.some_bytes(self.rng.randint(1, 12)),
        ))()

    def spdu(self, key):
        if self.chance(self.habits.malform):
            return self.malformed_spdu(key)
        opening, closing, talking = self.habits.session
        if not self.slot(key).numbers_on(key[1]) and self.chance(0.8):
            opening, closing, talking = 1, 0, 0
        do = self.weighted({"open": opening, "close": closing, "talk": talking})
        if do == "open":
            return b"\x91" + self.length(4) + self.identifier().to_bytes(4, "big")
        if do == "close":
            return b"\x95" + self.length(2) + self.number(key, 0.6).to_bytes(2, "big")
        number = self.number(key)
        head = b"\x90" + self.length(2) + number.to_bytes(2, "big")
        return head + self.apdu(self.slot(key).sessions.get(number))

    def malformed_spdu(self, key):
        number = self.number(key).to_bytes(2, "big")
        identifier = self.identifier().to_bytes(4, "big")
        if self.chance(0.25):
            return self.pick((
                b"\x91" + self.broken(4, identifier),
                bytes([self.pick((0x90, 0x95))]) + self.broken(2, number),
            ))
        return self.pick((
            lambda: bytes([self.pick(SPDU_TAGS)]) + b"\x02" + number,
            lambda: bytes([self.pick(SPDU_TAGS)]) + b"\x04" + identifier,
            lambda: bytes([self.pick(SPDU_TAGS), 7, 0]) + identifier + number,
            lambda: bytes([self.pick((0x90, 0x91, 0x95))]) + self.large_length() + identifier,
            lambda: b"\x91" + self.length(4) + identifier[:self.rng.randint(0, 3)],
            lambda: b"\x91" + self.length(4) + identifier + self.some_bytes(1),
            lambda: b"\x95" + self.length(2) + number[:self.rng.randint(0, 1)],
            lambda: b"\x95" + self.length(2) + number + self.some_bytes(self.pick((1, 5))),
            lambda: b"\x90" + self.length(2) + number[:self.rng.randint(0, 1)],
            lambda: b"\x91" + self.pick((b"\x05\x00" + identifier, b"\x03" + identifier[1:])),
            lambda: b"\x95" + self.pick((b"\x03\x00" + number, b"\x01" + number[1:])),
            lambda: b"\x90" + self.pick((b"\x03\x00" + number, b"\x01" + number[1:])),
            lambda: self.mutated(b"\x90\x02" + number + self.apdu(None)),
            lambda: self.some_bytes(self.rng.randint(1, 12)),
        ))()

    def long_spdu(self, key, total):
        """An SPDU of so many bytes, which a session may take."""
        head = b"\x90" + self.length(2) + self.number(key).to_bytes(2, "big")
        head += self.pick((host.PROFILE, 0x9F8000, 0x9F8000)).to_bytes(3, "big")
        body = total - len(head) - 3
        if body < 0 or self.chance(0.1):
            return bytes(total)
        return head + b"\x82" + body.to_bytes(2, "big") + bytes(body)

    def identifier(self):
        listed = self.pick((ANNOUNCED[0], *ANNOUNCED))
        if self.chance(0.65):
            return listed
        return self.pick((
            lambda: listed & ~0x3F | self.pick((0, 0, 1, 2, 2, 3, 0x3F)),
            lambda: listed ^ 1 << self.rng.randrange(32),
            lambda: listed | self.pick((1, 2, 3)) << 30,
            lambda: self.rng.randrange(1 << 32),
        ))()

    def number(self, key, odds=0.85):
        """A session number: open here, with these odds, or there, or not at all."""
        slot = self.slot(key)
        here = slot.numbers_on(key[1])
        there = slot.numbers_on(host.other(key[1]))
        if here and self.chance(odds):
            return self.pick(here)
        if there and self.chance(0.7):
            return self.pick(there)
        return self.pick((0, 1, 2, 15, 16, 17, 0xFFFF, self.rng.randrange(1 << 16),
                          0x0100 + self.pick(here or [1]), self.pick(here or [1]) << 8))

    def apdu(self, session, wrong=None):
        """An object for a session or any; its length is wrong with these odds."""
        if self.chance(self.habits.malform):
            return self.malformed_apdu(session)
        tag = self.apdu_tag(session)
        if self.chance(self.habits.wrong_body if wrong is None else wrong):
            body = self.wrong_body(tag)
        else:
            body = self.right_body(tag)
        return tag.to_bytes(3, "big") + self.length(len(body)) + body

    def apdu_tag(self, session):
        if session and self.chance(0.8):
            return self.pick(OWN_TAGS[session.identifier])
        return self.pick(APDU_TAGS)

    def right_body(self, tag):
        if tag == host.PROFILE:
            count = self.pick((31, 32, 64)) if self.chance(0.1) else self.rng.randrange(4)
            return self.some_bytes(4 * count)
        if tag == host.APPLICATION_INFORMATION:
            text = self.pick((121, 122, 250, 255)) if self.chance(0.2) else self.rng.randrange(9)
            return self.some_bytes(5) + bytes([text]) + self.some_bytes(text)
        if tag == host.TIME_ENQUIRY:
            return self.some_bytes(1)
        return b""

    def wrong_body(self, tag):
        body = self.right_body(tag)
        return self.pick((body[:-1], body + b"\x00", body + b"\x00\x00",
                          self.some_bytes(self.rng.randint(0, 9))))

    def malformed_apdu(self, session):
        tag = self.apdu_tag(session).to_bytes(3, "big")
        if self.chance(0.4):
            return self.pick((tag[:self.rng.randint(0, 2)], tag + self.broken(0),
                              tag + self.broken(4, bytes(4))))
        return self.pick((
            lambda: tag[:self.rng.randint(0, 3)],
            lambda: b"\x9E" + tag[1:] + b"\x00",
            lambda: bytes([0x9E]),
            lambda: bytes([0x9F, self.pick((0x00, 0x10, 0x7F)), 0x10, 0]),
            lambda: bytes([0x9F, self.pick((0x00, 0x7F))]),
            lambda: bytes([0x9F, 0x80, self.pick((0x80, 0x90, 0xFF)), 0]),
            lambda: bytes([0x9F, 0x80, self.pick((0x80, 0xFF))]),
            lambda: tag + self.large_length() + self.some_bytes(4),
            lambda: tag + self.length(5) + self.some_bytes(self.pick((0, 4, 6))),
            lambda: tag + self.length(0) + tag + b"\x00",
            lambda: self.mutated(tag + b"\x01\x00"),
        ))()


class BadLines(Dice):
    """Lines that are no calls."""

    def some_line(self):
        """A line that is wrong, passed over or odd."""
        number = self.pick((b"x", b"-1", b"+1", b"1.", b"0x1", b"1_0", b"\xb2", b"1\r1",
                            b"99999x", "\u0663".encode(), b"\x00"))
        large = self.pick((b"256", b"65536", b"0000300", b"99999999999999999999999",
                           b"18446744073709551616", b"4294967296"))
        byte = self.pick((b"0", b"000", b"GG", b"0x", b"+1", b"1_", b"-1", b"0A0B",
                          b"\xff\xff", b"1g"))
        call = self.pick((b"plug", b"pull", b"end", b"next", b"feed", b"expire", b"clock"))
        pair = self.pick((b"end", b"next", b"feed", b"expire"))
        return self.pick((
            lambda: b"",
            lambda: self.pick((b" ", b"\t", b" \t ", b"\r", b" \r")),
            lambda: self.pick((b"#", b"# plug 0 16", b"  #pull 0", b"\t# \xff\xfe", b"#\r")),
            lambda: self.pick((b"plugs 0 16", b"Plug 0 16", b"PULL 0", b"0", b"--help",
                               b"plug# 0 16", b"\x0bpull 0", b"\r\r", b"\xc3\xa9",
                               b"pull\x0c0", b"clock\x00")),
            lambda: self.pick((b"pull\r\r", b"pull 0\r\r", b"pull\r 0")),
            lambda: call,
            lambda: self.pick((b"end 0", b"next 1", b"feed 2", b"expire 3", b"plug 0", b"clock 00",
                               b"clock 00 00 12 00")),
            lambda: pair + b" " + number,
            lambda: pair + b" 0 " + number,
            lambda: pair + b" " + large,
            lambda: pair + b" 0 " + large,
            lambda: b"plug " + self.pick((number, large, b"0 " + number)),
            lambda: b"plug 0 " + self.pick((b"65536", b"70000", b"99999999999")),
            lambda: b"pull " + self.pick((number, large, b"0 0", b"0 #")),
            lambda: b"next 0 1 " + self.pick((number, b"65536", b"152 1", b"152 x")),
            lambda: b"end 0 1 " + self.pick((b"0", b"x", b"#")),
            lambda: b"expire 0 1 " + self.pick((b"0", b"x", b"#")),
            lambda: b"feed 0 1 01 00 " + byte,
            lambda: b"feed 0 1 " + byte + b" " + byte,
            lambda: b"clock 00 " + byte,
            lambda: b"clock " + byte + b" 00 00 00 00 00 00",
            lambda: call + b" " + self.pick((number, large)) + b" 1 2 3 4 5 6",
            lambda: b"clock 00 00 12 00 00 " + self.pick((b"00", b"x", b"#")),
            lambda: b"plug 9 " + b"0" * 5000 + b"16",
        ))()

    def long_line(self):
        """A line at the limit, or one byte past it."""
        length = self.pick((200000, 200001))
        line = self.pick((
            lambda: b"#".ljust(length, b"x"),
            lambda: b"".ljust(length, b" "),
            lambda: b"pull 5".ljust(length, self.pick((b" ", b"\t"))),
            lambda: b"next 0 1 ".ljust(length, b"9"),
            lambda: b"plug 4 ".ljust(length, b"0"),
            lambda: (b"feed 0 1 " + b"00 " * length)[:length],
            lambda: b"x" * length,
        ))()
        return line[:-1] + b"\r" if self.chance(0.4) else line


class Generator(Units, BadLines):
    """Writes lines and has them answered."""

    def __init__(self, seed, calls, shelf=None):
        self.shelf = shelf or Shelf()
        self.lines = []
        self.plans = {}  # by slot and connection, the LPDUs to feed
        self.go_on(seed, calls)

    def go_on(self, seed, calls):
        """Takes on the habits of a seed until there are so many calls in all."""
        self.rng = random.Random(seed)
        self.habits = Habits(self.rng)
        self.key = (self.habits.slots[0], 1)
        while self.shelf.calls < calls:
            self.step()

    def script(self):
        last = b"" if self.chance(0.1) else b"\n"
        return b"\n".join(self.lines) + last

    # Lines

    def write(self, line):
        self.lines.append(line)
        return self.shelf.answer(line) or ""

    def call(self, name, *words):
        """Writes a call; the answer tells whether it was served."""
        words = [name, *(self.word(word) for word in words)]
        line = " ".join(words)
        if self.chance(self.habits.untidy):
            line = self.untidy(words)
        return "refused" not in self.write(line.encode())

    def word(self, word):
        if isinstance(word, int):
            zeros = "0" * self.pick((1, 2, 9)) if self.chance(self.habits.untidy / 8) else ""
            return f"{zeros}{word}"
        text = word.hex(" ")
        return text if self.chance(self.habits.untidy) else text.upper()

    def untidy(self, words):
        """Joins words in a way that does no harm."""
        blanks = (" ", "  ", "\t", " \t ", "   ")
        line = "".join(word + self.pick(blanks) for word in words)
        line = self.pick(("", " ", "\t")) + line.replace(" ", self.pick(blanks))
        return line + self.pick(("", "\r", " \r"))

    # Steps

    def step(self):
        if self.chance(self.habits.bad_line):
            self.write(self.long_line() if self.chance(0.04) else self.some_line())
        elif self.chance(self.habits.clock):
            self.call("clock", self.time())
        elif self.chance(self.habits.stray):
            self.stray()
        else:
            if self.chance(self.habits.restless):
                self.key = self.some_key()
            self.advance(self.key)

    def some_key(self):
        return self.pick(self.habits.slots), 2 if self.chance(self.habits.second) else 1

    def advance(self, key):
        """Does what comes next on a connection."""
        connection = self.connection(key)
        if not self.slot(key).present:
            if connection.turn_out and self.chance(0.6):
                self.any_call(key)
            else:
                self.call("plug", key[0], self.pick(self.habits.sizes))
        elif self.chance(self.habits.hasty / (5 if connection.state in SETTLED else 1)):
            self.any_call(key)
        elif self.chance(self.habits.leave / 2):
            self.call("pull", key[0])
        elif connection.turn_out and connection.state in host.HEARING:
            self.respond(key)
        elif connection.turn_out and not self.chance(self.habits.patience):
            self.any_call(key)
        elif connection.state is State.IDLE:
            self.revive(key)
        elif connection.state is State.ACTIVE and self.chance(self.habits.end):
            self.call("end", *key)
        elif connection.turn_out:
            self.any_call(key)
        else:
            self.next(key)

    def any_call(self, key):
        """Makes a call that the connection may not wait for."""
        do = self.weighted({"next": 2, "end": 1, "feed": 3, "expire": 2, "plug": 1, "pull": 1})
        if do == "feed":
            tpdu = self.tpdu(self.pick(MODULE_OBJECTS), key)
            self.call("feed", *key, bytes([key[1], 0]) + tpdu)
        elif do == "plug":
            self.call("plug", key[0], self.pick(self.habits.sizes))
        elif do == "pull":
            self.call("pull", key[0])
        else:
            self.call(do, *key)

    def revive(self, key):
        """Brings an Idle connection closer to Active."""
        asking = (key[0], host.other(key[1]))
        connection = self.connection(asking)
        if self.chance(0.1):
            self.call(self.pick(("next", "end", "expire")), *key)
        elif connection.state is State.IDLE:
            self.call("pull", key[0])
        else:
            hears = connection.state is State.ACTIVE and connection.turn_out
            if hears and not connection.fragments:
                self.plans[asking] = self.lpdus(self.tpdu(host.REQUEST_T_C, asking), asking)
            self.advance(asking)

    def next(self, key):
        if self.connection(key).state is not State.ACTIVE:
            self.plans.pop(key, None)
        fit = len(self.shelf.host.due(*key))
        if fit > self.slot(key).size:
            self.call("next", *key, self.pick((fit, fit - 1, 152)))
        elif self.chance(self.habits.room):
            room = self.pick((fit, fit, fit - 1, fit - 1, fit + 1, 0, 2, 151, 152, 65535))
            self.call("next", *key, room)
        else:
            self.call("next", *key)

    # Feeding

    def respond(self, key):
        """Feeds one LPDU where the turn is out and the state hears."""
        if not self.plans.get(key):
            if self.connection(key).fragments and self.chance(0.3):
                self.call("expire", *key)
                return
            self.plans[key] = self.plan(key)
        plan = self.plans[key]
        connection = self.connection(key)
        active = connection.state is State.ACTIVE
        spoil = self.habits.spoil * (2 if connection.fragments or connection.data else 1)
        if self.chance(self.habits.leave / 2 if active else 0.04):
            self.call("expire", *key)
        elif self.chance(max(spoil, 0.5 if len(connection.data) > 1000 else 0)):
            if self.call("feed", *key, self.spoiled(plan[0], key)):
                plan.clear()
        elif not self.call("feed", *key, plan.popleft()):
            plan.clear()

    def plan(self, key):
        """LPDUs for the module to answer with, this turn and perhaps later ones."""
        connection = self.connection(key)
        if connection.fragments:
            return deque(self.rest_of_fragments(key))
        if self.chance(self.habits.malform / 3):
            return self.lpdus(self.refusable(key), key)
        if connection.state is State.CREATING:
            return self.reply_plan(host.C_T_C_REPLY, key)
        if connection.state is State.DELETING:
            return self.reply_plan(host.D_T_C_REPLY, key)
        if connection.data:
            return self.rest_of_data(key)
        return self.active_plan(key)

    def reply_plan(self, right, key):
        if self.chance(self.habits.right):
            return self.lpdus(self.tpdu(right, key), key)
        return self.lpdus(self.tpdu(self.pick(MODULE_OBJECTS), key), key, self.habits.cut / 5)

    def active_plan(self, key):
        if self.chance(self.habits.limit):
            return self.limit_plan(key)
        beside = self.slot(key).connections[host.other(key[1])]
        settled = beside.state in SETTLED
        do = self.weighted({
            "data": 80, "status": 8, "none": 2, "wrong": 3,
            "request": 2 if settled else 20,
            "delete": 200 * self.habits.leave,
        })
        if do == "data":
            return self.data_plan(self.spdu(key), key)
        if do == "none":
            return self.lpdus(self.tpdu(host.T_DATA_LAST, key, b""), key)
        if do == "wrong":
            tag = self.pick((host.C_T_C_REPLY, host.D_T_C_REPLY))
            return self.lpdus(self.tpdu(tag, key), key, self.habits.cut / 5)
        tag = {"status": None, "request": host.REQUEST_T_C, "delete": host.DELETE_T_C}[do]
        return self.lpdus(self.tpdu(tag, key), key)

    def limit_plan(self, key):
        """A TPDU about as long as fragments may be, or data about as long as data may be."""
        roomy = self.slot(key).size >= 100
        if roomy and self.chance(0.6):
            spdu = self.long_spdu(key, self.pick((2047, 2048, 2049, 2049)))
            return self.data_plan(spdu, key, self.pick(DATA_OBJECTS))
        # Below, the tag, three bytes of length, the id and the status take nine bytes.
        total = self.pick((1023, 1024, 1024, 1025))
        if not roomy and self.chance(0.7):
            total = 150
        tag = self.pick(DATA_OBJECTS)
        return self.lpdus(self.tpdu(tag, key, self.long_spdu(key, total - 9)), key)

    def data_plan(self, spdu, key, last=host.T_DATA_LAST):
        """The LPDUs of an SPDU, in one TPDU or chained."""
        chunks = [spdu]
        if len(spdu) > 1000 or self.chance(self.habits.chain):
            furthest = min(len(spdu), self.pick((4, len(spdu))))
            cuts = sorted(self.rng.randint(0, furthest) for _ in range(self.pick((1, 1, 2, 3))))
            if len(spdu) > 1000:
                cuts = sorted(cuts[:1] + list(range(1000, len(spdu), 1000)))
            chunks = [spdu[a:b] for a, b in zip([0, *cuts], [*cuts, len(spdu)])]
        plan = deque()
        for chunk in chunks[:-1]:
            plan += self.lpdus(self.tpdu(host.T_DATA_MORE, key, chunk), key)
        plan += self.lpdus(self.tpdu(last, key, chunks[-1]), key)
        return plan

    def rest_of_data(self, key):
        """What follows data of which the plan was lost."""
        kept = len(self.connection(key).data)
        left = host.MOST_DATA - kept
        do = self.weighted({"last": 3, "more": 1, "limit": 3, "status": 1, "delete": 2})
        if do == "last":
            data = self.some_bytes(self.pick((0, 0, 1, 4)))
            return self.lpdus(self.tpdu(host.T_DATA_LAST, key, data), key)
        if do == "more":
            data = self.some_bytes(self.pick((0, 1, 10)))
            return self.lpdus(self.tpdu(host.T_DATA_MORE, key, data), key)
        if do == "limit" and left < 1000:
            tag = self.pick(DATA_OBJECTS)
            data = bytes(left + self.pick((0, 1, 1)))
            return self.lpdus(self.tpdu(tag, key, data), key)
        tag = host.DELETE_T_C if do == "delete" else None
        return self.lpdus(self.tpdu(tag, key), key)

    def rest_of_fragments(self, key):
        """What follows fragments of which the plan was lost."""
        kept = self.connection(key).fragments
        step = self.slot(key).size - 2
        more, last = bytes([key[1], 0x80]), bytes([key[1], 0x00])
        do = self.weighted({"status": 3, "whole": 3, "limit": 2, "any": 2})
        if do == "limit":
            left = host.MOST_FRAGMENTS - len(kept)
            if left <= 8 * step:
                filler = [more + bytes(min(step, left - at)) for at in range(0, left, step)]
                return [*filler, self.pick((more, last)) + b"\x00"]
        if do == "whole":
            missing = self.missing(kept)
            if 0 < missing <= 8 * step:
                return write_lpdus(bytes(missing) + self.status(key), key[1], step + 2)
        if do == "any":
            return [self.pick((more, last)) + self.some_bytes(self.rng.randint(1, min(step, 20)))]
        return [last + self.status(key)]

    def missing(self, fragments):
        """How many bytes the object that the fragments begin still lacks."""
        reader = host.Reader(fragments)
        try:
            reader.byte()
            length = reader.length()
        except host.Fault:
            return 0
        return reader.offset + length - len(fragments)

    def lpdus(self, tpdu, key, cut=None):
        """Cuts a TPDU into LPDUs, of the agreed size or, with these odds, smaller."""
        size = self.slot(key).size
        if self.chance(self.habits.cut if cut is None else cut):
            least = 3 + len(tpdu) // 10
            size = self.rng.randint(min(least, size), min(size, least + 20))
            if self.chance(0.2):  # its tag alone goes first
                return deque([bytes([key[1], 0x80, tpdu[0]]), *write_lpdus(tpdu[1:], key[1], size)])
        return deque(write_lpdus(tpdu, key[1], size))

    def spoiled(self, lpdu, key):
        """An LPDU that is likely to be refused."""
        size = self.slot(key).size
        number, mark, fragment = lpdu[:1], lpdu[1:2], lpdu[2:]
        bad_number = bytes([self.pick((0, 3, host.other(key[1]), 0x81, 0xFF))])
        bad_mark = bytes([self.pick((0x01, 0x40, 0x7F, 0x81, 0xC0, 0xFF))])
        do = self.weighted({"short": 1, "long": 1, "connection": 1, "mark": 1,
                            "unit": 12, "limit": 2})
        if do == "short":
            head = self.pick((number, bad_number)) + self.pick((mark, bad_mark))
            return head[:self.rng.randint(0, 2)]
        if do == "long" and (size < 2100 or self.chance(0.05)):
            head = self.pick((number, number, bad_number)) + self.pick((mark, bad_mark))
            return (head + fragment).ljust(size + 1, b"\x00")
        if do == "mark":
            return number + bad_mark + fragment
        if do == "unit":
            mutated = self.chance(0.2)
            unit = self.mutated(fragment) if mutated else self.refusable_rest(fragment, key)
            return number + b"\x00" + unit[:size - 2]
        if do == "limit":
            kept = len(self.connection(key).fragments)
            wanted = host.MOST_FRAGMENTS + 1 - kept
            if wanted <= size - 2:
                wanted = size - 2 if self.chance(0.1) else wanted
                return number + self.pick((b"\x00", b"\x80")) + fragment.ljust(wanted, b"\x00")
        return bad_number + self.pick((mark, bad_mark)) + fragment

    # Calls out of place

    def stray(self):
        key = self.some_key()
        if self.chance(0.2):
            key = (self.rng.randrange(host.SLOTS), self.pick((1, 2)))
        leaving = 10 * self.habits.leave
        weights = {"plug": 3, "pull": 0.1 + 2 * leaving, "end": 0.5 + leaving,
                   "next": 3, "feed": 3, "expire": 0.1 + leaving}
        if not self.slot(key).present:
            weights = {"plug": 3, "pull": 3, "end": 2, "next": 2, "feed": 2, "expire": 1}
        if self.chance(0.2):
            key = self.pick(((4, 1), (255, 0), (key[0], 0), (key[0], 3), (key[0], 255), (5, 2)))
            weights = {"plug": 1, "pull": 1 if key[0] > 3 else 0, "end": 1,
                       "next": 1, "feed": 1, "expire": 1}
        do = self.weighted(weights)
        if do == "plug":
            size = self.pick((0, 1, 3, 15, 16, 17, 65535, *self.habits.sizes))
            self.call("plug", key[0], size)
        elif do == "pull":
            self.call("pull", key[0])
        elif do == "next":
            self.call("next", *key, self.pick((0, 4, 5, 152)))
        elif do == "feed":
            self.call("feed", *key, self.some_bytes(self.rng.randint(0, 20)))
        else:
            self.call(do, *key)

    def time(self):
        day = self.some_bytes(2)
        parts = [self.digits(23), self.digits(59), self.digits(59)]
        if self.chance(0.4):
            bad = (0x0A, 0xA0, 0x1F, 0x60, 0x99, 0xFF, 0x24, 0x5A, 0x2A)
            parts[self.rng.randrange(3)] = self.pick(bad)
        return day + bytes(parts)

    def digits(self, limit):
        value = self.pick((0, limit, self.rng.randint(0, limit)))
        return value // 10 << 4 | value % 10


def main():
    seed, calls = map(int, sys.argv[1:])
    sys.stdout.buffer.write(Generator(seed, calls).script())


if __name__ == "__main__":
    main()
