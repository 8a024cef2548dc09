"""Reads a call a line on standard input and prints an answer a line."""

import sys
from typing import NamedTuple

from host import (ApplicationInformation, DateTime, Host, Pair, Refusal,
                  ResourceManager, SLOTS, Turn)

MOST_LINE = 200000
MOST_PLACE = 255
MOST_SIZE = 65535
ROOM = 152
ANNOUNCED = (0x00010041, 0x00020041, 0x00240041)

TOO_LONG = "longer than 200000 bytes"
NO_CALL = "no such call; --help lists them"
MISSING = "a word is missing; --help shows the form"
NOT_DECIMAL = "a number is written in decimal digits"
TOO_LARGE = ("a number is too large: slots and connections end at 255, "
             "sizes and rooms at 65535")
NOT_HEX = "a byte is written as two hexadecimal digits"
LEFT_OVER = "more words than the call takes; --help shows the form"

DIGITS = b"0123456789abcdefABCDEF"
BYTES = {bytes([high, low]): int(bytes([high, low]), 16)
         for high in DIGITS for low in DIGITS}


class BadLine(Exception):
    """A line that is no call; the text says what is wrong."""


class Words:
    """The words of a line, read forward."""

    def __init__(self, line):
        self.left = [w for w in line.replace(b"\t", b" ").split(b" ") if w]
        self.left.reverse()

    def word(self):
        if not self.left:
            raise BadLine(MISSING)
        return self.left.pop()

    def number(self, limit):
        word = self.word()
        if not word.isdigit():
            raise BadLine(NOT_DECIMAL)
        digits = word.lstrip(b"0") or b"0"
        if len(digits) > len(str(limit)) or int(digits) > limit:
            raise BadLine(TOO_LARGE)
        return int(digits)

    def byte(self):
        word = self.word()
        if word not in BYTES:
            raise BadLine(NOT_HEX)
        return BYTES[word]

    def finish(self):
        if self.left:
            raise BadLine(LEFT_OVER)


class Call(NamedTuple):
    """A call: its name, the slot and connection it names, and the rest."""

    name: str
    place: tuple
    argument: int | bytes | None


def read_call(line):
    """The call of a line, or none where the line is passed over."""
    if len(line) > MOST_LINE:
        raise BadLine(TOO_LONG)
    words = Words(line.removesuffix(b"\r"))
    if not words.left or words.left[-1].startswith(b"#"):
        return None
    name = words.word()
    if name not in FORMS:
        raise BadLine(NO_CALL)
    call = Call(name.decode(), *FORMS[name](words))
    words.finish()
    return call


def clock_form(words):
    return (), bytes(words.byte() for _ in range(5))


def slot_form(words):
    return (words.number(MOST_PLACE),), None


def plug_form(words):
    place, _ = slot_form(words)
    return place, words.number(MOST_SIZE)


def connection_form(words):
    return (words.number(MOST_PLACE), words.number(MOST_PLACE)), None


def next_form(words):
    place, _ = connection_form(words)
    return place, words.number(MOST_SIZE) if words.left else ROOM


def feed_form(words):
    place, _ = connection_form(words)
    return place, bytes(words.byte() for _ in range(len(words.left)))


FORMS = {
    b"clock": clock_form,
    b"plug": plug_form,
    b"pull": slot_form,
    b"end": connection_form,
    b"next": next_form,
    b"feed": feed_form,
    b"expire": connection_form,
}


def hexadecimal(data):
    return data.hex(" ").upper()


class Shelf:
    """A host with the turns that it handed out, and the counts of lines."""

    def __init__(self):
        self.host = Host(Pair(Pair(ResourceManager(ANNOUNCED),
                                   ApplicationInformation()),
                              DateTime()))
        self.turns = set()
        self.lines = 0
        self.calls = 0

    def answer(self, line):
        """The answer to a line without its newline, or none."""
        self.lines += 1
        try:
            call = read_call(line)
        except BadLine as wrong:
            return f"line {self.lines}: {wrong}"
        if call is None:
            return None
        self.calls += 1
        return " ".join(map(str, (self.calls, call.name, *call.place,
                                  self.outcome(call))))

    def outcome(self, call):
        try:
            return self.serve(call)
        except Refusal as refusal:
            kind = "" if refusal.kind is None else f" {refusal.kind}"
            return f"refused {refusal.number}{kind}"

    def serve(self, call):
        if call.name == "clock":
            self.host.clock(call.argument)
        elif call.name == "plug":
            self.host.plug(*call.place, call.argument)
        elif call.name == "pull":
            self.host.pull(*call.place)
        elif call.name == "end":
            self.host.end(*call.place)
        elif call.name == "next":
            return self.next(*call.place, call.argument)
        elif call.name == "feed":
            return self.feed(self.held(*call.place), call.argument)
        else:
            self.expire(self.held(*call.place))
        return "ok"

    def next(self, slot, connection, room):
        lpdus, turn = self.host.next(slot, connection, room)
        if turn is not None:
            self.turns.add(turn)
        return f"sent {hexadecimal(lpdus)}"

    def feed(self, turn, lpdu):
        if self.host.feed(turn, lpdu) is not None:
            return "more"
        self.turns.remove(turn)
        return "ok"

    def expire(self, turn):
        self.host.expire(turn)
        self.turns.remove(turn)

    def held(self, slot, connection):
        """The turn held for a connection, or a refusal."""
        if slot >= SLOTS:
            raise Refusal(1)
        if connection not in (1, 2):
            raise Refusal(2)
        turn = Turn(slot, connection)
        if turn not in self.turns:
            raise Refusal(5)
        return turn

    def close(self):
        """The lines at the end of input: sessions left, then turns expired."""
        lines = [f"session {at} {session.connection} {number} {session.identifier:08X}"
                 for at, slot in enumerate(self.host.slots)
                 for number, session in sorted(slot.sessions.items())]
        for turn in sorted(self.turns):
            self.expire(turn)
            lines.append(f"turn {turn.slot} {turn.connection} expired")
        return lines


def play(shelf, lines):
    """What a shelf prints for the lines that it reads, to their end."""
    for line in lines:
        answer = shelf.answer(line.removesuffix(b"\n"))
        if answer is not None:
            yield answer
    yield from shelf.close()


def main():
    for line in play(Shelf(), sys.stdin.buffer):
        print(line, flush=True)


if __name__ == "__main__":
    main()
