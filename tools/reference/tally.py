"""Counts what the lines of a script reach.

A watched shelf answers as any other does. What a call reaches has a name, told from its bytes, its
answer, the slot before and after it, and what earlier calls left. GROUPS lists all names.
"""

from collections import Counter
from dataclasses import dataclass, field, replace
from itertools import product

import host
import shelf
from host import Fault, Reader, State
from shelf import Call, Shelf

CONNECTIONS = (1, 2)
NONE_MET = 18  # one more than the last refusal


@dataclass
class Past:
    """What earlier calls left, by slot and connection or slot and session number."""

    refusals: dict = field(default_factory=dict)  # of the last feed of a turn
    ends: dict = field(default_factory=dict)  # what ended the last session
    profiles: dict = field(default_factory=dict)  # what came of each 9F8011 of an open session
    profiled: dict = field(default_factory=dict)  # what ended one whose 9F8011 was answered
    lower: set = field(default_factory=set)  # sessions asked for in a lower version than is listed
    clock_refused: bool = False  # since a clock call was served


@dataclass
class Event:
    """A call and its answer, with a copy of the slot that it names, if any, before the call."""

    call: Call
    answer: str
    before: host.Slot | None
    host: host.Host
    past: Past

    @property
    def slot(self):
        return self.call.place[0]

    @property
    def number(self):
        """The connection that the call names."""
        return self.call.place[1]

    @property
    def after(self):
        return self.host.slots[self.slot]

    @property
    def connection(self):
        """The connection before the call."""
        return self.before.connections[self.number]

    @property
    def connection_after(self):
        return self.after.connections[self.number]

    @property
    def served(self):
        return not self.answer.startswith("refused")

    @property
    def refusal(self):
        """The number of the refusal, or one more than the last."""
        return NONE_MET if self.served else int(self.answer.split(" ")[1])


class Watched(Shelf):
    """A shelf that counts what it meets."""

    def __init__(self):
        super().__init__()
        self.seen = Counter()
        self.past = Past()

    def answer(self, line):
        answer = super().answer(line)
        if answer is None:
            self.seen["line passed over"] += 1
        elif answer.startswith("line "):
            self.seen["line " + answer.partition(": ")[2]] += 1
        if len(line) == shelf.MOST_LINE:
            self.seen["line of 200000 bytes"] += 1
        return answer

    def outcome(self, call):
        before = self.copy_of_slot(call)
        answer = super().outcome(call)
        self.seen.update(reached(Event(call, answer, before, self.host, self.past)))
        return answer

    def copy_of_slot(self, call):
        if not call.place or call.place[0] >= host.SLOTS:
            return None
        slot = self.host.slots[call.place[0]]
        connections = {n: replace(connection) for n, connection in slot.connections.items()}
        return host.Slot(slot.size, connections, dict(slot.sessions))

    def close(self):
        for slot, connection in self.turns:
            self.seen[f"end of input in {standing(self.host.slots[slot], connection)}"] += 1
        if self.past.lower:
            self.seen["report of a session asked for in a lower version"] += 1
        return super().close()


def reached(event):
    """The names of all that a call reached."""
    name = event.call.name
    yield f"{name} sent" if event.answer.startswith("sent") else f"{name} {event.answer}"
    if name == "clock":
        yield from clock_names(event)
    elif event.before:
        yield from session_names(event)
        if name == "plug":
            yield from plug_names(event)
        elif name == "pull":
            yield from pull_names(event)
        elif event.number in CONNECTIONS:
            yield f"{name} in {standing(event.before, event.number)}"
            if name == "next":
                yield from next_names(event)
            elif name == "feed":
                yield from feed_names(event)


def standing(slot, number):
    """How a connection stands: its state, and whether its turn is out."""
    connection = slot.connections[number]
    state = connection.state.value if slot.present else "an absent slot"
    return state + (", turn out" if connection.turn_out else "")


def clock_names(event):
    event.past.clock_refused = not event.served
    time = event.call.argument[2:]
    if time == b"\x23\x59\x59":
        yield "clock 23 59 59"
    for part, value, past in zip(("hour", "minute", "second"), time, (0x24, 0x60, 0x60)):
        if value == past:
            yield f"clock of {part} {past:02X}"
        elif value & 0x0F > 9:
            yield f"clock of {part} with a letter"


def plug_names(event):
    if event.call.argument in (15, 16, 65535):
        yield f"plug of size {event.call.argument}"
    out = [n for n in CONNECTIONS if event.before.connections[n].turn_out]
    if out and event.served:
        yield f"plug with turn {' and '.join(map(str, out))} out"


def pull_names(event):
    for number in CONNECTIONS:
        yield f"pull in {standing(event.before, number)}"


def session_names(event):
    before, after, past = event.before.sessions, event.after.sessions, event.past
    if len(before) < len(after) == host.PLACES:
        yield "sixteen sessions at once"
        if len({session.connection for session in after.values()}) == 2:
            yield "sixteen sessions over both connections"
    if len(after) < len(before):
        yield f"sessions ended by {ending(event)}" + (", others stay" if after else "")
    for number in after.keys() - before.keys():
        if (event.slot, number) in past.ends:
            yield f"number given anew after {past.ends[event.slot, number]}"
    if event.call.name == "pull" and event.served:
        past.ends = {place: end for place, end in past.ends.items() if place[0] != event.slot}
        past.profiled |= {place: "pull" for place in past.profiled if place[0] == event.slot}
    for number in before.keys() - after.keys():
        place = event.slot, number
        past.ends[place] = ending(event)
        past.lower.discard(place)
        if "answered" in past.profiles.pop(place, ()):
            past.profiled[place] = ending(event)


def ending(event):
    """What ended sessions: a call, or the object or unit that was fed."""
    if event.call.name != "feed":
        return event.call.name
    return "95" if event.connection_after.state is State.ACTIVE else "84"


# Commands


def next_names(event):
    room = event.call.argument
    if event.served:
        event.past.refusals.pop(event.call.place, None)
        lpdus = bytes.fromhex(event.answer.removeprefix("sent "))
        yield f"next sent {command(lpdus, event.connection)} on {event.number}"
        if room == len(lpdus):
            yield f"room of just enough for {lpdu_count(lpdus, event)}"
    elif event.refusal == 7:
        lpdus = event.host.due(*event.call.place)
        if room == len(lpdus) - 1:
            yield f"room of one less for {lpdu_count(lpdus, event)}"


def lpdu_count(lpdus, event):
    return "one LPDU" if len(lpdus) <= event.before.size else "several LPDUs"


def command(lpdus, connection):
    """What the LPDUs of a command carry, told from the first of them."""
    tag, spdu = lpdus[2], lpdus[5:]
    if tag != host.T_DATA_LAST or not spdu:
        return f"{tag:02X}"
    if spdu[0] == host.SESSION_NUMBER:
        kind = "greeting" if connection.owed is None else "reply"
        return f"{kind} {spdu[4:7].hex().upper()}"
    return f"{spdu[0]:02X} {spdu[2]:02X}"


# What is fed


def feed_names(event):
    lpdu = event.call.argument
    yield from names_after_refusals(event)
    if event.answer == "refused 9 long" and len(lpdu) == event.before.size + 1:
        yield "LPDU of one byte more than agreed"
    if event.answer == "refused 9 short" and len(lpdu) == 2:
        yield "LPDU of 2 bytes"
    if event.refusal > 9:
        if len(lpdu) == event.before.size:
            yield "LPDU of the agreed size"
        if len(lpdu) == 3:
            yield "LPDU of 3 bytes"
        fragments = event.connection.fragments + lpdu[2:]
        last = lpdu[1] == 0x00
        if len(fragments) in (host.MOST_FRAGMENTS, host.MOST_FRAGMENTS + 1):
            yield f"{len(fragments)} fragment bytes, {'last' if last else 'more'}"
        if last and event.refusal > 10:
            yield from tpdu_names(event, fragments)


def names_after_refusals(event):
    """What a turn that came back from a refused feed is fed then, on top of what was kept."""
    refusals, place = event.past.refusals, event.call.place
    if event.served and place in refusals:
        refusal = refusals.pop(place)
        yield f"fed on after {refusal}"
        if event.connection.fragments:
            yield f"fragments joined after a refused {REFUSED[refusal]}"
        after = event.connection_after
        if event.connection.data and not after.data and after.state is State.ACTIVE:
            yield f"data read after a refused {REFUSED[refusal]}"
    elif 9 <= event.refusal < NONE_MET:
        refusals[place] = event.refusal


def tpdu_names(event, fragments):
    state = event.connection.state
    tpdu, reader = noted(host.read_tpdu, fragments, event.number)
    tags = [fragments[0], host.T_SB][:len(reader.lengths)]
    for tag, (form, length) in zip(tags, reader.lengths):
        yield f"length of {'status' if tag == host.T_SB else 'object'} {form}"
        yield from near_names(tag, length)
    if not tpdu:
        yield f"{state.value} met {event.answer.removeprefix('refused ')}"
        yield from transport_fault_names(event, tags, reader)
        return
    name = named(tpdu.tag, TAGS)
    yield f"{state.value} met {name} on {event.number}"
    if event.connection.fragments:
        yield f"{name} in fragments"
    if tpdu.tag in (host.T_DATA_LAST, host.T_DATA_MORE) and event.refusal > 12:
        yield from data_names(event, tpdu)


def transport_fault_names(event, tags, reader):
    """How a TPDU is malformed, of which objects of these tags were read."""
    rest = reader.unit[reader.offset:]
    if event.answer == "refused 11 tag":
        yield f"11 tag: {'no status' if tags else named(reader.unit[0], HOST_OBJECTS)}"
    elif event.answer == "refused 11 length" and tags:
        length = reader.lengths[-1][1] or 0
        if 0 < len(rest) < length and rest[0] != event.number:
            yield "11 length before content"
    elif event.answer == "refused 11 content" and tags[-1] == host.T_SB and rest:
        yield "11 content before length"


def near_names(tag, length):
    """Lengths that a tag does not allow, next to one that it does."""
    if length in NEAR.get(tag, ()):
        yield f"{tag:02X} of length {length}"


def named(tag, tags):
    """A tag by its digits, if it is among these."""
    if tag is None:
        return "a status alone"
    return f"{tag:02X}" if tag in tags else "any other"


def data_names(event, tpdu):
    waiting = event.connection.data
    data = waiting + tpdu.data
    if len(data) in (host.MOST_DATA, host.MOST_DATA + 1):
        yield f"{len(data)} data bytes, {tpdu.tag:02X}"
    if not tpdu.data:
        yield f"{tpdu.tag:02X} without data, {'some' if waiting else 'none'} waiting"
    if data and tpdu.tag == host.T_DATA_LAST and event.refusal > 13:
        yield from spdu_names(event, data)


def spdu_names(event, data):
    spdu, reader = noted(host.read_spdu, data)
    for form, length in reader.lengths:
        yield f"length of SPDU {form}"
        yield from near_names(data[0], length)
    if not spdu:
        if event.answer == "refused 14 tag":
            yield f"14 tag: {named(data[0], HOST_UNITS)}"
        return
    if event.connection.data:
        fragments = " and in fragments" if event.connection.fragments else ""
        yield f"{spdu.tag:02X} in a chain{fragments}"
    if spdu.tag == host.OPEN_SESSION_REQUEST:
        if len(event.before.sessions) == host.PLACES:
            yield f"91 with sixteen sessions owes {event.connection_after.owed[5]:02X}"
        for number in event.after.sessions.keys() - event.before.sessions.keys():
            if spdu.value != event.after.sessions[number].identifier:
                event.past.lower.add((event.slot, number))
    else:
        yield f"{spdu.tag:02X} for a session {whereabouts(event, spdu.value)}"
    if spdu.tag == host.SESSION_NUMBER and event.refusal > 15:
        yield from apdu_names(event, spdu)


def whereabouts(event, number):
    if event.before.session_on(event.number, number):
        return "of this connection"
    return "of the other connection" if number in event.before.sessions else "that is not open"


def apdu_names(event, spdu):
    apdu, reader = noted(host.read_apdu, spdu.body)
    yield from (f"length of APDU {form}" for form, _ in reader.lengths)
    if len(spdu.body) < 3:
        yield f"APDU of {beginning(*spdu.body)}"
    elif spdu.body[3:] == b"\x80":
        yield "APDU of a tag and 80"
    if apdu:
        identifier = event.before.sessions[spdu.value].identifier
        tag = named(apdu.tag, OBJECTS[identifier])
        answered = event.connection_after.owed is not None
        fate = "refused" if not event.served else "answered" if answered else "passed"
        yield f"{identifier:08X} {tag} {fate}"
        if tag == "9F8440" and fate == "answered" and event.past.clock_refused:
            yield "9F8440 answered after a clock call was refused"
        if tag == "9F8011":
            yield from profile_names(event, spdu.value, fate)


def beginning(first=None, second=None):
    """What the bytes of a cut APDU tell of its tag."""
    if first is None:
        return "no bytes"
    if first != 0x9F:
        return "another byte than 9F"
    if second is None:
        return "9F alone"
    return f"9F and a byte {'from' if second >= 0x80 else 'below'} 80"


def profile_names(event, number, fate):
    """What a session's 9F8011 came after."""
    past, place = event.past, (event.slot, number)
    if fate == "answered":
        if "refused" in past.profiles.get(place, ()):
            yield "9F8011 answered after one was refused"
        if place in past.profiled:
            cause = "a pull" if past.profiled[place] == "pull" else "its end"
            yield f"9F8011 answered again for a number given anew after {cause}"
        if any("answered" in fates for other, fates in past.profiles.items()
               if other[0] == event.slot):
            yield "9F8011 answered in another session of the slot too"
    past.profiles.setdefault(place, []).append(fate)


class NotingReader(Reader):
    """Notes each length that it reads, with its form."""

    def __init__(self, unit):
        super().__init__(unit)
        self.lengths = []

    def length(self):
        start = self.offset
        try:
            length = super().length()
        except Fault:
            self.lengths.append((malformed_form(self.unit[start:]), None))
            raise
        self.lengths.append((good_form(self.unit[start:self.offset], length), length))
        return length


def noted(read, unit, *arguments):
    """What is read of a unit, none where it is malformed, and the reader."""
    reader = NotingReader(unit)
    try:
        return read(reader, *arguments), reader
    except Fault:
        return None, reader


def good_form(field, length):
    form = "in one byte" if len(field) == 1 else f"{field[0]:02X}"
    return form if field == host.write_length(length) else f"{form} where less would do"


def malformed_form(rest):
    if not rest:
        return "missing"
    if rest[0] in (0x81, 0x82):
        return f"{rest[0]:02X} cut off"
    return f"{rest[0]:02X}" if rest[0] in (0x80, 0x83) else "84 to FF"


# All names


# The tags that a resource answers or keeps.
OBJECTS = {
    host.ResourceManager.identifier:
        (host.PROFILE_ENQUIRY, host.PROFILE, host.PROFILE_CHANGE),
    host.ApplicationInformation.identifier: (host.APPLICATION_INFORMATION,),
    host.DateTime.identifier: (host.TIME_ENQUIRY,),
}

# The objects of a module's TPDU, none for a status alone.
TAGS = (host.C_T_C_REPLY, host.DELETE_T_C, host.D_T_C_REPLY, host.REQUEST_T_C,
        host.T_DATA_LAST, host.T_DATA_MORE, None)

# What only a host sends.
HOST_OBJECTS = (host.T_RCV, host.CREATE_T_C, host.NEW_T_C, host.T_C_ERROR)
HOST_UNITS = (host.OPEN_SESSION_RESPONSE, host.CLOSE_SESSION_RESPONSE)

# The unit for which a feed is refused, by number.
REFUSED = {9: "LPDU", 10: "LPDU", 11: "TPDU", 12: "TPDU", 13: "TPDU", 14: "SPDU", 15: "SPDU",
           16: "APDU", 17: "APDU"}

# Lengths that a tag does not allow, next to one that it does.
NEAR = {
    host.C_T_C_REPLY: (0, 2),
    host.DELETE_T_C: (0, 2),
    host.D_T_C_REPLY: (0, 2),
    host.REQUEST_T_C: (0, 2),
    host.T_DATA_LAST: (0,),
    host.T_DATA_MORE: (0,),
    host.T_SB: (1, 3),
    host.OPEN_SESSION_REQUEST: (3, 5),
    host.CLOSE_SESSION_REQUEST: (1, 3),
    host.SESSION_NUMBER: (1, 3),
}

# Creating and Deleting have the turn out; Delete due and Reply due never do.
STANDINGS = ("an absent slot", "an absent slot, turn out", "Idle", "Idle, turn out",
             "Create due", "Create due, turn out", "Creating, turn out",
             "Active", "Active, turn out", "Delete due", "Deleting, turn out", "Reply due")

ANSWERS = {
    "clock": ("ok", "refused 8"),
    "plug": ("ok", *(f"refused {number}" for number in (1, 3, 4))),
    "pull": ("ok", *(f"refused {number}" for number in (1, 4))),
    "end": ("ok", *(f"refused {number}" for number in (1, 2, 4, 5, 6))),
    "next": ("sent", *(f"refused {number}" for number in (1, 2, 4, 5, 6, 7))),
    "feed": ("ok", "more", *(f"refused {number}" for number in (
        1, 2, 4, 5, 6, "9 short", "9 long", "9 connection", "9 mark", 10, "11 tag", "11 length",
        "11 content", 12, 13, "14 tag", "14 length", 15, "16 tag", "16 length", "17 01"))),
    "expire": ("ok", *(f"refused {number}" for number in (1, 2, 5))),
}

COMMANDS = ("82", "84", "85", "81", "A0", "87", "88", "92 00", "92 F0", "92 F2", "92 F3",
            "96 00", "96 F0", "greeting 9F8010", "greeting 9F8020", "reply 9F8010",
            "reply 9F8011", "reply 9F8012", "reply 9F8441")

FORMS = ("in one byte", "81", "82", "81 where less would do", "82 where less would do",
         "80", "83", "84 to FF", "81 cut off", "82 cut off", "missing")

GROUPS = {
    "Answers": [f"{name} {answer}" for name, answers in ANSWERS.items() for answer in answers],
    "Commands": [f"next sent {sent} on {number}"
                 for sent, number in product(COMMANDS, CONNECTIONS)],
    "Calls by states": [
        *(f"{call} in {where}" for call, where in product(
            ("pull", "end", "next", "feed", "expire"), STANDINGS)),
        *(f"end of input in {where}" for where in STANDINGS if where.endswith("out")),
    ],
    "Objects by states": [
        *(f"{state.value} met {named(tag, TAGS)} on {number}"
          for state, tag, number in product(host.HEARING, TAGS, CONNECTIONS)),
        *(f"{state.value} met 11 {kind}"
          for state, kind in product(host.HEARING, ("tag", "length", "content"))),
    ],
    "Limits": [
        *(f"plug of size {size}" for size in (15, 16, 65535)),
        "clock 23 59 59", "clock of hour 24", "clock of minute 60", "clock of second 60",
        *(f"clock of {part} with a letter" for part in ("hour", "minute", "second")),
        "LPDU of 2 bytes", "LPDU of 3 bytes",
        "LPDU of the agreed size", "LPDU of one byte more than agreed",
        *(f"{count} fragment bytes, {mark}"
          for count, mark in product((1024, 1025), ("more", "last"))),
        *(f"{count} data bytes, {tag}" for count, tag in product((2048, 2049), ("A1", "A0"))),
        *(f"room of {room} for {count}" for count, room in product(
            ("one LPDU", "several LPDUs"), ("just enough", "one less"))),
        "sixteen sessions at once", "sixteen sessions over both connections",
        *(f"91 with sixteen sessions owes {status}" for status in ("F0", "F2", "F3")),
    ],
    "Tags and length fields": [
        *(f"11 tag: {tag}" for tag in ("81", "82", "87", "88", "any other", "no status")),
        "11 length before content", "11 content before length",
        *(f"14 tag: {tag}" for tag in ("92", "96", "any other")),
        *(f"{tag:02X} of length {length}" for tag, lengths in NEAR.items() for length in lengths),
        *(f"length of {place} {form}" for place, form in product(
            ("object", "status", "SPDU", "APDU"), FORMS)),
        *(f"APDU of {bytes}" for bytes in (
            "no bytes", "9F alone", "another byte than 9F", "9F and a byte from 80",
            "9F and a byte below 80", "a tag and 80")),
    ],
    "Fragments and chains": [
        *(f"{named(tag, TAGS)} in fragments" for tag in TAGS),
        *(f"{tag} in a chain{fragments}" for tag, fragments in product(
            ("91", "95", "90"), ("", " and in fragments"))),
        *(f"{tag} without data, {data} waiting" for tag, data in product(
            ("A1", "A0"), ("none", "some"))),
    ],
    "Turns that came back": [
        *(f"fed on after {refusal}" for refusal in REFUSED),
        *(f"{kept} after a refused {unit}" for kept, unit in product(
            ("fragments joined", "data read"), dict.fromkeys(REFUSED.values()))),
    ],
    "Turns and sessions": [
        *(f"plug with turn {turns} out" for turns in ("1", "2", "1 and 2")),
        *(f"sessions ended by {cause}" for cause in (
            "pull", "end", "end, others stay", "expire", "expire, others stay",
            "84", "84, others stay", "95", "95, others stay")),
        *(f"number given anew after {cause}" for cause in ("pull", "end", "expire", "84", "95")),
        *(f"{tag} for a session {where}" for tag, where in product(
            ("95", "90"), ("of this connection", "of the other connection", "that is not open"))),
    ],
    "Objects": [
        *(f"00010041 {tag} {fate}" for tag, fate in product(
            ("9F8010", "9F8011", "9F8012"), ("answered", "refused"))),
        "00010041 9F8011 passed", "00020041 9F8021 passed", "00020041 9F8021 refused",
        "00240041 9F8440 answered", "00240041 9F8440 passed", "00240041 9F8440 refused",
        *(f"{identifier:08X} any other passed" for identifier in OBJECTS),
        "9F8440 answered after a clock call was refused",
        "report of a session asked for in a lower version",
        "9F8011 answered after one was refused",
        "9F8011 answered again for a number given anew after its end",
        "9F8011 answered again for a number given anew after a pull",
        "9F8011 answered in another session of the slot too",
    ],
    "Lines": [
        *(f"line {wrong}" for wrong in (
            shelf.NO_CALL, shelf.MISSING, shelf.NOT_DECIMAL, shelf.TOO_LARGE, shelf.NOT_HEX,
            shelf.LEFT_OVER, shelf.TOO_LONG)),
        "line passed over", "line of 200000 bytes",
    ],
}

NAMES = [name for names in GROUPS.values() for name in names]
