"""A Common Interface (EN 50221) host.

Units come first (APDU, SPDU, TPDU and LPDU, each carried by the next), then
the resources, the record of a slot and the seven calls.
"""

from dataclasses import dataclass, field
from enum import Enum
from typing import NamedTuple

SLOTS = 4
PLACES = 16
LEAST_SIZE = 16
MOST_FRAGMENTS = 1024
MOST_DATA = 2048

# Objects of a TPDU.
T_SB = 0x80
T_RCV = 0x81
CREATE_T_C = 0x82
C_T_C_REPLY = 0x83
DELETE_T_C = 0x84
D_T_C_REPLY = 0x85
REQUEST_T_C = 0x86
NEW_T_C = 0x87
T_C_ERROR = 0x88
T_DATA_LAST = 0xA0
T_DATA_MORE = 0xA1

# SPDUs.
SESSION_NUMBER = 0x90
OPEN_SESSION_REQUEST = 0x91
OPEN_SESSION_RESPONSE = 0x92
CLOSE_SESSION_REQUEST = 0x95
CLOSE_SESSION_RESPONSE = 0x96

# Statuses of session responses.
OK = 0x00
NONE_SUCH = 0xF0
OLDER = 0xF2
BUSY = 0xF3

# Tags of APDUs.
PROFILE_ENQUIRY = 0x9F8010
PROFILE = 0x9F8011
PROFILE_CHANGE = 0x9F8012
APPLICATION_ENQUIRY = 0x9F8020
APPLICATION_INFORMATION = 0x9F8021
TIME_ENQUIRY = 0x9F8440
TIME = 0x9F8441


class Fault(Exception):
    """A malformed unit; the kind says in a word what is wrong with it."""

    def __init__(self, kind):
        super().__init__(kind)
        self.kind = kind


class Refusal(Exception):
    """A call that is not served, by number and, for some numbers, kind."""

    def __init__(self, number, kind=None):
        super().__init__(number, kind)
        self.number = number
        self.kind = kind


class ResourceRefusal(Exception):
    """An object that a resource does not take."""

    def __init__(self, byte):
        super().__init__(byte)
        self.byte = byte


def refuse_if(condition, number):
    if condition:
        raise Refusal(number)


def heard(number, reader, *arguments):
    """Reads a unit; its fault becomes the refusal of that number."""
    try:
        return reader(*arguments)
    except Fault as fault:
        raise Refusal(number, fault.kind) from None


# Units


class Reader:
    """Goes forward through a unit."""

    def __init__(self, unit):
        self.unit = unit
        self.offset = 0

    def take(self, count):
        end = self.offset + count
        if end > len(self.unit):
            raise Fault("length")
        part = self.unit[self.offset:end]
        self.offset = end
        return part

    def byte(self):
        return self.take(1)[0]

    def length(self):
        first = self.byte()
        if first < 0x80:
            return first
        if first == 0x81:
            return self.byte()
        if first == 0x82:
            return int.from_bytes(self.take(2), "big")
        raise Fault("length")

    def rest(self):
        return self.take(len(self.unit) - self.offset)

    def finish(self):
        if self.offset < len(self.unit):
            raise Fault("length")


def write_length(length):
    if length < 0x80:
        return bytes([length])
    if length < 0x100:
        return bytes([0x81, length])
    return b"\x82" + length.to_bytes(2, "big")


def read_lpdu(lpdu, connection, size):
    """Answers whether more follows, and the fragment."""
    if len(lpdu) < 3:
        raise Fault("short")
    if len(lpdu) > size:
        raise Fault("long")
    if lpdu[0] != connection:
        raise Fault("connection")
    if lpdu[1] not in (0x00, 0x80):
        raise Fault("mark")
    return lpdu[1] == 0x80, lpdu[2:]


def write_lpdus(tpdu, connection, size):
    """Cuts a TPDU into LPDUs, all but the last of the agreed size."""
    step = size - 2
    lpdus = []
    for start in range(0, len(tpdu), step):
        mark = 0x80 if start + step < len(tpdu) else 0x00
        lpdus.append(bytes([connection, mark]) + tpdu[start:start + step])
    return lpdus


class TPDU(NamedTuple):
    """A module's TPDU: the tag of its object or none, its data, and DA."""

    tag: int | None
    data: bytes
    da: bool


# The lengths that the objects of a module may have.
OBJECT_LENGTHS = {
    C_T_C_REPLY: range(1, 2),
    DELETE_T_C: range(1, 2),
    D_T_C_REPLY: range(1, 2),
    REQUEST_T_C: range(1, 2),
    T_DATA_LAST: range(1, 0x10000),
    T_DATA_MORE: range(1, 0x10000),
    T_SB: range(2, 3),
}


def read_object(reader, connection, tags):
    """Reads one object; answers its tag and the bytes after the id."""
    tag = reader.byte()
    if tag not in tags:
        raise Fault("tag")
    length = reader.length()
    if length not in OBJECT_LENGTHS[tag]:
        raise Fault("length")
    body = reader.take(length)
    if body[0] != connection:
        raise Fault("content")
    return tag, body[1:]


def read_tpdu(reader, connection):
    tag, data = read_object(reader, connection, OBJECT_LENGTHS)
    if tag == T_SB:
        tag, status, data = None, data, b""
    else:
        _, status = read_object(reader, connection, (T_SB,))
    reader.finish()
    return TPDU(tag, data, status[0] >= 0x80)


def write_tpdu(tag, connection, data=b""):
    return bytes([tag]) + write_length(1 + len(data)) + bytes([connection]) + data


class SPDU(NamedTuple):
    """A module's SPDU; the value is a session number or an identifier."""

    tag: int
    value: int
    body: bytes


SPDU_LENGTHS = {
    SESSION_NUMBER: 2,
    OPEN_SESSION_REQUEST: 4,
    CLOSE_SESSION_REQUEST: 2,
}


def read_spdu(reader):
    tag = reader.byte()
    if tag not in SPDU_LENGTHS:
        raise Fault("tag")
    length = reader.length()
    if length != SPDU_LENGTHS[tag]:
        raise Fault("length")
    value = int.from_bytes(reader.take(length), "big")
    body = reader.rest() if tag == SESSION_NUMBER else b""
    reader.finish()
    return SPDU(tag, value, body)


def write_open_response(status, identifier, number):
    return (bytes([OPEN_SESSION_RESPONSE, 7, status])
            + identifier.to_bytes(4, "big") + number.to_bytes(2, "big"))


def write_close_response(status, number):
    return bytes([CLOSE_SESSION_RESPONSE, 3, status]) + number.to_bytes(2, "big")


def write_session_object(number, apdu):
    return bytes([SESSION_NUMBER, 2]) + number.to_bytes(2, "big") + apdu


class APDU(NamedTuple):
    tag: int
    body: bytes


def read_apdu(reader):
    first = reader.byte()
    if first != 0x9F:
        raise Fault("tag")
    second = reader.byte()
    if second < 0x80:
        raise Fault("tag")
    third = reader.byte()
    if third >= 0x80:
        raise Fault("tag")
    body = reader.take(reader.length())
    reader.finish()
    return APDU(first << 16 | second << 8 | third, body)


def write_apdu(tag, body=b""):
    return tag.to_bytes(3, "big") + write_length(len(body)) + body


# Identifiers


def is_private(identifier):
    return identifier >> 30 == 3


def version(identifier):
    return identifier & 0x3F


def matches(listed, asked):
    if is_private(listed):
        return listed == asked
    return listed >> 6 == asked >> 6


def is_older(listed, asked):
    return not is_private(listed) and version(listed) < version(asked)


# Resources


class Resource:
    """A resource of one identifier that keeps nothing and passes everything.

    The host gives it listed identifiers only, and objects of open sessions.
    """

    identifier: int
    first_object = None

    def find(self, identifier):
        return self.identifier if matches(self.identifier, identifier) else None

    def ready(self, slot, identifier):
        return OK

    def greeting(self, identifier):
        return self.first_object

    def opened(self, slot, number, identifier):
        pass

    def closed(self, slot, number, identifier):
        pass

    def object(self, slot, number, identifier, apdu):
        """Answers the reply or none, or raises ResourceRefusal."""
        return None

    def gone(self, slot):
        pass

    def clock(self, time):
        pass


def need(condition):
    """Refuses an object whose length is wrong."""
    if not condition:
        raise ResourceRefusal(0x01)


class ResourceManager(Resource):
    identifier = 0x00010041
    first_object = write_apdu(PROFILE_ENQUIRY)

    def __init__(self, announced):
        self.profile = b"".join(i.to_bytes(4, "big") for i in announced[:16])
        self.profiled = set()  # slot and number of sessions that told a profile

    def opened(self, slot, number, identifier):
        self.profiled.discard((slot, number))

    def closed(self, slot, number, identifier):
        self.profiled.discard((slot, number))

    def object(self, slot, number, identifier, apdu):
        if apdu.tag == PROFILE_ENQUIRY:
            need(len(apdu.body) == 0)
            return write_apdu(PROFILE, self.profile)
        if apdu.tag == PROFILE:
            need(len(apdu.body) % 4 == 0)
            if (slot, number) in self.profiled:
                return None
            self.profiled.add((slot, number))
            return write_apdu(PROFILE_CHANGE)
        if apdu.tag == PROFILE_CHANGE:
            need(len(apdu.body) == 0)
            return write_apdu(PROFILE_ENQUIRY)
        return None

    def gone(self, slot):
        self.profiled = {held for held in self.profiled if held[0] != slot}


class ApplicationInformation(Resource):
    identifier = 0x00020041
    first_object = write_apdu(APPLICATION_ENQUIRY)

    def __init__(self):
        self.latest = [None] * SLOTS

    def object(self, slot, number, identifier, apdu):
        if apdu.tag == APPLICATION_INFORMATION:
            body = apdu.body
            need(len(body) >= 6 and len(body) == 6 + body[5])
            self.latest[slot] = body
        return None

    def gone(self, slot):
        self.latest[slot] = None


class DateTime(Resource):
    identifier = 0x00240041

    def __init__(self):
        self.time = None

    def object(self, slot, number, identifier, apdu):
        if apdu.tag == TIME_ENQUIRY:
            need(len(apdu.body) == 1)
            if self.time is not None:
                return write_apdu(TIME, self.time)
        return None

    def clock(self, time):
        self.time = time


class Pair:
    """Two resources, of which the first that has a match serves."""

    def __init__(self, first, second):
        self.first = first
        self.second = second

    def serving(self, identifier):
        return self.second if self.first.find(identifier) is None else self.first

    def find(self, identifier):
        return self.serving(identifier).find(identifier)

    def ready(self, slot, identifier):
        return self.serving(identifier).ready(slot, identifier)

    def greeting(self, identifier):
        return self.serving(identifier).greeting(identifier)

    def opened(self, slot, number, identifier):
        self.serving(identifier).opened(slot, number, identifier)

    def closed(self, slot, number, identifier):
        self.serving(identifier).closed(slot, number, identifier)

    def object(self, slot, number, identifier, apdu):
        return self.serving(identifier).object(slot, number, identifier, apdu)

    def gone(self, slot):
        self.first.gone(slot)
        self.second.gone(slot)

    def clock(self, time):
        self.first.clock(time)
        self.second.clock(time)


# The record of a slot


class State(Enum):
    IDLE = "Idle"
    CREATE_DUE = "Create due"
    CREATING = "Creating"
    ACTIVE = "Active"
    DELETE_DUE = "Delete due"
    DELETING = "Deleting"
    REPLY_DUE = "Reply due"


HEARING = (State.CREATING, State.ACTIVE, State.DELETING)
SPEAKING = (State.CREATE_DUE, State.ACTIVE, State.DELETE_DUE, State.REPLY_DUE)


@dataclass
class Connection:
    state: State = State.IDLE
    turn_out: bool = False
    da: bool = False
    owed: bytes | None = None  # a TPDU
    fragments: bytes = b""
    data: bytes = b""

    def become(self, state):
        """Enters a state with nothing kept but the mark of the turn."""
        self.state = state
        self.da = False
        self.owed = None
        self.fragments = b""
        self.data = b""


@dataclass
class Session:
    connection: int
    identifier: int
    greeting_due: bool


@dataclass
class Slot:
    size: int = 0
    connections: dict = field(
        default_factory=lambda: {1: Connection(), 2: Connection()})
    sessions: dict = field(default_factory=dict)  # by number

    @property
    def present(self):
        return self.size > 0

    def numbers_on(self, connection):
        """The session numbers on a connection, rising."""
        return sorted(number for number, session in self.sessions.items()
                      if session.connection == connection)

    def session_on(self, connection, number):
        """The session if it is open on this connection, else none."""
        session = self.sessions.get(number)
        return session if session and session.connection == connection else None

    def due_greeting(self, connection):
        """The lowest number on a connection whose greeting is due, or none."""
        return next((number for number in self.numbers_on(connection)
                     if self.sessions[number].greeting_due), None)

    def free_number(self):
        return next(n for n in range(1, PLACES + 1) if n not in self.sessions)


class Turn(NamedTuple):
    """What next hands out, and feed and expire take."""

    slot: int
    connection: int


def other(connection):
    return 3 - connection


def is_time(time):
    """Whether hour, minute and second are decimal and within their limits."""
    return all(byte >> 4 <= 9 and byte & 0x0F <= 9 and byte <= limit
               for byte, limit in zip(time[2:], (0x23, 0x59, 0x59)))


class Host:
    """Four slots over a resource. A refused call changes nothing."""

    def __init__(self, resource):
        self.resource = resource
        self.slots = [Slot() for _ in range(SLOTS)]

    # Calls

    def clock(self, time):
        refuse_if(not is_time(time), 8)
        self.resource.clock(time)

    def plug(self, slot_number, size):
        refuse_if(slot_number >= SLOTS, 1)
        refuse_if(size < LEAST_SIZE, 3)
        slot = self.slots[slot_number]
        refuse_if(slot.present, 4)
        slot.size = size
        slot.connections[1].become(State.CREATE_DUE)

    def pull(self, slot_number):
        refuse_if(slot_number >= SLOTS, 1)
        slot = self.slots[slot_number]
        refuse_if(not slot.present, 4)
        slot.size = 0
        for connection in slot.connections.values():
            connection.become(State.IDLE)
        slot.sessions.clear()
        self.resource.gone(slot_number)

    def end(self, slot_number, connection_number):
        connection = self._with_turn_in(slot_number, connection_number)
        refuse_if(connection.state is not State.ACTIVE, 6)
        self._leave(slot_number, connection_number, State.DELETE_DUE)

    def next(self, slot_number, connection_number, room):
        """Answers the LPDUs written, and the turn or none."""
        connection = self._with_turn_in(slot_number, connection_number)
        refuse_if(connection.state not in SPEAKING, 6)
        lpdus = self.due(slot_number, connection_number)
        refuse_if(len(lpdus) > room, 7)
        self._wrote(self.slots[slot_number], connection_number)
        turn = Turn(slot_number, connection_number) if connection.turn_out else None
        return lpdus, turn

    def feed(self, turn, lpdu):
        """Answers the turn if it comes back, none if it is spent."""
        slot = self.slots[turn.slot]
        connection = slot.connections[turn.connection]
        refuse_if(not slot.present, 4)
        refuse_if(not connection.turn_out, 5)
        refuse_if(connection.state not in HEARING, 6)
        more, fragment = heard(9, read_lpdu, lpdu, turn.connection, slot.size)
        fragments = connection.fragments + fragment
        refuse_if(len(fragments) > MOST_FRAGMENTS, 10)
        if more:
            connection.fragments = fragments
            return turn
        tpdu = heard(11, read_tpdu, Reader(fragments), turn.connection)
        self._take_tpdu(turn, tpdu)
        connection.fragments = b""
        connection.turn_out = False
        if connection.state is State.ACTIVE:
            connection.da = tpdu.da
        return None

    def expire(self, turn):
        connection = self.slots[turn.slot].connections[turn.connection]
        if connection.turn_out:
            connection.turn_out = False
            if connection.state in HEARING:
                self._leave(turn.slot, turn.connection, State.IDLE)

    # What next writes

    def due(self, slot_number, connection_number):
        """The LPDUs that next writes in a state that has a command."""
        slot = self.slots[slot_number]
        tpdu = self._command(slot, connection_number)
        return b"".join(write_lpdus(tpdu, connection_number, slot.size))

    def _command(self, slot, number):
        connection = slot.connections[number]
        if connection.state is State.CREATE_DUE:
            return write_tpdu(CREATE_T_C, number)
        if connection.state is State.DELETE_DUE:
            return write_tpdu(DELETE_T_C, number)
        if connection.state is State.REPLY_DUE:
            return write_tpdu(D_T_C_REPLY, number)
        if connection.owed is not None:
            return connection.owed
        greeted = slot.due_greeting(number)
        if greeted is not None:
            greeting = self.resource.greeting(slot.sessions[greeted].identifier)
            return write_tpdu(T_DATA_LAST, number,
                              write_session_object(greeted, greeting))
        return write_tpdu(T_RCV if connection.da else T_DATA_LAST, number)

    def _wrote(self, slot, number):
        """Takes note that the command of a connection was written."""
        connection = slot.connections[number]
        connection.turn_out = connection.state is not State.REPLY_DUE
        if connection.state is State.CREATE_DUE:
            connection.become(State.CREATING)
        elif connection.state is State.DELETE_DUE:
            connection.become(State.DELETING)
        elif connection.state is State.REPLY_DUE:
            connection.become(State.IDLE)
        elif connection.owed is not None:
            if connection.owed[0] == NEW_T_C:
                slot.connections[other(number)].become(State.CREATE_DUE)
            connection.owed = None
        else:
            greeted = slot.due_greeting(number)
            if greeted is not None:
                slot.sessions[greeted].greeting_due = False

    # What feed hears. Each refuses before it changes anything.

    def _take_tpdu(self, turn, tpdu):
        connection = self.slots[turn.slot].connections[turn.connection]
        if (connection.state, tpdu.tag) == (State.CREATING, C_T_C_REPLY):
            connection.become(State.ACTIVE)
        elif (connection.state, tpdu.tag) == (State.DELETING, D_T_C_REPLY):
            self._leave(turn.slot, turn.connection, State.IDLE)
        else:
            refuse_if(connection.state is not State.ACTIVE, 12)
            self._take_active(turn, connection, tpdu)

    def _take_active(self, turn, connection, tpdu):
        if tpdu.tag is None:
            return
        if tpdu.tag == DELETE_T_C:
            self._leave(turn.slot, turn.connection, State.REPLY_DUE)
        elif tpdu.tag == REQUEST_T_C:
            connection.owed = self._new_connection(turn)
        elif tpdu.tag in (T_DATA_MORE, T_DATA_LAST):
            data = connection.data + tpdu.data
            refuse_if(len(data) > MOST_DATA, 13)
            if tpdu.tag == T_DATA_MORE:
                connection.data = data
                return
            if data:
                self._take_spdu(turn, heard(14, read_spdu, Reader(data)))
            connection.data = b""
        else:
            raise Refusal(12)

    def _new_connection(self, turn):
        asked = other(turn.connection)
        if self.slots[turn.slot].connections[asked].state is State.IDLE:
            return write_tpdu(NEW_T_C, turn.connection, bytes([asked]))
        return write_tpdu(T_C_ERROR, turn.connection, b"\x01")

    def _take_spdu(self, turn, spdu):
        if spdu.tag == OPEN_SESSION_REQUEST:
            answer = self._open_session(turn, spdu.value)
        elif spdu.tag == CLOSE_SESSION_REQUEST:
            answer = self._close_session(turn, spdu.value)
        else:
            answer = self._pass_object(turn, spdu.value, spdu.body)
        if answer is not None:
            connection = self.slots[turn.slot].connections[turn.connection]
            connection.owed = write_tpdu(T_DATA_LAST, turn.connection, answer)

    def _open_session(self, turn, asked):
        listed = self.resource.find(asked)
        if listed is None:
            return write_open_response(NONE_SUCH, asked, 0)
        if is_older(listed, asked):
            return write_open_response(OLDER, listed, 0)
        status = self.resource.ready(turn.slot, listed)
        if status != OK:
            return write_open_response(status, listed, 0)
        slot = self.slots[turn.slot]
        if len(slot.sessions) == PLACES:
            return write_open_response(BUSY, listed, 0)
        number = slot.free_number()
        greets = self.resource.greeting(listed) is not None
        slot.sessions[number] = Session(turn.connection, listed, greets)
        self.resource.opened(turn.slot, number, listed)
        return write_open_response(OK, listed, number)

    def _close_session(self, turn, number):
        if self.slots[turn.slot].session_on(turn.connection, number) is None:
            return write_close_response(NONE_SUCH, number)
        self._end_session(turn.slot, number)
        return write_close_response(OK, number)

    def _pass_object(self, turn, number, body):
        session = self.slots[turn.slot].session_on(turn.connection, number)
        refuse_if(session is None, 15)
        apdu = heard(16, read_apdu, Reader(body))
        try:
            reply = self.resource.object(turn.slot, number, session.identifier, apdu)
        except ResourceRefusal as refusal:
            raise Refusal(17, f"{refusal.byte:02X}") from None
        return None if reply is None else write_session_object(number, reply)

    # Shared by the calls

    def _with_turn_in(self, slot_number, connection_number):
        """The connection, where it exists, its slot is present and its turn in."""
        refuse_if(slot_number >= SLOTS, 1)
        refuse_if(connection_number not in (1, 2), 2)
        slot = self.slots[slot_number]
        refuse_if(not slot.present, 4)
        connection = slot.connections[connection_number]
        refuse_if(connection.turn_out, 5)
        return connection

    def _leave(self, slot_number, connection_number, state):
        """Moves a connection to a state in which it has no sessions."""
        slot = self.slots[slot_number]
        slot.connections[connection_number].become(state)
        for number in slot.numbers_on(connection_number):
            self._end_session(slot_number, number)

    def _end_session(self, slot_number, number):
        session = self.slots[slot_number].sessions.pop(number)
        self.resource.closed(slot_number, number, session.identifier)
