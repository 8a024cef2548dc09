"""Worked examples of the rules, and what must hold over random scripts."""

import io
import pickle
import unittest
from collections import Counter

import host
from generate import Generator
from host import Fault, State
from shelf import Shelf, play
from tally import GROUPS, NAMES, Watched


def octets(text):
    return bytes.fromhex(text)


def fault(reader, *arguments):
    """The kind of fault that a reader meets, or none."""
    try:
        reader(*arguments)
    except Fault as met:
        return met.kind
    return None


class Bench:
    """A shelf that is given lines of text."""

    def __init__(self, *lines):
        self.shelf = Shelf()
        for line in lines:
            self.say(line)

    def say(self, line):
        """The outcome of a call, without its number and place."""
        words = self.shelf.answer(line.encode()).split(" ")
        start = next(at for at, word in enumerate(words)
                     if word in ("ok", "more", "sent", "refused"))
        return " ".join(words[start:])

    def tell(self, data, connection=1, da=0):
        """Sends data in one A0 and answers what the host sends then."""
        body = octets(f"{connection:02X}") + octets(data)
        tpdu = b"\xA0" + host.write_length(len(body)) + body
        tpdu += bytes([0x80, 2, connection, da])
        fed = self.say(f"feed 0 {connection} {connection:02X} 00 {tpdu.hex(' ')}")
        return self.say(f"next 0 {connection}") if fed == "ok" else fed


def active(size=256):
    """A bench with connection 1 of slot 0 Active and its turn out."""
    return Bench(f"plug 0 {size}", "next 0 1", "feed 0 1 01 00 83 01 01 80 02 01 00", "next 0 1")


class Units(unittest.TestCase):
    def test_lengths(self):
        self.assertEqual(host.Reader(octets("7F")).length(), 127)
        self.assertEqual(host.Reader(octets("8180")).length(), 128)
        self.assertEqual(host.Reader(octets("820005")).length(), 5)
        for malformed in ("80", "83000005", "81", "8200", ""):
            self.assertEqual(fault(host.Reader(octets(malformed)).length), "length")
        self.assertEqual(host.write_length(128), octets("8180"))
        self.assertEqual(host.write_length(256), octets("820100"))

    def test_lpdu_faults_in_order(self):
        for lpdu, kind in (("0200", "short"), ("02" + "01" * 16, "long"),
                           ("020100", "connection"), ("010100", "mark"), ("018000", None)):
            self.assertEqual(fault(host.read_lpdu, octets(lpdu), 1, 16), kind)

    def test_lpdus_have_the_agreed_size_but_for_the_last(self):
        lpdus = host.write_lpdus(bytes(29), 2, 16)
        self.assertEqual([len(lpdu) for lpdu in lpdus], [16, 16, 3])
        self.assertEqual([lpdu[1] for lpdu in lpdus], [0x80, 0x80, 0x00])
        self.assertEqual(len(host.write_lpdus(bytes(28), 2, 16)), 2)

    def test_tpdu_faults_in_order(self):
        for tpdu, kind in (("A00502AA", "length"), ("8002020000", "content"),
                           ("83010183010180020100", "tag"), ("82010180020100", "tag"),
                           ("A00080020100", "length"), ("830101", "length"),
                           ("8081020180", None), ("", "length")):
            self.assertEqual(fault(host.read_tpdu, host.Reader(octets(tpdu)), 1), kind, tpdu)

    def test_spdu_and_apdu_faults(self):
        for spdu, kind in (("9207", "tag"), ("9102", "length"), ("9502000100", "length"),
                           ("90020001", None), ("", "length")):
            self.assertEqual(fault(host.read_spdu, host.Reader(octets(spdu))), kind, spdu)
        for apdu, kind in (("9F", "length"), ("9F80", "length"), ("9E", "tag"), ("9F00", "tag"),
                           ("9F8080", "tag"), ("9F801000", None), ("9F80100000", "length")):
            self.assertEqual(fault(host.read_apdu, host.Reader(octets(apdu))), kind, apdu)

    def test_identifiers(self):
        self.assertTrue(host.matches(0x00010041, 0x00010042))
        self.assertFalse(host.matches(0x00010041, 0x40010041))
        self.assertFalse(host.matches(0xC0000041, 0xC0000040))
        self.assertTrue(host.is_older(0x00010041, 0x00010042))
        self.assertFalse(host.is_older(0xC0000041, 0xC0000042))


class Sessions(unittest.TestCase):
    def test_statuses_of_opening(self):
        bench = active()
        for asked, sent in (("00030041", "F0 00 03 00 41 00 00"),
                            ("00010042", "F2 00 01 00 41 00 00"),
                            ("00010040", "00 00 01 00 41 00 01"),
                            ("00240041", "00 00 24 00 41 00 02")):
            self.assertEqual(bench.tell("9104" + asked), f"sent 01 00 A0 0A 01 92 07 {sent}")

    def test_least_free_number_and_sixteen(self):
        bench = active()
        for _ in range(16):
            bench.tell("910400240041")
        self.assertTrue(bench.tell("910400240041").endswith("F3 00 24 00 41 00 00"))
        self.assertTrue(bench.tell("95020003").endswith("96 03 00 00 03"))
        self.assertTrue(bench.tell("95020003").endswith("96 03 F0 00 03"))
        self.assertTrue(bench.tell("910400240041").endswith("00 00 24 00 41 00 03"))

    def test_greetings_go_lowest_first_and_after_what_is_owed(self):
        bench = active()
        for asked in ("00010041", "00020041"):
            self.assertIn("92 07 00", bench.tell("9104" + asked))
        self.assertTrue(bench.tell("").endswith("90 02 00 01 9F 80 10 00"))
        self.assertTrue(bench.tell("", da=0x80).endswith("90 02 00 02 9F 80 20 00"))
        self.assertEqual(bench.tell("", da=0x80), "sent 01 00 81 01 01")
        self.assertEqual(bench.tell("", da=0x7F), "sent 01 00 A0 01 01")

    def test_profile_is_answered_once_a_session(self):
        bench = active()
        bench.tell("910400010041")
        self.assertEqual(bench.tell("900200019F80110100"), "refused 17 01")
        self.assertTrue(bench.tell("900200019F801100").endswith("9F 80 12 00"))
        self.assertNotIn("9F 80 12", bench.tell("900200019F801100"))

    def test_manager_announces_what_it_is_made_with(self):
        bench = active()
        bench.tell("910400010041")
        self.assertTrue(bench.tell("900200019F801000").endswith(
            "9F 80 11 0C 00 01 00 41 00 02 00 41 00 24 00 41"))

    def test_time(self):
        bench = active()
        bench.tell("910400240041")
        self.assertEqual(bench.tell("900200019F84400100"), "sent 01 00 A0 01 01")
        self.assertEqual(bench.say("clock FF FF 23 59 60"), "refused 8")
        self.assertEqual(bench.say("clock FF FF 23 59 59"), "ok")
        self.assertTrue(bench.tell("900200019F84400100").endswith("9F 84 41 05 FF FF 23 59 59"))
        self.assertEqual(bench.tell("900200019F844000"), "refused 17 01")

    def test_chained_data(self):
        bench = active()
        bench.say("feed 0 1 01 00 A1 04 01 91 04 00 80 02 01 80")
        self.assertEqual(bench.say("next 0 1"), "sent 01 00 81 01 01")
        self.assertIn("92 07 00 00 01 00 41 00 01", bench.tell("010041"))


class Connections(unittest.TestCase):
    def test_second_connection(self):
        bench = active()
        bench.say("feed 0 1 01 00 86 01 01 80 02 01 00")
        self.assertEqual(bench.say("next 0 2"), "refused 6")
        self.assertEqual(bench.say("next 0 1"), "sent 01 00 87 02 01 02")
        bench.say("feed 0 1 01 00 86 01 01 80 02 01 00")
        self.assertEqual(bench.say("next 0 1"), "sent 01 00 88 02 01 01")
        self.assertEqual(bench.say("next 0 2"), "sent 02 00 82 01 02")

    def test_sessions_belong_to_their_connection(self):
        bench = active()
        bench.tell("910400240041")
        bench.say("feed 0 1 01 00 86 01 01 80 02 01 00")
        for line in ("next 0 1", "next 0 2", "feed 0 2 02 00 83 01 02 80 02 02 00", "next 0 2"):
            bench.say(line)
        self.assertTrue(bench.tell("95020001", 2).endswith("96 03 F0 00 01"))
        self.assertEqual(bench.tell("900200019F84400100", 2), "refused 15")

    def test_old_turn_outlives_pull_and_plug(self):
        bench = active()
        self.assertEqual(bench.say("pull 0"), "ok")
        self.assertEqual(bench.say("feed 0 1 01 00 80 02 01 00"), "refused 4")
        self.assertEqual(bench.say("plug 0 16"), "ok")
        self.assertEqual(bench.say("next 0 1"), "refused 5")
        self.assertEqual(bench.say("feed 0 1 01 00 80 02 01 00"), "refused 6")
        self.assertEqual(bench.say("expire 0 1"), "ok")
        self.assertEqual(bench.say("expire 0 1"), "refused 5")
        self.assertEqual(bench.say("next 0 1 5"), "sent 01 00 82 01 01")

    def test_delete_by_either_side(self):
        bench = active()
        bench.say("feed 0 1 01 00 84 01 01 80 02 01 00")
        self.assertEqual(bench.say("next 0 1 4"), "refused 7")
        self.assertEqual(bench.say("next 0 1 5"), "sent 01 00 85 01 01")
        self.assertEqual(bench.say("expire 0 1"), "refused 5")
        bench = active()
        bench.say("feed 0 1 01 00 80 02 01 00")
        self.assertEqual(bench.say("end 0 1"), "ok")
        self.assertEqual(bench.say("next 0 1"), "sent 01 00 84 01 01")
        self.assertEqual(bench.say("feed 0 1 01 00 80 02 01 00"), "refused 12")
        self.assertEqual(bench.say("feed 0 1 01 00 85 01 01 80 02 01 00"), "ok")
        self.assertEqual(bench.say("next 0 1"), "refused 6")

    def test_fragments_end_at_1024(self):
        bench = active(65535)
        self.assertEqual(bench.say("feed 0 1 01 80 A0 82 03 F8" + " 01" * 1012), "more")
        self.assertEqual(bench.say("feed 0 1 01 00" + " 01" * 9), "refused 10")
        self.assertEqual(bench.say("feed 0 1 01 00" + " 01" * 4 + " 80 02 01 00"), "refused 14 tag")


def check_record(case, slot):
    """What holds of every record."""
    case.assertTrue(slot.size >= host.LEAST_SIZE or slot == host.Slot(0, slot.connections))
    for number, connection in slot.connections.items():
        beside = slot.connections[host.other(number)]
        if not slot.present:
            case.assertIs(connection.state, State.IDLE)
        if connection.turn_out:
            case.assertIsNone(connection.owed)
        if connection.owed and connection.owed[0] == host.NEW_T_C:
            case.assertIs(beside.state, State.IDLE)
        if connection.state not in host.HEARING:
            bare = host.Connection(connection.state, connection.turn_out)
            case.assertEqual(connection, bare)
        if connection.state is not State.ACTIVE:
            case.assertEqual(connection.data, b"")
    for number, session in slot.sessions.items():
        case.assertIn(number, range(1, host.PLACES + 1))
        case.assertIs(slot.connections[session.connection].state, State.ACTIVE)


class Random(unittest.TestCase):
    def test_refused_calls_change_nothing_and_records_are_sound(self):
        for seed in range(10):
            shelf = Shelf()
            for line in Generator(seed, 200).script().split(b"\n"):
                before = pickle.dumps((shelf.host, shelf.turns))
                answer = shelf.answer(line)
                if answer is None or answer.startswith("line") or "refused" in answer:
                    self.assertEqual(pickle.dumps((shelf.host, shelf.turns)), before)
                for slot in shelf.host.slots:
                    check_record(self, slot)

    def test_scripts_reach_nearly_all_that_is_named(self):
        seen = Counter()
        for seed in range(60):
            script = Generator(seed, 300).script()
            watched = Watched()
            printed = list(play(watched, io.BytesIO(script)))
            self.assertEqual(printed, list(play(Shelf(), io.BytesIO(script))))
            seen += watched.seen
        self.assertEqual(seen.keys() - set(NAMES), set())
        always = GROUPS["Answers"] + GROUPS["Lines"]
        self.assertEqual([name for name in always if not seen[name]], [])
        self.assertLess(len(NAMES) - len(seen), len(NAMES) / 20)


class Tally(unittest.TestCase):
    def reached(self, *lines):
        """What the last of some lines reaches."""
        watched = Watched()
        for line in lines:
            watched.seen.clear()
            watched.answer(line.encode())
        return set(watched.seen)

    def test_names_are_told_once(self):
        self.assertEqual(len(NAMES), len(set(NAMES)))

    def test_reply_in_long_forms(self):
        self.assertEqual(
            self.reached("plug 0 16", "next 0 1", "feed 0 1 01 80 83 81",
                         "feed 0 1 01 00 01 01 80 82 00 02 01 80"),
            {"feed ok", "feed in Creating, turn out", "Creating met 83 on 1", "83 in fragments",
             "length of object 81 where less would do", "length of status 82 where less would do"})

    def test_refused_before_the_status_is_read(self):
        self.assertEqual(
            self.reached("plug 0 16", "next 0 1", "feed 0 1 01 00 83 83 00 00 01 01 80 02 01 00"),
            {"feed refused 11 length", "feed in Creating, turn out", "Creating met 11 length",
             "length of object 83"})

    def test_old_turn_and_rooms(self):
        lines = ["plug 0 16", "next 0 1", "pull 0", "plug 0 16"]
        self.assertEqual(self.reached(*lines), {"plug ok", "plug of size 16",
                                                "plug with turn 1 out"})
        lines += ["expire 0 1"]
        self.assertEqual(self.reached(*lines), {"expire ok", "expire in Create due, turn out"})
        lines += ["next 0 1 4"]
        self.assertEqual(self.reached(*lines), {"next refused 7", "next in Create due",
                                                "room of one less for one LPDU"})
        lines += ["next 0 1 5"]
        self.assertEqual(self.reached(*lines), {"next sent", "next in Create due",
                                                "next sent 82 on 1",
                                                "room of just enough for one LPDU"})

    def test_chain(self):
        lines = ["plug 0 16", "next 0 1", "feed 0 1 01 00 83 01 01 80 02 01 00", "next 0 1",
                 "feed 0 1 01 00 A1 04 01 91 04 00 80 02 01 00", "next 0 1",
                 "feed 0 1 01 00 A0 04 01 01 00 41 80 02 01 00"]
        self.assertLessEqual({"91 in a chain", "length of SPDU in one byte",
                              "Active met A0 on 1"}, self.reached(*lines))


if __name__ == "__main__":
    unittest.main()
