"""Requests: which message is the response, and what is said if there is none."""
import unittest

import linsim
from tests import DOOR, SEAT


def door(table=None, **options):
    return linsim.Cluster(DOOR, table, **options)


class Requests(unittest.TestCase):
    def test_a_request_that_waits_longer_than_its_time(self):
        """Its response belongs to no later request."""
        with door("Run") as bus:
            bus["WinMot"].when("1003", "5003003201F4")
            bus["WinMot"].when("22F190", "62F19041")
            with self.assertRaisesRegex(
                    linsim.NoAnswer, "^1003 to WinMot wasn't sent in 1000 ms: 1 of DCU waiting, "
                    r"and Run has no MasterReq \(.*, script line 1\d\d, slot 99, 1000000 us\)$"):
                bus["DCU"].request("WinMot", "1003")
            bus.switch("Diag")
            self.assertEqual(bus["DCU"].request("WinMot", "22F190"), bytes.fromhex("62F19041"))
            self.assertEqual([it.data for it in bus.received if it.source == "WinMot"],
                             [bytes.fromhex("5003003201F4"), bytes.fromhex("62F19041")])

    def test_a_response_to_an_earlier_request(self):
        """Also one that would match, as long as the later request waits."""
        with door("Diag") as bus:
            bus["WinMot"].when("22F190", ("62F19041", 100), ("62F19042", 200))
            with self.assertRaisesRegex(linsim.NoAnswer, "^WinMot doesn't answer 22F190 in 50 ms "):
                bus["DCU"].request("WinMot", "22F190", timeout_ms=50)
            bus["WinMot"].when("3E00", "7E00")
            self.assertEqual(bus["DCU"].request("WinMot", "3E00", match=None), b"\x7E\x00")
            bus.idle()
            for number in range(8):
                bus["DCU"].send("WinMot", f"2EF18C0{number}")
            with self.assertRaisesRegex(
                    linsim.NoAnswer, r"^22F190 to WinMot wasn't sent in 50 ms: \d of DCU waiting "
                    r"\(no response to it: 62F19043\) \("):
                bus["WinMot"].send("DCU", "62F19043")
                bus["DCU"].request("WinMot", "22F190", timeout_ms=50)

    def test_a_late_response_with_another_identifier(self):
        with door("Diag") as bus:
            bus["WinMot"].when("22F18C", ("62F18C41", 100))
            bus["WinMot"].when("22F190", ("62F19041", 100))
            with self.assertRaises(linsim.NoAnswer):
                bus["DCU"].request("WinMot", "22F18C", timeout_ms=50)
            self.assertEqual(bus["DCU"].request("WinMot", "22F190")[2:], b"\x90A")

    def test_messages_that_do_not_match(self):
        with door("Diag") as bus:
            bus["WinMot"].when("22F190", "62F18C41")
            with self.assertRaisesRegex(
                    linsim.NoAnswer, "^WinMot doesn't answer 22F190 in 100 ms "
                    r"\(no response to it: 62F18C41\) \(.*, slot 9, 100000 us\)$"):
                bus["DCU"].request("WinMot", "22F190", timeout_ms=100)
            self.assertEqual(bus.received[-1].data, b"\x62\xF1\x8CA")
            request = bus["DCU"].request
            self.assertEqual(request("WinMot", "22F190", match=None)[2], 0x8C)
            matched = []
            request("WinMot", "22F190", match=lambda *both: matched.append(both) or True)
            self.assertEqual(matched, [(b"\x22\xF1\x90", b"\x62\xF1\x8CA")])

    def test_a_request_that_is_lost(self):
        with door("Diag") as bus:
            bus.damage(slot=0)
            with self.assertRaisesRegex(linsim.NoAnswer, "^3E00 to WinMot was lost: damaged "
                                        r"\(.*, script line 2, slot 0, 10000 us\)$"):
                bus["DCU"].request("WinMot", "3E00")

    def test_a_table_without_slots_for_responses(self):
        with linsim.Cluster(SEAT, "Diag") as bus:
            bus["Heater"].on_message(lambda _: bus.switch("Regul") or "7E00")
            with self.assertRaisesRegex(
                    linsim.NoAnswer, "^Heater doesn't answer 3E00 in 50 ms, and Regul has no "
                    r"SlaveResp \("):
                bus["BCM"].request("Heater", "3E00", timeout_ms=50)

    def test_a_request_to_the_commander(self):
        """What the commander sends to another node is no response."""
        with linsim.Cluster(SEAT, "Diag") as bus:
            commander = bus["BCM"]

            @commander.on_message
            def answer(_):
                commander.send("Vent", "62F19001")
                return b"\x62\xF1\x90\x02"
            commander.send("Heater", "3E00")                    # the next responses are its own
            self.assertEqual(bus["Heater"].request("BCM", "22F190")[3], 2)
            self.assertEqual([it.target for it in bus.received],
                             ["Heater", "BCM", "Vent", "Heater"])


class Delays(unittest.TestCase):
    def test_answers_of_handlers(self):
        """One answer, one pair in either order, and lists."""
        for answers, times in (
            ("7E00", [20]), (("7E00", 40), [60]), ((40, b"\x7E\x00"), [60]),
            (["7E00", bytearray(b"\x7E\x00")], [20, 40]), ([("7E00", 20), (40, "7E00")], [40, 80]),
            ((("7E00", 20), ("7E00", 40)), [40, 80]), (iter([("7E00", 20)]), [40]), ((), []),
            ((20, [0x7E, 0]), [40]),
        ):
            with door("Diag") as bus:
                bus["WinMot"].on_message(lambda _: answers)
                bus["DCU"].send("WinMot", "3E00")
                received = [it for it in bus.idle().received if it.target == "DCU"]
                self.assertEqual([it.time // 1000 for it in received], times, answers)
                self.assertTrue(all(it.data == b"\x7E\x00" for it in received))

    def test_answers_of_rules(self):
        with door("Diag") as bus:
            bus["WinMot"].when("3E*", (30, "7E $1"), ("7E $1", 40), b"\1", (b"\2", 0))
            self.assertEqual(bus.script, "when WinMot 3E* answer 7E $1 after 30 ms then "
                                         "7E $1 after 40 ms then 01 then 02\n")

    def test_what_is_no_answer(self):
        for answers in (5, [5], ("7E00", 0.5), [("7E00", None)], object()):
            with door("Diag") as bus:
                bus["WinMot"].on_message(lambda _: answers)
                bus["DCU"].send("WinMot", "3E00")
                with self.assertRaises(TypeError):
                    bus.slot()


class Matching(unittest.TestCase):
    def test_is_answer(self):
        for request, response, matches in (
            ("22F190", "62F190 41", True), ("22F190", "62F18C 41", False), ("22F190", "62", True),
            ("22F190", "62F1", True), ("22F190", "62F2", False), ("22F190", "7F2231", True),
            ("22F190", "7F2E31", False), ("22F190", "50F190", False), ("22F190", "", False),
            ("2E010255", "6E0102", True), ("2E010255", "6E0103", False),
            ("2F010203", "6F010207", True), ("2F010203", "6F0202", False),
            ("31010203", "71010203", True), ("31010203", "71010204", False),
            ("1003", "5003003201F4", True), ("1083", "5003003201F4", True),
            ("1003", "5002", False), ("2701", "6701AABB", True), ("2701", "6702", False),
            ("3602", "7602", True), ("3682", "7602", False), ("3E80", "7E00", True),
            ("8501", "C501", True), ("8501", "C502", False), ("190209", "5902", True),
            ("140000", "54", True), ("B21F", "F201", True), ("B21F", "7FB212", True),
            ("B21F", "7FB012", False), ("C012", "00", True), ("4012", "1234", True),
            ("7F01", "1234", True), ("10", "50", True), ("", "50", False), ("", "", False),
            ("3E00", "", False), ("1001", "50 01 00", True), ("31 81 0203", "71 01 0203", True),
        ):
            answer = linsim.is_answer(bytes.fromhex(request), bytes.fromhex(response))
            self.assertEqual(answer, matches, (request, response))


if __name__ == "__main__":
    unittest.main()
