"""Signals: physical values, texts, comparisons."""
import os
import tempfile
import unittest
from decimal import Decimal

import linsim
from linsim.values import Meaning
from tests import DOOR


def door(table=None, **options):
    return linsim.Cluster(DOOR, table, **options)


def changed(test, *pairs):
    """The door zone with changes in its text: each old part and its new one."""
    folder = tempfile.TemporaryDirectory()
    test.addCleanup(folder.cleanup)
    with open(DOOR, encoding="ascii") as file:
        text = file.read()
    for old, new in zip(pairs[::2], pairs[1::2]):
        test.assertIn(old, text)
        text = text.replace(old, new)
    name = os.path.join(folder.name, "door.ldf")
    with open(name, "w", encoding="ascii") as file:
        file.write(text)
    return linsim.Cluster(name)


class Physical(unittest.TestCase):
    def test_numbers(self):
        with door() as bus:
            temperature = bus["WinMot"]["WinTemp"]
            self.assertEqual((temperature.raw, temperature.physical, temperature.text),
                             (450, Decimal(5), "5 degC"))
            for value, raw, physical in (
                (62.2, 1022, "62.2"), (Decimal("-0.1"), 399, "-0.1"), (-40, 0, "-40"),
                ("6.1 degC", 461, "6.1"), ("6.10", 461, "6.1"), (1e-1, 401, "0.1"),
                (Decimal("1E1"), 500, "10"),
            ):
                temperature.physical = value
                self.assertEqual((temperature.raw, temperature.physical), (raw, Decimal(physical)))
                self.assertIsInstance(temperature.physical, Decimal)
            temperature.set_nearest(6.14)
            self.assertEqual(temperature.raw, 461)
            temperature.set_nearest("6.15 degC")                # as far from 6.2: the lower one
            self.assertEqual(temperature.raw, 461)
            temperature.set_nearest(Decimal("6.16"))
            self.assertEqual(temperature.raw, 462)

    def test_texts(self):
        with door() as bus:
            temperature, state = bus["WinMot"]["WinTemp"], bus["WinMot"]["WinState"]
            temperature.raw = 1023
            self.assertEqual(temperature.physical, "invalid")
            state.physical = "pinched"
            self.assertEqual((state.raw, state.physical), (7, "pinched"))
            state.raw = 5                                       # no logical value
            self.assertIsNone(state.physical)
            self.assertIsNone(bus["DCU"]["WinCmd"].physical)
            self.assertIsNone(bus["Panel"]["PanelId"].physical)

    def test_numbers_that_are_texts(self):
        """A logical value without a text, and digits."""
        with changed(self, 'logical_value, 1, "opening"; logical_value, 2, "closing"',
                     'logical_value, 1; physical_value, 0, 2, 1, 0') as bus:
            state = bus["WinMot"]["WinState"]
            for raw, physical in ((0, "stopped"), (1, "1"), (2, Decimal(2))):
                state.raw = raw
                self.assertEqual((state.physical, type(state.physical)), (physical, type(physical)))
        with changed(self, "Temp10: WinTemp;",
                     "Temp10: WinTemp; Digits: Keys; Characters: PanelId;",
                     "Signal_encoding_types {", "Signal_encoding_types { Digits { bcd_value; }"
                     " Characters { ascii_value; }") as bus:
            keys, serial = bus["Panel"]["Keys"], bus["Panel"]["PanelId"]
            keys.raw = 0x42
            self.assertEqual((keys.physical, serial.physical), ("42", '"1234"'))
            serial.physical = '"ab"'
            self.assertEqual((serial.raw, serial == '"ab"'), (b"ab\0\0", True))

    def test_values_that_there_are_not(self):
        with door() as bus:
            temperature, state = bus["WinMot"]["WinTemp"], bus["WinMot"]["WinState"]
            for value, reason in ((6.15, r"6\.15 .*nearest: 6\.1, 6\.2"), ("stopped", "stopped"),
                                  ("5 K", "5 K"), (float("inf"), "Infinity"), (1e300, "0")):
                with self.assertRaisesRegex(linsim.BadLine, f"WinTemp = .*{reason}"):
                    temperature.physical = value
            with self.assertRaisesRegex(linsim.BadLine, "WinCmd"):
                bus["DCU"]["WinCmd"].physical = 1
            with self.assertRaises(linsim.BadLine):
                state.set_nearest(1)
            with self.assertRaises(TypeError):
                temperature.physical = None
            self.assertEqual((bus.script, temperature.raw), ("", 450))

    def test_meanings(self):
        with door() as bus:
            self.assertEqual(bus.meanings["WinTemp"], Meaning({1023: "invalid"}, [(0, 1022)]))
            self.assertEqual(bus.meanings["WinState"].values,
                             {0: "stopped", 1: "opening", 2: "closing", 7: "pinched"})
            self.assertNotIn("WinCmd", bus.meanings)


class Comparisons(unittest.TestCase):
    def test_numbers_bytes_and_signals(self):
        with door() as bus:
            position, serial = bus["DCU"]["WinPos"], bus["Panel"]["PanelId"]
            bus["WinMot"]["WinPos"] = 90
            self.assertFalse(position == bus["WinMot"]["WinPos"])
            bus.run(slots=2)
            self.assertTrue(position == 90 and 90 == position and not position != 90)
            self.assertTrue(position != 91 and not position == 91)
            self.assertTrue(position == bus["WinMot"]["WinPos"])
            self.assertTrue(89 < position <= 90 and position > 89 and position >= 90)
            self.assertFalse(position < 90 or position > 90 or position <= 89 or position >= 91)
            self.assertTrue(serial == b"1234" and serial == bytearray(b"1234"))
            self.assertTrue(serial != b"1235" and not serial != b"1234")

    def test_texts(self):
        with door() as bus:
            state, position = bus["WinMot"]["WinState"], bus["WinMot"]["WinPos"]
            self.assertEqual((state.text, position.text, bus["DCU"]["WinCmd"].text),
                             ("stopped", "0 %", None))
            self.assertTrue(state == "stopped" and state != "pinched" and not state == "pinched")
            position.raw = 101
            for text in ("50.5 %", "50.5%", "50.50 %", " 50.5  % ", "50.5"):
                self.assertTrue(position == text, text)
            self.assertTrue(position != "50 %" and position != "invalid")
            position.raw = 255
            self.assertTrue(position == "invalid" and position != "50 %")
            self.assertEqual(bus.script, "h:WinMot write WinMot WinPos 101\n"
                                         "h:WinMot write WinMot WinPos 255\n")
            self.assertEqual(bus.close(), 0)

    def test_texts_that_no_value_has(self):
        with door() as bus:
            for signal, text, reason in (
                ("WinState", "stoped", "WinState has no value stoped"),
                ("WinPos", "50.3 %", r"WinPos has no value 50.3 % \(nearest: 50, 50.5\)"),
                ("WinPos", "50 degC", "WinPos has no value 50 degC"),
                ("WinErr", "on", "WinErr has no value on"),
                ("WinPos", "", "missing value"),
            ):
                bus.run(slots=1)
                for compare in (lambda: bus["WinMot"][signal] == text,
                                lambda: text != bus["WinMot"][signal]):
                    with self.assertRaisesRegex(linsim.BadLine, f"^{signal} == '{text}': {reason}.*"
                                                r" \(.*door_zone.ldf, script line \d, slot \d, "):
                        compare()

    def test_texts_that_several_values_have(self):
        with changed(self, 'logical_value, 2, "closing"', 'logical_value, 2, "opening"') as bus:
            state = bus["WinMot"]["WinState"]
            self.assertTrue(state != "opening")
            for raw in (1, 2):
                state.raw = raw
                self.assertTrue(state == "opening" and state != "stopped")

    def test_a_signal_in_no_frame(self):
        with changed(self, "WinTemp:    10", "Lonely: 3, 0, WinMot, DCU; WinTemp:    10",
                     "State: WinState", "State: WinState, Lonely", '2, "closing"', '2, "opening"',
                     ) as bus:
            lonely = bus["WinMot"]["Lonely"]
            self.assertTrue(lonely == "stopped" and lonely != "pinched" and lonely != "opening")
            lonely.raw = 2
            self.assertTrue(lonely == "opening" and lonely != "stopped")

    def test_a_text_with_a_number_sign(self):
        """It begins a comment only if no text and no unit of the signal contains it."""
        with changed(self, '"opening"', '"Gear #1"') as bus:
            state = bus["WinMot"]["WinState"]
            state.physical = "Gear #1"
            self.assertEqual((state.raw, state.physical), (1, "Gear #1"))
            self.assertTrue(state == "Gear #1")
            with self.assertRaisesRegex(linsim.BadLine, "no value Gear #2"):
                state.physical = "Gear #2"
            self.assertEqual(state.raw, 1)
            with self.assertRaisesRegex(linsim.BadLine, "stopped #2"):
                state == "stopped #2"                           # noqa: B015
            with self.assertRaisesRegex(linsim.BadLine, "stopped #1"):
                state != "stopped #1"                           # noqa: B015

    def test_what_does_not_compare(self):
        with door() as bus:
            position, serial = bus["DCU"]["WinPos"], bus["Panel"]["PanelId"]
            for wrong in (
                lambda: position == 4.5, lambda: position != None, lambda: position == [0],  # noqa
                lambda: position == b"\0", lambda: serial == 5, lambda: serial == position,
                lambda: serial < b"2", lambda: position < "a", lambda: position >= 4.5,
                lambda: bool(position), lambda: not position, lambda: hash(position),
                lambda: {position: 1},
            ):
                with self.assertRaisesRegex(TypeError, r"<signal \w+ of \w+> .*\.raw"):
                    wrong()


if __name__ == "__main__":
    unittest.main()
