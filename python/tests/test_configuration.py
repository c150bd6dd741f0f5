"""Node configuration commands in schedule tables: the keyword `configuration`."""
import os
import unittest

import linsim
from tests import TOP

CLUSTERS = os.path.join(TOP, "tests", "clusters")
MIRRORS, SWITCHES, VENDOR = (os.path.join(CLUSTERS, name + ".ldf")       # (vendor has warnings)
                             for name in ("mirrors", "switches", "vendor"))

REQUESTS = ["AssignNAD", "AssignNAD", "AssignFrameIdRange", "AssignFrameIdRange"]


def mirrors(table="Init", **options):
    return linsim.Cluster(MIRRORS, table, configuration=True, **options)


class Commands(unittest.TestCase):
    def test_slots_have_requests_and_responses(self):
        with mirrors() as bus:
            run = bus.run(slots=8)
            self.assertEqual([it.name for it in run.slots[::2]], REQUESTS)
            self.assertEqual([it.name for it in run.slots[1::2]], ["SlaveResp"] * 4)
            self.assertEqual({it.seen for it in run.slots}, {"good"})
            request, response = run.slots[:2]
            self.assertEqual((request.header, request.data.hex()), (0x3C, "0106b02b0040100a"))
            self.assertEqual((request.due, request.frame), (["DCU"], "AssignNAD"))
            self.assertEqual((response.header, response.data.hex()), (0x7D, "0101f0ffffffffff"))
            self.assertEqual(response.due, ["MirL"])
            self.assertEqual(bus.close(), 0)

    def test_without_the_keyword_there_is_no_header(self):
        with linsim.Cluster(MIRRORS, "Init") as bus:
            run = bus.run(slots=2)
            self.assertEqual([(it.name, it.seen, it.service) for it in run.slots],
                             [("-", "silent", False), ("SlaveResp", "none", False)])
            self.assertNotIn("--configuration", bus.options)

    def test_the_slot_of_a_service_has_no_message(self):
        with mirrors() as bus:
            message = bus["DCU"].send("MirL", bytes(range(20)))
            bus.run(slots=2)
            bus.switch("Diag")
            first = bus.run(slots=1).slots[0]
            bus.switch("Init")              # two requests and two responses within the message
            within = bus.run(slots=4).slots
            bus.switch("Diag")
            last = bus.idle().slots
            self.assertEqual([it.service for it in within], [True] * 4)
            self.assertEqual([it.message for it in within], [None] * 4)
            self.assertEqual((first.service, first.message), (False, message))
            self.assertIn(message, [it.message for it in last])
            self.assertEqual(bus.received[0].data, bytes(range(20)))

    def test_a_response_of_a_service_comes_before_a_message(self):
        with mirrors() as bus:
            bus.run(slots=1)
            message = bus["MirL"].send("DCU", "01")
            response = bus.run(slots=1).slots[0]
            self.assertEqual((response.service, response.message), (True, None))
            self.assertTrue(bus.history.is_waiting(message))

    def test_hooks_and_damage_by_the_name_of_the_service(self):
        with mirrors() as bus:
            before, after = [], []
            bus.before("AssignNAD")(lambda: before.append(bus.time))
            bus.after("AssignNAD")(after.append)
            bus.damage(frame="AssignNAD", nth=1)
            run = bus.run(slots=8)
            self.assertEqual(before, [0, 20000])
            self.assertEqual(after, [run.slots[0], run.slots[2]])
            self.assertEqual([it.seen for it in run.slots[:4]],
                             ["good", "good", "damaged", "none"])
            with self.assertRaisesRegex(linsim.UnknownName, r"AssignNAd; did you mean AssignNAD"):
                bus.before("AssignNAd")

    def test_services_of_messages(self):
        with mirrors("Diag") as bus:
            bus.line("services on")
            self.assertEqual(bus["DCU"].request("MirL", "B200FF7FFFFF").hex(), "f22b00401002")
        with linsim.Cluster(MIRRORS, "Diag") as bus:
            with self.assertRaisesRegex(linsim.BadLine, "no responder answers services"):
                bus.line("services on")

    def test_a_copy_has_the_option(self):
        with mirrors() as bus:
            bus.run(slots=3)
            with bus.copy() as other:
                self.assertEqual(other.run(slots=5).slots, bus.run(slots=5).slots)
                self.assertEqual(other.options, ["--table", "Init", "--configuration"])

    def test_warnings_are_no_errors(self):
        with linsim.Cluster(VENDOR, configuration=True) as bus:
            self.assertIn("AssignFrameIdRange", {name for name, _ in bus.entries.values()})
            bus.run(slots=4)
            self.assertEqual(bus.close(), 0)

    def test_a_bench(self):
        left, right = mirrors(), linsim.Cluster(SWITCHES, configuration=True)
        with linsim.Bench(left, right) as bench:
            runs = bench.run(ms=20)
            self.assertEqual([it.slots[0].service for it in runs], [True, True])
            self.assertEqual([it.slots[0].name for it in runs], ["AssignNAD", "AssignFrameId"])

    def test_the_process_alone(self):
        with_option = linsim.Live(MIRRORS, "Init", configuration=True)
        self.assertEqual(with_option.ask("? next").text, "Init 0 AssignNAD")
        self.assertEqual(with_option.ask("open").log[1:3],
                         ["> slot Init 0 3C AssignNAD", "> service"])
        self.assertEqual(with_option.close(), 0)
