"""Several clusters on one clock."""
import os
import subprocess
import unittest

import linsim
from tests import DOOR, SEAT


def door(table=None, **options):
    return linsim.Cluster(DOOR, table, **options)


class OneClock(unittest.TestCase):
    def test_a_gateway(self):
        """What one line hears at the end of a slot is in the next slot of the other that begins
        then or later: at one time, ends come before starts."""
        for reverse in (False, True):
            first, second = door("Run"), door("Mixed")
            with linsim.Bench(*((second, first) if reverse else (first, second))) as bench:
                log = []

                @first.after("Win_Stat")
                def forward(slot):
                    second["WinMot"]["WinPos"] = slot.signals["WinPos"]
                    log.append(("forwarded", bench.time))

                second.after("Win_Stat")(
                    lambda slot: log.append((slot.signals["WinPos"], bench.time)))
                first["WinMot"]["WinPos"] = 77
                bench.run(ms=60)
                self.assertEqual(log, [(0, 10_000), ("forwarded", 20_000), (77, 50_000),
                                       ("forwarded", 60_000)])
                self.assertEqual((first.time, second.time, bench.time), (60_000,) * 3)

    def test_what_is_known_at_a_time(self):
        """A response is sent at the start of its slot: what a hook writes during it comes later."""
        with linsim.Bench(door("Run"), linsim.Cluster(SEAT, "Regul")) as bench:
            first, second = bench.clusters
            seen = []
            first.after("Win_Stat")(lambda _: second["Heater"].__setitem__("SeatTemp", 700))
            second.after("Heat_Stat")(lambda slot: seen.append((slot.signals["SeatTemp"],
                                                                slot.time, bench.time)))
            bench.run(ms=40)
            self.assertEqual(seen, [(620, 10_000, 20_000), (700, 30_000, 40_000)])

    def test_runs_of_parts_of_slots(self):
        with linsim.Bench(door("Run"), door("Mixed")) as bench:
            first, second = bench.clusters
            runs = bench.run(ms=15)
            self.assertEqual([len(it.slots) for it in runs], [1, 1])
            self.assertTrue(bench.is_open(first) and bench.is_open(second))
            self.assertEqual((bench.time, first.time), (15_000, 10_000))
            self.assertEqual([len(it.slots) for it in bench.run(ms=4)], [0, 0])
            self.assertEqual([[slot.number for slot in it.slots] for it in bench.run(ms=11)],
                             [[1, 2], [1, 2]])
            self.assertFalse(bench.is_open(first))
            self.assertEqual(bench.run(ms=0), [linsim.Run(), linsim.Run()])

    def test_requests_and_switches(self):
        with linsim.Bench(door("Run"), door("Mixed")) as bench:
            first, second = bench.clusters
            bench.run(ms=15)
            second.switch("Diag")                       # after the open slot
            second["WinMot"].when("22F190", "62F190")
            self.assertEqual(second["DCU"].request("WinMot", "22F190"), b"\x62\xF1\x90")
            self.assertEqual(first.time, second.time)
            with self.assertRaisesRegex(linsim.NoAnswer, "^3E00 to WinMot wasn't sent in 100 ms: "
                                        "1 of DCU waiting, and Run has no MasterReq "):
                first["DCU"].request("WinMot", "3E00", timeout_ms=100)
            for bus in (first, second):                 # each is a run of its own
                done = subprocess.run(
                    [os.environ["LINSIM"], "play", DOOR, "--strict", *bus.options], check=False,
                    input=bus.script + "expect done\n", universal_newlines=True,
                    stdout=subprocess.PIPE, stderr=subprocess.PIPE, timeout=60)
                self.assertEqual(done.returncode, 0, done.stderr)

    def test_one_sleeps(self):
        with linsim.Bench(door("Diag"), door("Run")) as bench:
            first, second = bench.clusters
            first.sleep()
            bench.run(ms=95)
            self.assertTrue(first.asleep)
            self.assertEqual((first.time, second.time), (10_000, 90_000))
            first.wake()
            first.after()(lambda slot: self.assertEqual(bench.time, 105_000 + 10_000 * (
                slot.number - 1)))
            bench.run(ms=20)
            self.assertEqual((first.time, second.time, bench.time), (30_000, 110_000, 115_000))
            second.sleep()
            second.switch("Diag")
            first.sleep()
            bench.run(ms=1000)
            self.assertTrue(first.asleep and second.asleep)
            self.assertEqual(bench.time, 1_115_000)

    def test_until_and_idle(self):
        with linsim.Bench(door("Run"), door("Diag")) as bench:
            first, second = bench.clusters
            first["WinMot"]["WinPos"] = 5
            bench.run(ms=1000, until=lambda: first["DCU"]["WinPos"] == 5)
            self.assertEqual(bench.time, 20_000)
            bench.run(ms=1000, until=lambda: True)
            self.assertEqual(bench.time, 20_000)
            second["DCU"].send("Mirror", "3E00")
            self.assertEqual([it.target for it in second.idle().received], ["Mirror"])
            second["DCU"].send("Mirror", "3E00")
            with self.assertRaisesRegex(linsim.Unmet, "^expected idle: 1 of DCU waiting "):
                second.idle(0)
            self.assertEqual(len(first.run(slots=3).slots), 3)
            self.assertEqual(len(first.run(ms=20).slots), 2)
            self.assertEqual(len(first.run(slots=9, until=lambda: True).slots), 0)

    def test_damage_and_hooks(self):
        with linsim.Bench(door("Run"), door("Run")) as bench:
            first, second = bench.clusters
            first.damage(frame="Win_Stat")
            second.damage(slot=2, data="0102")
            called = []
            second.before("Pan_Keys")(lambda: called.append(bench.time))
            runs = bench.run(ms=40)
            self.assertEqual([[slot.hurt for slot in it.slots] for it in runs],
                             [[None, b"", None, None], [None, None, b"\1\2", None]])
            self.assertEqual(called, [20_000])

    def test_a_hook_that_raises(self):
        """The next run goes on behind the slot."""
        with linsim.Bench(door("Run"), door("Run")) as bench:
            first, second = bench.clusters

            @first.after("Win_Stat")
            def hook(_):
                raise ZeroDivisionError
            with self.assertRaises(ZeroDivisionError):
                bench.run(ms=40)
            self.assertEqual((bench.time, first.time, second.time), (20_000, 20_000, 10_000))
            bench.run(ms=10)
            self.assertEqual((bench.time, first.time, second.time), (30_000,) * 3)


class Wrong(unittest.TestCase):
    def test_one_cluster_makes_no_slots(self):
        with linsim.Bench(door(), door()) as bench:
            first, second = bench.clusters
            for wrong in (first.slot, lambda: second.line("slots 4"), lambda: first.line("open")):
                with self.assertRaisesRegex(linsim.LinsimError,
                                            "^one cluster of a bench makes no slots "):
                    wrong()
            for makes_slots in (lambda: first.run(slots=1), lambda: second.idle(),
                                lambda: bench.run(ms=10)):
                with self.assertRaisesRegex(linsim.LinsimError, "^a hook makes no slots "):
                    bench.run(ms=10, until=lambda: makes_slots() and False)
            self.assertEqual(bench.time, 0)

    def test_a_hook_that_makes_slots(self):
        """Of any cluster. The run of the slots in hand keeps them."""
        with linsim.Bench(door(), door()) as bench:
            first, second = bench.clusters
            raised = []

            @second.after()
            def hook(_):
                for call in (lambda: bench.run(ms=10), lambda: first.run(slots=1), first.idle):
                    try:
                        call()
                    except linsim.LinsimError as error:
                        raised.append(str(error)[:20])
            self.assertEqual([len(it.slots) for it in bench.run(ms=40)], [4, 4])
            self.assertEqual(raised, ["a hook makes no slot"] * 12)

    def test_clusters(self):
        with door() as bus, door() as other:
            for wrong in (DOOR, [bus, other], None):
                self.assertRaises(TypeError, linsim.Bench, wrong)
            self.assertRaises(ValueError, linsim.Bench)
            self.assertRaises(ValueError, linsim.Bench, bus, bus)
            other.line("open")
            self.assertRaises(ValueError, linsim.Bench, bus, other)
            bench = linsim.Bench(bus)
            self.assertRaises(ValueError, linsim.Bench, bus)
            self.assertRaises(ValueError, bench.run, -1)
            self.assertRaises(TypeError, bench.run, 2.5)

    def test_a_block_that_fails(self):
        with self.assertRaises(ZeroDivisionError):
            with linsim.Bench(door(), door()) as bench:
                1 / 0
        for bus in bench.clusters:
            with self.assertRaisesRegex(linsim.LinsimError, "the program was ended"):
                bus.ask("time")

    def test_a_program_that_ends(self):
        """The other one is ended all the same."""
        with self.assertRaises(linsim.Ended):
            with linsim.Bench(door(), door()) as bench:
                bench.clusters[0].live._process.kill()
                bench.run(ms=10)
        self.assertIsNotNone(bench.clusters[1].live._process.returncode)


if __name__ == "__main__":
    unittest.main()
