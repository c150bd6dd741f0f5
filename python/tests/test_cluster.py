"""The cluster: signals, slots, hooks, damage, messages, copies, and what errors say."""
import functools
import json
import os
import subprocess
import tempfile
import unittest

import linsim
from tests import SEAT


def cluster(table=None, **options):
    return linsim.Cluster(SEAT, table, **options)


def run_of(command, script, *options):
    """What linsim writes of a script; it must end well."""
    words = [os.environ["LINSIM"], command, SEAT, *options]
    done = subprocess.run(words, input=script, stdout=subprocess.PIPE, stderr=subprocess.PIPE,
                          timeout=60, check=True, universal_newlines=True)
    return done.stdout


class Names(unittest.TestCase):
    def test_what_the_ldf_declares(self):
        with cluster() as bus:
            self.assertEqual([(it.name, it.number, it.nad) for it in bus.nodes.values()],
                             [("BCM", 0, None), ("Heater", 1, 0x21), ("Vent", 2, 0x22),
                              ("Motors", 3, 0x23), ("Occ", 4, 0x24), ("Panel", 5, 0x25)])
            self.assertEqual(bus.tables, ["Run", "Regul", "Resolve", "Diag", "Mixed", "Init"])
            self.assertEqual(len(bus.signals), 18)
            self.assertEqual(bus.frames, ["BCM_Heat", "BCM_Mot", "Heat_Stat", "Vent_Stat",
                                          "Mot_Stat", "Occ_Evt", "Pan_Evt", "Pan_Id", "SpoCmd",
                                          "EvtKeys"])

    def test_names_that_there_are_not(self):
        with cluster() as bus:
            for wrong, text in (
                (lambda: bus["Haeter"], r"node Haeter; did you mean Heater\?$"),
                (lambda: bus["BCM"]["HeatLvl"], r"signal HeatLvl; did you mean HeatLevel\?$"),
                (lambda: bus.switch("Dag"), r"table Dag; did you mean Diag\?$"),
                (lambda: bus.before("Heat_State"), r"frame Heat_State; did you mean Heat_Stat"),
                (lambda: bus.after("xyz"), r"seat.ldf has no frame xyz$"),
                (lambda: bus.damage(frame="MasterReqs"), "frame MasterReqs; did you mean Master"),
                (lambda: bus["BCM"].send(127, "00"), r"seat.ldf has no node 127$"),
                (lambda: bus.slot(leave=["Vents"]), r"node Vents; did you mean Vent\?$"),
                (lambda: cluster("Rum"), r"table Rum; did you mean Run\?$"),
            ):
                with self.assertRaisesRegex(linsim.UnknownName, text):
                    wrong()
            self.assertEqual(bus.script, "")


class Signals(unittest.TestCase):
    def test_written_and_heard(self):
        with cluster("Regul") as bus:
            bus["BCM"]["HeatLevel"].raw = 7
            bus["BCM"]["HeatEnable"] = True
            self.assertEqual(bus["Heater"]["HeatLevel"].raw, 0)
            slot = bus.slot()
            self.assertEqual(bus["Heater"]["HeatLevel"].raw, 7)
            self.assertEqual(slot.frame, "BCM_Heat")
            self.assertEqual(slot.signals, {"HeatLevel": 7, "HeatEnable": 1, "FanLevel": 0})
            self.assertEqual((slot.time, slot.end, bus.time), (0, 10_000, 10_000))

    def test_arrays(self):
        with cluster() as bus:
            self.assertEqual(bus["Panel"]["PanelSerial"].raw, b"1234")
            bus["Panel"]["PanelSerial"].raw = b"\1\2\3\4"
            self.assertEqual(bus["Panel"]["PanelSerial"].raw, b"\1\2\3\4")

    def test_no_values(self):
        with cluster() as bus:
            for value in (1.5, None, "5"):
                with self.assertRaises(TypeError):
                    bus["Heater"]["HeatCurrent"].raw = value
            for value, number, name in ((256, 5, "BadValue"), (b"\1", 5, "BadValue")):
                with self.assertRaises(linsim.Refused) as raised:
                    bus["Heater"]["HeatCurrent"].raw = value
                self.assertEqual((raised.exception.number, raised.exception.name), (number, name))
            with self.assertRaisesRegex(linsim.Refused, "refused 4 NotPublisher"):
                bus["Heater"]["HeatLevel"] = 1


class Errors(unittest.TestCase):
    def test_places(self):
        with cluster("Regul") as bus:
            place = rf"\({SEAT}, script line {{}}, {{}}\)$"
            with self.assertRaisesRegex(linsim.Unmet, "^expected signal BCM SeatTemp 690..710: 620 "
                                        + place.format(1, "no slot, 0 us")):
                bus.expect("signal BCM SeatTemp 690..710")
            bus.run(slots=5)
            with self.assertRaisesRegex(linsim.Refused, "^write HeatLevel 99: refused 5 BadValue "
                                        + place.format(3, "slot 4, 50000 us")):
                bus.line("write HeatLevel 99")
            with self.assertRaisesRegex(linsim.BadLine, "^slots many: expected a number from 0 to "
                                        "1000000, not many " + place.format(3, "slot 4, 50000 us")):
                bus.line("slots many")
            with self.assertRaisesRegex(linsim.LinsimError, "^Vent isn't due "
                                        + place.format(4, "slot 5, 60000 us")):
                bus.slot(leave=["Vent"])

    def test_what_is_unmet(self):
        with cluster() as bus:
            with self.assertRaises(AssertionError) as raised:
                bus.expect("signal BCM SeatTemp 700")
            error = raised.exception
            self.assertEqual((error.what, error.got), ("signal BCM SeatTemp 700", "620"))
            self.assertEqual(bus.close(), 6)

    def test_wrong_calls(self):
        with cluster() as bus:
            for wrong in (
                bus.run, bus.damage, functools.partial(bus.run, 1, 1),
                functools.partial(bus.damage, 1, "BCM_Heat"), functools.partial(bus.damage, -1),
                functools.partial(bus.damage, frame="BCM_Heat", nth=-1),
                functools.partial(bus["BCM"].send, "Heater", "1"),
            ):
                with self.assertRaises(ValueError):
                    wrong()
            with self.assertRaises(TypeError):
                bus["BCM"].send("Heater", 5)
            self.assertEqual(bus.script, "")


class Slots(unittest.TestCase):
    def test_numbers_and_ends(self):
        with cluster() as bus:
            self.assertEqual(len(bus.run(slots=7).slots), 7)
            self.assertEqual([it.number for it in bus.run(ms=30).slots], [7, 8, 9])
            asked = []
            run = bus.run(slots=100, until=lambda: asked.append(1) or len(asked) == 4)
            self.assertEqual([it.number for it in run.slots], [10, 11, 12])
            self.assertEqual(len(bus.run(ms=30, until=lambda: bus.time > 140_000).slots), 2)
            self.assertEqual(bus.slot().number, 15)
            self.assertEqual(bus.run(slots=0), linsim.Run())

    def test_damage(self):
        for look in (False, True):      # lines of several slots, and slot by slot
            with cluster("Regul") as bus:
                if look:
                    bus.after()(lambda slot: None)
                bus.run(slots=1)
                bus.damage(slot=0).damage(slot=3, data="0102").damage(slot=9)
                run = bus.run(slots=6)
                self.assertEqual([it.hurt for it in run.slots],
                                 [b"", None, None, b"\1\2", None, None])
                self.assertEqual([it.seen for it in run.slots], [
                    "damaged", "good", "good", "damaged", "good", "good"])
                run = bus.run(ms=60)
                self.assertEqual([it.number for it in run.slots if it.seen == "damaged"], [10])
                bus.run(ms=20)
                self.assertEqual(bus.live.lines[-1], "slot" if look else "slots 20 ms")

    def test_damage_of_frames(self):
        with cluster("Regul") as bus:
            bus.damage(frame="Heat_Stat", nth=1).damage(frame="BCM_Heat").damage(slot=0, data="00")
            run = bus.run(slots=6)
            self.assertEqual([it.hurt for it in run.slots], [b"\0", None, None, b"", None, None])
            bus.switch("Run")
            bus.damage(frame="SpoCmd").damage(frame="BCM_Mot")
            bus["BCM"]["HeatLevel"] = 1
            bus["BCM"]["MotCmd"] = 1
            run = bus.run(slots=11)
            damaged = [(it.name, it.member) for it in run.slots if it.hurt is not None]
            self.assertEqual(damaged, [("SpoCmd", "BCM_Heat"), ("SpoCmd", "BCM_Mot")])

    def test_damage_without_a_response(self):
        with cluster("Diag") as bus:
            run = bus.damage(slot=0).run(slots=1)
            self.assertIsNone(run.slots[0].hurt)
            self.assertEqual(run.refused, [("bus hurt -", 16, "NothingOnWire")])
            bus.line("open")
            with self.assertRaisesRegex(linsim.Refused, "^slot hurt -: refused 12 SlotOpen"):
                bus.damage(slot=0).slot()
            bus.line("finish")
            self.assertEqual(bus["BCM"].send("Heater", "3E00").number, 1)
            self.assertEqual(bus.damage(slot=0).slot().hurt, b"")

    def test_responses_left_out(self):
        with cluster("Regul") as bus:
            self.assertEqual(bus.slot(leave=["BCM"]).seen, "none")
            with self.assertRaisesRegex(TypeError, "^leave takes a list of nodes, not 'BCM'$"):
                bus.slot(leave="BCM")
            self.assertEqual(bus.slot(hurt="0102").hurt, b"\1\2")
            with self.assertRaisesRegex(linsim.LinsimError, "^Heater isn't due"):
                bus.slot(leave=["BCM", "Heater"])
            bus.damage(slot=0)
            slot = bus.slot(leave=["Heater"])                   # no response, so no damage
            self.assertEqual((slot.seen, slot.hurt), ("none", None))

    def test_hooks(self):
        with cluster("Regul") as bus:
            seen = []
            bus.before("Heat_Stat")(lambda: seen.append("before"))
            bus.before()(lambda: seen.append("each"))
            bus.after("Heat_Stat")(lambda slot: seen.append(slot.seen))
            bus.after()(lambda slot: seen.append(slot.number))
            bus.run(slots=2)
            self.assertEqual(seen, ["each", 0, "before", "each", "good", 1])

            @bus.after("BCM_Heat")
            def makes_slots(_):
                bus.run(slots=1)
            for make in (bus.slot, bus.idle, lambda: bus.run(ms=10)):
                bus["BCM"].send("Heater", "3E00")
                bus.switch("Regul")
                with self.assertRaisesRegex(linsim.LinsimError, "a hook makes no slots"):
                    make()

    def test_hooks_of_sporadic_and_event_triggered_frames(self):
        with cluster() as bus:
            seen = []
            for frame in ("SpoCmd", "BCM_Heat", "BCM_Mot", "EvtKeys", "Occ_Evt"):
                bus.before(frame)(lambda frame=frame: seen.append(frame))
                bus.after(frame)(lambda slot, frame=frame: seen.append((frame, slot.frame)))
            bus["BCM"]["HeatLevel"] = 1
            bus["Occ"]["Occupied"] = 1
            bus.run(slots=3)
            self.assertEqual(seen, [
                "SpoCmd", "BCM_Heat", ("SpoCmd", "BCM_Heat"), ("BCM_Heat", "BCM_Heat"),
                "EvtKeys", ("EvtKeys", "Occ_Evt"), ("Occ_Evt", "Occ_Evt")])

    def test_a_hook_may_change_what_comes(self):
        with cluster("Regul") as bus:
            bus.damage(frame="SlaveResp").damage(frame="MasterReq")
            bus["BCM"].send("Heater", "3E00")

            @bus.before("BCM_Heat")
            def change():
                bus.switch("Diag")
            slot = bus.slot()
            self.assertEqual((slot.name, slot.seen), ("MasterReq", "damaged"))

    def test_asleep(self):
        with cluster("Diag") as bus:
            bus.sleep()
            run = bus.run(slots=2, until=lambda: bus.asleep)
            self.assertEqual([it.data for it in run.slots], [bytes([0] + [255] * 7)])
            self.assertTrue(bus.asleep)
            bus.damage(slot=1)
            for make in (bus.slot, bus.idle, lambda: bus.run(slots=3), lambda: bus.run(ms=30),
                         lambda: bus.run(slots=3, until=lambda: False)):
                bus["BCM"].send("Heater", "3E00")
                with self.assertRaisesRegex(linsim.Refused, "refused 10 Asleep"):
                    make()
            bus.wake()
            self.assertFalse(bus.asleep)
            with self.assertRaisesRegex(linsim.Refused, "refused 11 Awake"):
                bus.wake()
            self.assertFalse(bus.asleep)
            self.assertEqual([it.seen for it in bus.run(slots=1).slots], ["good"])

    def test_a_run_has_what_came_of_it_alone(self):
        with cluster("Diag") as bus:
            bus["BCM"].send("Heater", "0102030405060708")
            run = bus.run(slots=1)
            slots, lost = list(run.slots), dict(run.lost)
            bus["BCM"].send("Heater", "3E00")
            self.assertEqual(bus["Heater"].timeout("down").number, 1)
            with self.assertRaisesRegex(linsim.Refused, "refused 18 NoTransfer"):
                bus["Heater"].timeout("down")
            self.assertEqual(bus.run(slots=2).slots[1].message.number, 2)
            self.assertEqual((run.slots, run.lost, run.sent, run.refused), (slots, lost, [], []))


class Messages(unittest.TestCase):
    def test_which_slot_carries_what(self):
        with cluster("Diag") as bus:
            first = bus["BCM"].send("Heater", "0102030405060708")
            second = bus["BCM"].send(linsim.ALL, b"\x3E\x80")
            self.assertEqual(first, linsim.Message("BCM", "Heater", 1, bytes(range(1, 9))))
            self.assertEqual(second, linsim.Message("BCM", "all", 2, b"\x3E\x80"))
            self.assertEqual(bus["BCM"].waiting, 2)
            run = bus.run(slots=8)
            self.assertEqual([it.message for it in run.slots],
                             [first, None, first, None, second, None, None, None])
            self.assertEqual(run.sent, [first, second])
            self.assertEqual(run.received[0],
                             linsim.Received("BCM", "Heater", first.data, 30_000))
            self.assertEqual(run.received[1:], [
                linsim.Received("BCM", node, b"\x3E\x80", 50_000, functional=True)
                for node in ("Heater", "Vent", "Motors", "Occ", "Panel")])
            self.assertEqual(bus.received, run.received)

    def test_lost(self):
        with cluster("Diag") as bus:
            message = bus["BCM"].send("Heater", "0102030405060708")
            run = bus.damage(slot=2).run(slots=4)
            self.assertEqual(run.lost, {message: "damaged"})
            self.assertEqual([it.message for it in run.slots], [message, None, message, None])

    def test_refused(self):
        with cluster(capacity=1) as bus:
            bus["BCM"].send("Heater", "3E00")
            with self.assertRaisesRegex(linsim.Refused, "refused 9 QueueFull"):
                bus["BCM"].send("Heater", "3E00")
            bus["BCM"].close()
            with self.assertRaisesRegex(linsim.Refused, "refused 8 Closed"):
                bus["BCM"].send("Heater", "3E00")

    def test_handlers(self):
        with cluster("Diag") as bus:
            heater = bus["Heater"]

            @heater.on_message
            def answer(data):
                return [(0, b"\x7F" + data[:1] + b"\x78"), (100, bytes([data[0] + 0x40]))]
            start = bus.time
            got = bus["BCM"].request("Heater", "22F190", timeout_ms=50, pending_ms=200)
            self.assertEqual(got, b"\x62")
            self.assertGreaterEqual(bus.time - start, 100_000)
            with self.assertRaisesRegex(linsim.NoAnswer, "^Heater doesn't answer 22F190 in 50 ms "):
                bus["BCM"].request("Heater", "22F190", timeout_ms=50, pending_ms=50)

    def test_response_pending_without_an_end(self):
        with cluster("Diag") as bus:
            bus.every(10, "send Heater BCM 7F2278")
            with self.assertRaisesRegex(linsim.NoAnswer, "^Heater answers 22 with response pending "
                                        r"alone \(.*slot \d+, \d+ us\)$"):
                bus["BCM"].request("Heater", "22")

    def test_times_of_answers(self):
        with cluster("Diag") as bus:
            bus["Heater"].on_message(lambda _: [(0, b"\1"), (40, b"\2"), (100, b"\3")])
            bus["BCM"].send("Heater", "3E00")
            bus.slot()
            self.assertEqual(bus["Heater"].waiting, 1)
            run = bus.idle()
            self.assertEqual([(it.data, it.time) for it in run.received],
                             [(b"\1", 20_000), (b"\2", 60_000), (b"\3", 160_000)])

    def test_answers_in_the_order_of_their_times(self):
        """Of whichever handler they are."""
        with cluster("Diag") as bus:
            heater = bus["Heater"]
            heater.on_message(lambda _: [(200, b"\3")])
            heater.on_message(lambda _: [(40, b"\1"), (60, b"\2")])
            bus["BCM"].send("Heater", "3E00")
            run = bus.idle()
            self.assertEqual([(it.data, it.time) for it in run.received if it.target == "BCM"],
                             [(b"\1", 60_000), (b"\2", 120_000), (b"\3", 220_000)])

    def test_timeouts_of_both_links(self):
        with cluster("Diag") as bus:
            for source, target in (("BCM", "Heater"), ("Heater", "BCM")):
                bus[source].send(target, bytes(range(8)))
            bus["BCM"].send("Heater", bytes(8))
            bus.run(slots=4)
            bus["Heater"].send("BCM", bytes(8))
            bus.run(slots=2)
            lost = [bus["Heater"].timeout("down"), bus["Heater"].timeout("up")]
            self.assertEqual([(it.source, it.number) for it in lost], [("BCM", 2), ("Heater", 2)])

    def test_handlers_and_functional_addressing(self):
        with cluster("Diag") as bus:
            heard = []
            bus["Heater"].on_message(lambda data: heard.append(data) or "7E")
            bus["BCM"].send(linsim.ALL, "3E00")
            bus.idle()
            self.assertEqual((heard, len(bus.received)), ([b"\x3E\x00"], 5))
            self.assertEqual(bus["BCM"].request("Heater", "3E00"), b"\x7E")

    def test_rules(self):
        with cluster("Diag") as bus:
            bus["Heater"].when("22....", "62 $1 $2", ("00", 100))
            bus["Heater"].when("3E80")
            bus["Heater"].when("*", b"\x7F\x00\x11")
            bus["BCM"].send("Heater", "22F190")
            bus.idle()
            bus.expect("message Heater BCM 62F190 within 40 ms")
            bus.expect("message Heater BCM 00")
            bus.expect("no lost")
            self.assertEqual(bus["BCM"].request("Heater", "1003", match=None), b"\x7F\x00\x11")
            with self.assertRaises(linsim.NoAnswer):
                bus["BCM"].request("Heater", "3E80")
            bus.timeouts(50)
            bus.every(1000, "send BCM Heater 3E80")
            bus.timeouts(None)
            self.assertEqual(len(bus.run(ms=2100).sent), 2)

    def test_idle(self):
        with cluster("Diag") as bus:
            bus["Heater"].when("22*", ("62", 100))
            bus["Heater"].on_message(lambda data: [(200, b"\1")])
            bus["BCM"].send("Heater", "22F190")
            with self.assertRaisesRegex(linsim.Unmet, "idle: 1 of Heater noted, 1 of handlers "):
                bus.idle(2)
            run = bus.idle()
            self.assertEqual([it.data for it in run.received], [b"\x62", b"\1"])
            self.assertEqual(bus.idle().slots, [])

    def test_what_came_until_idle_without_hooks(self):
        with cluster("Diag") as bus:
            message = bus["BCM"].send("Heater", "22F190")
            run = bus.idle()
            self.assertEqual(([it.message for it in run.slots], run.sent), ([message], [message]))
            self.assertEqual([it.target for it in run.received], ["Heater"])


class Records(unittest.TestCase):
    def busy(self):
        """A cluster in which much has happened."""
        bus = cluster()
        bus["Heater"].when("22*", "62 $1", ("00", 30))
        bus["BCM"]["MotCmd"] = 2
        bus["Occ"]["Occupied"] = 1
        bus["Panel"]["Keys"] = 3
        bus.run(slots=12)
        bus.switch("Mixed")
        bus["BCM"].send("Heater", "22F190")
        bus["BCM"].send("Vent", bytes(range(30)))
        bus["Vent"].send("BCM", bytes(range(30)))
        bus.damage(frame="SlaveResp", nth=4).damage(slot=1).damage(slot=0).damage(frame="MasterReq")
        bus.run(slots=40)
        bus["BCM"].send(linsim.ALL, "3E80")
        for wrong in ("write Heater HeatLevel 1", "wake", "wrte", "expect asleep"):
            with self.assertRaises((linsim.LinsimError, AssertionError)):
                bus.line(wrong)
        bus.slot(leave=["BCM"])
        bus.switch("Init")
        bus.run(slots=2)
        bus.switch("Diag")
        bus.sleep()
        bus.run(slots=20, until=lambda: bus.asleep)
        bus.wake()
        bus.idle()
        return bus

    def test_the_script_is_the_run(self):
        with self.busy() as bus:
            script = "".join(it for it in bus.script.splitlines(True) if "expect" not in it)
            log = run_of("play", script)
            other = linsim.Live(SEAT, form="log")
            answers = other.ask_all(bus.live.lines)
            self.assertEqual(log, "".join(line + "\n" for it in answers for line in it.log))
            self.assertNotIn("wrte", script)
            self.assertEqual(other.close(), 6)

    def test_slots_are_those_of_jsonl(self):
        """What is followed in the log with names is what the program itself says of the run."""
        with self.busy() as bus, cluster() as other:
            run = other.history.run
            for answer in other.live.ask_all(bus.live.lines):
                other.history.take(answer.log)
            script = "".join(it for it in bus.script.splitlines(True) if "expect" not in it)
        told = [json.loads(it) for it in run_of("play", script, "--to", "jsonl").splitlines()]
        of = {kind: [it for it in told if it["type"] == kind] for kind in (
            "slot", "message", "sent", "lost", "refused", "accepted")}
        self.assertEqual([
            (it.number, it.time, it.end - it.time, it.table, it.entry, it.header, it.due, it.seen,
             [{"node": node, "bytes": row.hex().upper()} for node, row in it.answers.items()],
             it.hurt if it.hurt is None else it.hurt.hex().upper(),
             it.data if it.data is None else it.data.hex().upper(), it.signals,
             it.message and {"host": it.message.source, "number": it.message.number})
            for it in run.slots
        ], [
            tuple(it[key] for key in (
                "slot", "time_us", "delay_us", "table", "entry", "header", "due", "seen",
                "answers", "hurt", "data", "signals", "message"))
            for it in of["slot"]
        ])
        self.assertEqual(
            [(it.source, it.target, it.data.hex().upper(), it.time) for it in run.received],
            [(it["from"], it["to"], it["bytes"], it["time_us"]) for it in of["message"]])
        self.assertEqual([(it.source, it.number) for it in run.sent],
                         [(it["host"], it["number"]) for it in of["sent"]])
        self.assertEqual([(it.source, it.number, why) for it, why in run.lost.items()],
                         [(it["host"], it["number"], it["cause"]) for it in of["lost"]])
        self.assertEqual(run.refused,
                         [(it["step"], it["number"], it["name"]) for it in of["refused"]])
        self.assertTrue(all(of.values()), {kind: len(it) for kind, it in of.items()})

    def test_copies(self):
        with cluster("Diag") as bus:
            bus["BCM"].send("Heater", "22F190")
            bus.run(slots=1)
            bus.line("open")
            with bus.copy() as other:
                self.assertEqual((other.time, other.script), (bus.time, bus.script))
                self.assertEqual(other["BCM"].send("Heater", "00").number, 2)
                self.assertEqual(other.line("finish").log[-1], "> time 20000")
            self.assertEqual(bus["BCM"].waiting, 0)
            self.assertEqual(bus["BCM"].send("Heater", "00").number, 2)

    def test_a_copy_of_an_ended_run(self):
        with cluster("Diag", capacity=3, seconds=30) as bus:
            bus["BCM"].send("Heater", "22F190")
            bus.run(slots=1)
        with bus.copy() as other:
            self.assertEqual((other.script, other.received), (bus.script, bus.received))
            self.assertEqual(other.live.seconds, 30)
            for _ in range(3):
                other["BCM"].send("Vent", "3E00")
            with self.assertRaisesRegex(linsim.Refused, "QueueFull"):
                other["BCM"].send("Vent", "3E00")


class AtMarks(unittest.TestCase):
    def test_a_run_from_a_mark_twice(self):
        with cluster("Diag") as bus:
            bus["Heater"].when("22F190", "62F190 41")
            bus["BCM"].send("Heater", "22F190")
            bus.run(slots=1)
            bus.mark("asked")
            script = bus.script
            seen = []
            for _ in range(2):
                run = bus.idle()
                seen.append((run, bus.time, bus.script, list(bus.received)))
                bus["BCM"].send("Vent", "3E00")
                bus.back("asked")
                self.assertEqual((bus.time, bus.script, bus["BCM"].waiting), (10000, script, 0))
                self.assertEqual(len(bus.received), 1)
            self.assertEqual(seen[0], seen[1])
            self.assertNotIn("mark", bus.script)
            self.assertEqual(run_of("play", bus.script, "--to", "named").count("> slot"), 1)

    def test_the_beginning(self):
        with cluster() as bus:
            bus["BCM"]["HeatLevel"] = 3
            bus["BCM"].send("Heater", "3E00")
            bus.run(slots=3)
            bus.back()
            self.assertEqual((bus.time, bus.script, bus.received, bus.asleep), (0, "", [], False))
            self.assertEqual(bus["BCM"]["HeatLevel"].raw, 0)
            self.assertEqual(bus["BCM"].send("Heater", "3E00").number, 1)
            self.assertEqual(bus.slot().number, 0)

    def test_marks_that_move_and_go(self):
        with cluster() as bus:
            bus.mark("a")
            bus.run(slots=1)
            bus.line("mark b  # a comment")
            bus.mark("a")
            bus.run(slots=1)
            bus.back("b")
            self.assertEqual(bus.history.finished, 1)
            for name, reason in (("a", "unknown mark a"), ("start x", "usage: back NAME"),
                                 ("1", "expected a name, not 1")):
                with self.assertRaisesRegex(linsim.BadLine, reason):
                    bus.back(name)
            with self.assertRaisesRegex(linsim.BadLine, "start is the mark of the beginning"):
                bus.mark("start")
            self.assertEqual(bus.history.finished, 1)

    def test_an_open_slot(self):
        with cluster("Diag") as bus:
            bus["BCM"].send("Heater", "3E00")
            bus.line("open")
            bus.mark("open")
            for _ in range(2):
                bus.line("answer BCM")
                bus.line("finish")
                self.assertEqual(bus.received[-1].data, b"\x3e\x00")
                bus.back("open")
                self.assertEqual((bus.history.opened.due, bus.history.opened.answers),
                                 (["BCM"], {}))

    def test_damage_and_answers_that_are_owed(self):
        with cluster("Diag") as bus:
            bus["Heater"].on_message(lambda data: (b"\x7e\x00", 15))
            bus.damage(slot=3)
            bus["BCM"].send("Heater", "3E00")
            bus.run(slots=1)
            bus.mark("owed")
            runs = []
            for _ in range(2):
                runs.append(bus.run(slots=5))
                bus.damage(slot=0)
                bus.back("owed")
            self.assertEqual(runs[0], runs[1])
            self.assertEqual([it.hurt for it in runs[0].slots], [None, None, b"", None, None])
            self.assertEqual([it.data for it in runs[0].lost], [b"\x7e\x00"])

    def test_where_nothing_goes_back(self):
        with cluster() as bus:
            @bus.after()
            def goes_back(_):
                bus.back()
            with self.assertRaisesRegex(linsim.LinsimError, "^a hook makes no slots and doesn't go"):
                bus.slot()
            self.assertEqual(bus.history.finished, 1)
        with linsim.Bench(cluster(), cluster()) as bench:
            with self.assertRaisesRegex(linsim.LinsimError, "^one cluster of a bench makes no slots"):
                bench.clusters[0].back()


if __name__ == "__main__":
    unittest.main()
