"""What ends or raises: hooks that make slots or more hooks, handlers that raise, threads, odd
arguments, odd names, a system without files or folders."""
import os
import pickle
import resource
import shutil
import signal
import subprocess
import sys
import tempfile
import threading
import time
import unittest
import unittest.mock
from array import array
from decimal import Decimal

import linsim
from tests import DOOR, SEAT, TOP

KEYS = os.path.join(TOP, "examples", "keys.ldf")


def door(table=None, **options):
    return linsim.Cluster(DOOR, table, **options)


def in_python(text, **options):
    """What a Python process with the package writes of this text."""
    done = subprocess.run([sys.executable, "-c", text], cwd=os.path.join(TOP, "python"),
                          stdout=subprocess.PIPE, stderr=subprocess.STDOUT, timeout=60,
                          universal_newlines=True, check=False, **options)
    return done.stdout


class Hooks(unittest.TestCase):
    def test_until_makes_no_slots(self):
        with door() as bus:
            for makes_slots in (bus.slot, bus.idle, lambda: bus.run(slots=1),
                                lambda: bus.line("slots 2"), lambda: bus.line(" h:DCU open"),
                                lambda: bus["DCU"].request("WinMot", "3E00")):
                with self.assertRaisesRegex(linsim.LinsimError, "^a hook makes no slots "):
                    bus.run(ms=100, until=lambda: makes_slots() and False)
            self.assertEqual(bus.script, "")
            self.assertEqual(len(bus.run(ms=20, until=lambda: bus.line("# slots 2") is None).slots),
                             2)

    def test_a_generator_makes_no_slots(self):
        with door("Diag") as bus:
            def answer(_):
                bus.run(slots=1)
                yield 0, b"\x7E\x00"
            bus["WinMot"].on_message(answer)
            bus["DCU"].send("WinMot", "3E00")
            with self.assertRaisesRegex(linsim.LinsimError, "^a hook makes no slots "):
                bus.run(slots=1)
            self.assertEqual(bus.time, 10_000)

    def test_a_generator_without_an_end(self):
        with door("Diag") as bus:
            def answer(_):
                while True:
                    yield 10, b"\x7E\x00"
            bus["WinMot"].on_message(answer)
            bus["DCU"].send("WinMot", "3E00")
            with self.assertRaisesRegex(linsim.LinsimError, "more than 10000 answers"):
                bus.run(slots=1)
            self.assertEqual(bus["DCU"].waiting, 0)

    def test_hooks_that_add_hooks(self):
        """They are called from the next slot on."""
        with door("Diag") as bus:
            called = []

            def before():
                called.append("before")
                bus.before()(before)

            def after(_):
                called.append("after")
                bus.after()(after)

            def handler(_):
                called.append("message")
                bus["WinMot"].on_message(handler)
            before()
            after(None)
            handler(None)
            called.clear()
            bus["DCU"].send("WinMot", "3E00")
            bus.slot()
            self.assertEqual(called, ["before", "message", "after"])

    def test_what_raises_leaves_nothing_out(self):
        """The first exception comes when all others were called."""
        class Failed(BaseException):
            """What pytest.fail raises is one of these."""

        def fails(_):
            raise Failed("first")

        def fails_too(_):
            raise ZeroDivisionError

        with door("Diag") as bus:
            heard = []
            motor = bus["WinMot"]
            for handler in (fails, fails_too, lambda data: heard.append(data) or "7E00"):
                motor.on_message(handler)
            bus.after()(fails_too)
            bus.after()(lambda slot: heard.append(slot.number))
            bus["DCU"].send("WinMot", "3E00")
            with self.assertRaisesRegex(Failed, "first"):
                bus.slot(leave=["Panel"])
            self.assertEqual((heard, motor.waiting), ([b"\x3E\x00", 0], 1))

    def test_answers_of_handlers_that_are_gone(self):
        with door("Diag") as bus:
            bus["WinMot"].on_message(lambda _: [(20, b"\1")])
            bus["DCU"].send("WinMot", "3E00")
            bus.slot()
            bus["WinMot"].handlers.clear()
            self.assertEqual([it.data for it in bus.run(slots=5).received], [b"\1"])


class Damage(unittest.TestCase):
    def test_where_another_node_leaves(self):
        with linsim.Cluster(KEYS) as bus:
            bus["left"]["LeftKey"], bus["right"]["RightKey"] = 1, 2
            bus.run(slots=100, until=lambda: bus.ask("next").endswith(" Keys"))
            bus.damage(slot=0, data="0102")
            slot = bus.slot(leave=["right"])
            self.assertEqual((slot.due, list(slot.answers), slot.seen, slot.hurt),
                             (["left", "right"], ["left"], "damaged", b"\1\2"))
            self.assertIn("\nopen\nanswer left\nleave right\nhurt 0102\nfinish\n", bus.script)

    def test_where_all_nodes_leave(self):
        with linsim.Cluster(SEAT, "Regul") as bus:
            run = []
            bus.after()(lambda slot: run.append(bus.history.run))
            slot = bus.damage(frame="BCM_Heat", nth=1).damage(slot=0).slot(leave=["BCM"])
            self.assertEqual((slot.seen, slot.hurt, run[0].refused),
                             ("none", None, [("bus hurt -", 16, "NothingOnWire")]))
            self.assertEqual([it.hurt for it in bus.run(slots=3).slots], [None, b"", None])

    def test_where_a_call_raises(self):
        with linsim.Cluster(SEAT, "Regul") as bus:
            bus.damage(frame="BCM_Heat").damage(slot=0)
            for wrong in (lambda: bus.slot(hurt="1"), lambda: bus.slot(hurt=5),
                          lambda: bus.slot(leave=["Nobody"]), lambda: bus.slot(leave="BCM")):
                with self.assertRaises((ValueError, TypeError, linsim.UnknownName)):
                    wrong()
            self.assertEqual(bus.slot().hurt, b"")
            self.assertEqual(bus.slot(leave=iter(["Heater"])).seen, "none")


class Arguments(unittest.TestCase):
    def test_numbers(self):
        for look in (False, True):
            with door("Diag") as bus:
                if look:
                    bus.after()(lambda slot: None)
                for wrong in (
                    lambda: bus.run(ms=2.5), lambda: bus.run(slots=2.5), lambda: bus.idle(2.5),
                    lambda: bus.run(ms="5"), lambda: bus.damage(slot=0.5),
                    lambda: bus.damage(frame="MasterReq", nth=0.5),
                    lambda: bus["DCU"].request("WinMot", "3E00", timeout_ms=2.5),
                    lambda: bus["DCU"].request("WinMot", "3E00", pending_ms=2.5),
                ):
                    self.assertRaises(TypeError, wrong)
                for wrong in (
                    lambda: bus.run(ms=-1), lambda: bus.run(slots=-1), lambda: bus.idle(-1),
                    lambda: bus["DCU"].request("WinMot", "3E00", timeout_ms=-1),
                    lambda: bus.damage(slot=-1), lambda: bus.damage(frame="MasterReq", nth=-1),
                ):
                    self.assertRaises(ValueError, wrong)
                self.assertEqual((bus.run(ms=0), bus.run(slots=0), bus.idle(0)),
                                 (linsim.Run(), linsim.Run(), linsim.Run()))
                self.assertEqual(bus.script, "")
                bus["DCU"].send("WinMot", "3E00")
                with self.assertRaisesRegex(linsim.Unmet, "^expected idle: 1 of DCU waiting "):
                    bus.idle(0)

    def test_of_rules(self):
        with door("Diag") as bus:
            for wrong in (lambda: bus.timeouts(2.5), lambda: bus.timeouts("5"),
                          lambda: bus.every(2.5, "send DCU 126 3E80"),
                          lambda: bus["WinMot"].when(b"\x3E", "7E"),
                          lambda: bus["DCU"].request(linsim.ALL, "3E00")):
                self.assertRaises(TypeError, wrong)
            for wrong in (lambda: bus.timeouts(-1), lambda: bus.every(-1, "send DCU 126 3E80")):
                self.assertRaises(ValueError, wrong)
            self.assertEqual(bus.script, "")

    def test_of_a_cluster(self):
        for options, error in (({"seconds": "5"}, TypeError), ({"seconds": None}, TypeError),
                               ({"seconds": 0}, ValueError), ({"seconds": -1}, ValueError),
                               ({"seconds": float("nan")}, ValueError),
                               ({"capacity": 2.5}, TypeError), ({"capacity": -1}, ValueError),
                               ({"capacity": "5"}, TypeError), ({"table": 5}, (
                                   TypeError, linsim.UnknownName)),
                               ({"program": []}, ValueError), ({"program": [5]}, TypeError),
                               ({"program": "a\0b"}, ValueError)):
            before = os.listdir("/proc/self/fd")
            for start in (linsim.Cluster, linsim.Live):
                with self.assertRaises(error, msg=options):
                    start(DOOR, **options)
            self.assertEqual(len(os.listdir("/proc/self/fd")), len(before), options)
        for wrong in (5, None, [DOOR]):
            self.assertRaises(TypeError, linsim.Cluster, wrong)
            self.assertRaises(TypeError, linsim.Live, wrong)

    def test_no_limit_of_time(self):
        for seconds in (float("inf"), 1e12, 10**30):
            with door(seconds=seconds) as bus:
                bus.after()(lambda slot: None)
                self.assertEqual(len(bus.run(slots=2).slots), 2)

    def test_integers_of_other_types(self):
        """As those of numpy, of which bytes() would make as many zeros."""
        class Number:
            def __index__(self):
                return 5

        class Numbers(list):
            def __index__(self):
                raise TypeError("only a row of one number is an integer")
        with door("Diag") as bus:
            for wrong in (Number(), 5, True, 0.5, None, [256], [-1], ["3E"]):
                self.assertRaises((TypeError, ValueError), bus["DCU"].send, "WinMot", wrong)
            for data in (Numbers([0x3E, 0x80]), array("H", [0x3E, 0x80]), memoryview(b"\x3E\x80"),
                         (it for it in (0x3E, 0x80)), (0x3E, 0x80)):
                self.assertEqual(bus["DCU"].send("WinMot", data).data, b"\x3E\x80")
            bus["DCU"]["WinTarget"] = Number()
            self.assertTrue(bus["DCU"]["WinTarget"] == Number())
            with self.assertRaisesRegex(TypeError, "doesn't compare with"):
                bool(bus["DCU"]["WinTarget"] == Numbers([5, 6]))
            for wrong in (0.5, "opening", None, bus["DCU"]["WinTarget"]):
                with self.assertRaisesRegex(TypeError, r"^a raw value is an int or bytes, not "):
                    bus["DCU"]["WinTarget"] = wrong

    def test_loops_over_a_cluster_and_a_node(self):
        with door() as bus:
            for wrong in (lambda: "WinMot" in bus, lambda: list(bus),
                          lambda: "WinPos" in bus["DCU"], lambda: list(bus["DCU"]),
                          lambda: bus["DCU"].send("WinMot", bus["DCU"])):
                self.assertRaises(TypeError, wrong)
            self.assertIn("WinMot", bus.nodes)

    def test_texts_that_would_be_comments(self):
        with door("Diag") as bus:
            motor = bus["WinMot"]
            for wrong in (lambda: setattr(motor["WinTemp"], "physical", "20.5 # 30"),
                          lambda: setattr(motor["WinTemp"], "physical", "20.5\t#"),
                          lambda: motor["WinTemp"].set_nearest("#20.5"),
                          lambda: motor.when("3E00 #", "7E"), lambda: motor.when("3E00", "7E #")):
                with self.assertRaisesRegex(linsim.BadLine, ": a field that begins with # starts a "
                                            r"comment \(.*, no slot, 0 us\)$"):
                    wrong()
            self.assertEqual((motor["WinTemp"] == 450, bus.script), (True, ""))

    def test_numbers_of_many_digits(self):
        with door() as bus:
            for value in (1e300, Decimal("1E+999999999999"), Decimal("-1E-999999999999"),
                          float("inf"), float("nan"), 10**300):
                with self.assertRaises(linsim.BadLine, msg=value):
                    bus["DCU"]["WinTarget"].physical = value

    def test_waits_of_handlers(self):
        for wait, error in ((-1, ValueError), (0.5, TypeError)):
            with door("Diag") as bus:
                bus["WinMot"].on_message(lambda _: [(wait, b"\1")])
                bus["DCU"].send("WinMot", "3E00")
                self.assertRaises(error, bus.slot)

    def test_raw_values_of_no_signal(self):
        with door() as bus:
            for value in (-1, 65_536, b"123456789"):
                with self.assertRaises(linsim.BadLine):
                    bus["DCU"]["WinTarget"] = value
            for value in (256, 65_535, b"", b"12345678"):
                with self.assertRaisesRegex(linsim.Refused, "BadValue"):
                    bus["DCU"]["WinTarget"] = value


class Pending(unittest.TestCase):
    def test_as_many_responses_pending_as_the_page_says(self):
        for count in (100, 101):
            with door("Diag") as bus:
                bus["WinMot"].on_message(lambda _: [(20, b"\x7F\x3E\x78")] * count + [(20, "7E00")])
                if count == 100:
                    self.assertEqual(bus["DCU"].request("WinMot", "3E00"), b"\x7E\x00")
                else:
                    with self.assertRaisesRegex(linsim.NoAnswer, "with response pending alone"):
                        bus["DCU"].request("WinMot", "3E00")


class Ends(unittest.TestCase):
    def test_place(self):
        """Also errors of the process say where the run was."""
        where = r"\(.*door_zone.ldf, script line 1, slot 2, 30000 us\)$"
        with door() as bus:
            bus.run(slots=3)
            bus.live._process.kill()
            with self.assertRaisesRegex(linsim.Ended, r"^\? time: linsim was ended by SIGKILL "
                                        + where) as raised:
                bus.ask("time")
            self.assertEqual(str(pickle.loads(pickle.dumps(raised.exception))),
                             str(raised.exception))
            for call in (lambda: bus.ask("time"), lambda: bus.run(slots=2), bus.slot, bus.idle):
                with self.assertRaisesRegex(linsim.LinsimError, "^the program was ended " + where):
                    call()
        with door() as bus:
            bus.run(slots=3)
            bus.live.seconds = 0.2
            bus.live._process.send_signal(signal.SIGSTOP)
            with self.assertRaisesRegex(linsim.TimeLimit, r"^\? time: no answer from linsim within "
                                        "0.2 seconds; terminated " + where) as raised:
                bus.ask("time")
            self.assertEqual(str(pickle.loads(pickle.dumps(raised.exception))),
                             str(raised.exception))

    def test_a_fork(self):
        """It would take answers that aren't its own, or wait for an end that never comes."""
        text = f"""
import os, linsim
bus = linsim.Cluster({DOOR!r})
if not os.fork():
    for call in (lambda: bus.ask("time"), bus.slot, bus.close):
        try:
            call()
        except linsim.LinsimError as error:
            print(str(error).partition(" (")[0], flush=True)
    os._exit(0)
os.wait()
print(bus.slot().end, bus.close())
"""
        told = "the program belongs to the process that started it\n" * 3
        self.assertEqual(in_python(text), told + "10000 0\n")


class Threads(unittest.TestCase):
    def in_threads(self, *calls):
        """Makes the calls, each in a thread of its own. What they raised."""
        raised = []

        def made(call):
            try:
                call()
            except Exception as error:
                raised.append(error)
        threads = [threading.Thread(target=made, args=[it], daemon=True) for it in calls]
        for it in threads:
            it.start()
        for it in threads:
            it.join(60)
        self.assertFalse(any(it.is_alive() for it in threads))
        return raised

    def test_lines(self):
        with door("Diag") as bus:
            motor, commander = bus["WinMot"], bus["DCU"]
            wrong = []

            def works(number):
                for _ in range(100):
                    commander["WinTarget"] = number
                    if bus.ask("time") != "0" or motor["WinPos"] != 0:
                        wrong.append(number)

            def sends():
                for _ in range(50):
                    try:
                        message = commander.send("WinMot", "3E00")
                        if message.source != "DCU":
                            wrong.append(message)
                    except linsim.Refused:
                        pass
            calls = [lambda it=it: works(it) for it in range(3)]
            self.assertEqual(self.in_threads(*calls, sends), [])
            self.assertEqual((wrong, commander.waiting), ([], 16))

    def test_slots(self):
        """Each call has its own slots, with hooks and without them."""
        for look in (False, True):
            with door() as bus:
                if look:
                    bus.after()(lambda slot: bus.ask("time"))
                runs = []

                def works():
                    for _ in range(20):
                        runs.append([it.number for it in bus.run(slots=3).slots])
                        bus.line("slots 1")
                self.assertEqual(self.in_threads(*[works] * 4), [])
                self.assertEqual(bus.time, 80 * 4 * 10_000)
                self.assertTrue(all(it == list(range(it[0], it[0] + 3)) for it in runs), runs)

    def test_a_hook_that_waits_for_the_slots_of_another_thread(self):
        with door(seconds=0.5) as bus:
            raised = []

            @bus.after()
            def hook(_):
                raised.extend(self.in_threads(bus.slot))
            bus.slot()
            self.assertRegex(str(raised[0]), "^another thread makes slots ")

    def test_a_request_whose_response_another_thread_brings(self):
        """It may arrive right after the request was handed over."""
        with door("Diag") as bus:
            bus["WinMot"].when("3E00", "7E00")
            commander = bus["DCU"]
            sends = commander.send

            def send(to, data):
                message = sends(to, data)
                self.assertEqual(self.in_threads(works), [])
                return message

            def works():
                if bus.turn.acquire(timeout=0.2):       # else the request still has it
                    bus.turn.release()
                    bus.run(slots=4)
            commander.send = send
            self.assertEqual(commander.request("WinMot", "3E00", timeout_ms=100), b"\x7E\x00")

    def test_benches(self):
        """Each call has its own time and its own slots."""
        first, second = door("Run"), door("Mixed")
        with linsim.Bench(first, second) as bench:
            runs = []

            def works():
                for _ in range(10):
                    runs.append(len(bench.run(ms=30)[0].slots))
                    runs.append(len(first.run(slots=2).slots))
            self.assertEqual(self.in_threads(*[works] * 3), [])
            self.assertEqual(bench.time, first.time)
            self.assertEqual(bench.time, 30 * 30_000 + 30 * 20_000)
            self.assertEqual(sorted(runs), [2] * 30 + [3] * 30)

    def test_a_thread_that_ends_the_program(self):
        with door() as bus:
            def ends():
                time.sleep(0.1)
                bus.live.kill()

            def works():
                while True:
                    bus.run(slots=1000)
            raised = self.in_threads(works, ends)
            self.assertEqual([isinstance(it, linsim.LinsimError) for it in raised], [True], raised)


class Odd(unittest.TestCase):
    def test_files_whose_names_begin_with_a_dash(self):
        before = os.getcwd()
        self.addCleanup(os.chdir, before)
        with tempfile.TemporaryDirectory() as folder:
            shutil.copy(DOOR, os.path.join(folder, "-door.ldf"))
            shutil.copy(DOOR, os.path.join(folder, "-"))
            with open(os.path.join(folder, "--help"), "w", encoding="ascii") as file:
                file.write("x")
            os.chdir(folder)
            for name in ("-door.ldf", b"-door.ldf", "-"):
                with linsim.Cluster(name) as bus:
                    self.assertEqual(bus.run(slots=1).slots[0].name, "SpoCmd")
                    self.assertEqual(bus.copy().close(), 0)
            for start in (linsim.Cluster, linsim.Live):
                with self.assertRaisesRegex(linsim.LdfError, r"^\./--help:1:1: fault 4 ") as raised:
                    start("--help")
                self.assertEqual(raised.exception.faults[0].file, "./--help")
                with self.assertRaises(linsim.StartError):
                    start("--version")
            os.chdir(before)

    def test_a_program_that_is_another_one(self):
        for text in ("node x", "place 0 0 0", "slot 0 0 x", "range 0 x 1"):
            words = [sys.executable, "-c", f"print({text!r})"]
            with self.assertRaisesRegex(linsim.StartError,
                                        f"^unexpected output of linsim check: {text}$"):
                linsim.Cluster(SEAT, program=words)

    def test_another_folder(self):
        """A test may change it, and also the environment."""
        before = os.getcwd()
        self.addCleanup(os.chdir, before)
        with tempfile.TemporaryDirectory() as folder:
            os.makedirs(os.path.join(folder, "bin"))
            os.symlink(os.path.abspath(os.environ["LINSIM"]), os.path.join(folder, "bin", "linsim"))
            shutil.copy(DOOR, os.path.join(folder, "door.ldf"))
            os.chdir(folder)
            with unittest.mock.patch.dict(os.environ, LINSIM="bin/linsim"):
                bus = linsim.Cluster("door.ldf")
            os.chdir("/")
            with bus, unittest.mock.patch.dict(os.environ, LINSIM="/nowhere"):
                self.assertTrue(bus["DCU"]["WinTemp"] != "20.5 degC")
                with bus.copy() as other, other.copy() as third:
                    self.assertEqual(third.ldf, "door.ldf")
                    self.assertRegex(third.place(), "^door.ldf, ")
            os.chdir(before)

    def test_no_folder_for_temporary_files(self):
        text = f"import linsim\nprint(linsim.Cluster({DOOR!r}).run(slots=1).slots[0].seen)"
        for folder in ("/nowhere", "/proc"):
            told = in_python("import tempfile\ntempfile._candidate_tempdir_list = lambda: ['/no']\n"
                             + text, env={**os.environ, "TMPDIR": folder})
            self.assertEqual(told, "silent\n")

    def test_no_files_left(self):
        """It isn't the program's path that is wrong, and nothing is left open (by Python itself
        from 3.12 on)."""
        text = f"""
import gc, os, resource, sys, linsim
linsim.Cluster({DOOR!r}).close()
few = len(os.listdir("/proc/self/fd")) - 1
seen = set()
for more in range(12):
    resource.setrlimit(resource.RLIMIT_NOFILE, (few + more, few + 20))
    for start in (linsim.Cluster, linsim.Live):
        try:
            start({DOOR!r})
        except linsim.StartError as error:
            seen.add(str(error).partition("can't be started: ")[2])
resource.setrlimit(resource.RLIMIT_NOFILE, (few + 20, few + 20))
gc.collect()
left = len(os.listdir("/proc/self/fd")) - 1 - few
print(seen, left if sys.version_info >= (3, 12) else 0)
"""
        soft = resource.getrlimit(resource.RLIMIT_NOFILE)[0]
        self.assertGreater(soft, 100)
        self.assertEqual(in_python(text), "{'Too many open files'} 0\n")

    def test_a_responder_called_all(self):
        with open(DOOR, encoding="ascii") as file:
            text = file.read().replace("Panel,", "all,").replace("Panel;", "all;")
        with tempfile.TemporaryDirectory() as folder:
            name = os.path.join(folder, "all.ldf")
            with open(name, "w", encoding="ascii") as file:
                file.write(text.replace("Panel ", "all "))
            with linsim.Cluster(name, "Diag") as bus:
                one = bus["DCU"].send("all", "3E00")
                each = bus["DCU"].send(linsim.ALL, "3E80")
                self.assertEqual((one.target, one.functional, each.target, each.functional),
                                 ("all", False, "all", True))
                heard = []
                bus["all"].on_message(lambda data: heard.append(data) or data)
                received = bus.idle().received
                self.assertEqual(
                    [(it.target, it.functional) for it in received if it.source == "DCU"],
                    [("all", False), ("WinMot", True), ("Mirror", True), ("all", True)])
                self.assertEqual((heard, [it.data for it in received if it.source == "all"]),
                                 ([b"\x3E\x00", b"\x3E\x80"], [b"\x3E\x00"]))


if __name__ == "__main__":
    unittest.main()
