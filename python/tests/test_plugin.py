"""The plugin in a test suite of its own (tests/suite), under pytest and pytest-xdist if they are
installed."""
import importlib.util
import os
import shlex
import shutil
import subprocess
import sys
import tempfile
import unittest

from tests import DOOR, TOP

HAS_XDIST = importlib.util.find_spec("xdist") is not None
SUITE = os.path.join(os.path.dirname(os.path.abspath(__file__)), "suite")
FAILED = ["test_door.py_test_window_reaches_its_target[50]",
          "test_more.py_TestOne_TestTwo_test_fails-0329a007",
          "test_more.py_TestOne_TestTwo_test_fails-9e741b1f", "test_more.py_test_ended",
          "test_more.py_test_fails[_xe4_b]-99e1d748", "test_more.py_test_fails[a_b]",
          "test_more.py_test_fails[a_b]-206ee6e5", "test_more.py_test_fails_elsewhere-1",
          "test_more.py_test_fails_elsewhere-2", "test_more.py_test_fails_in_a_hook",
          "test_more.py_test_raises", "test_more.py_test_signal_alone"]


@unittest.skipUnless(importlib.util.find_spec("pytest"), "pytest isn't installed")
class Plugin(unittest.TestCase):
    def setUp(self):
        room = tempfile.TemporaryDirectory()
        self.addCleanup(room.cleanup)
        self.folder = os.path.join(room.name, "suite")
        shutil.copytree(SUITE, self.folder)
        shutil.copy(DOOR, self.folder)

    def pytest(self, *words, path=os.path.join(TOP, "python")):
        """What pytest writes, and its exit status."""
        environment = {**os.environ, "PYTHONPATH": path, "PYTHONDONTWRITEBYTECODE": "1",
                       "COLUMNS": "80"}
        done = subprocess.run(
            [sys.executable, "-m", "pytest", "-q", "-p", "no:cacheprovider", *words],
            cwd=self.folder, env=environment, stdin=subprocess.DEVNULL, stdout=subprocess.PIPE,
            stderr=subprocess.STDOUT, timeout=120, universal_newlines=True, check=False)
        return done.stdout, done.returncode

    def kept(self):
        """The files of failed tests."""
        folder = os.path.join(self.folder, "linsim-failed")
        return sorted(os.listdir(folder)) if os.path.isdir(folder) else []

    def test_failed_tests(self):
        for words in [[], ["-n", "2"]][:1 + HAS_XDIST]:
            told, status = self.pytest(*words)
            self.assertEqual(status, 1, told)
            self.assertIn("11 failed, 6 passed, 1 xfailed in ", told)
            for part in (
                "E       assert WinPos of DCU == 50\n"
                "E         DCU sees WinPos as 100 (50 %)\n"
                "E         door_zone.ldf, script line 51, slot 39, 400000 us\n",
                "- linsim -", "\ndoor_zone.ldf, script line 51, slot 39, 400000 us\n"
                "linsim-failed/test_door.py_test_window_reaches_its_target[50].bench\n"
                "linsim-failed/test_door.py_test_window_reaches_its_target[50].log\n"
                "linsim-failed/test_door.py_test_window_reaches_its_target[50].html\n",
                "E       linsim.errors.Unmet: expected asleep: awake (door_zone.ldf, script line 1",
                "E       Failed: in the hook\n", "refused 5 BadValue (door_zone.ldf, script line 1",
                "E       TypeError: <signal WinPos of DCU> has no truth value",
                "E       assert WinTemp of DCU != WinTemp of DCU\n"
                "E         DCU sees WinTemp as 450 (5 degC)\n",
                "E       linsim.errors.LinsimError: the program was ended (door_zone.ldf, script",
            ):
                self.assertIn(part, told)
            for part in ("cluster.py:", "process.py:", "node.py:", "contextlib.py:", "INTERNAL"):
                self.assertNotIn(part, told)            # the tests' own lines alone
            self.assertEqual(self.kept(), sorted(f"{name}.{suffix}" for name in FAILED
                                                 for suffix in ("bench", "html", "log")))
            if not words:
                self.is_made_again(FAILED[0])
                self.is_made_again("test_more.py_test_fails_elsewhere-2")
            shutil.rmtree(os.path.join(self.folder, "linsim-failed"))

    def is_made_again(self, name):
        """The command in the first line of the script makes the log."""
        base = os.path.join(self.folder, "linsim-failed", name)
        with open(base + ".bench", encoding="utf-8") as file:
            sign, program, *words = shlex.split(file.readline())
        self.assertEqual((sign, program), ("#", "linsim"))
        done = subprocess.run([os.environ["LINSIM"], *words], cwd=self.folder, timeout=60,
                              stdout=subprocess.PIPE, check=True)
        with open(base + ".log", "rb") as file:
            self.assertEqual(file.read(), done.stdout)
        self.assertGreater(done.stdout.count(b"bus finish"), 0)
        with open(base + ".html", encoding="utf-8") as file:
            self.assertIn("<html", file.read())

    def test_tests_that_pass_leave_nothing(self):
        told, status = self.pytest("-k", "session or gateway or of_the")
        self.assertEqual((status, self.kept()), (0, []), told)

    def test_a_mark_with_more_than_an_ldf_and_a_table(self):
        with open(os.path.join(self.folder, "test_door.py"), "w", encoding="ascii") as file:
            file.write("import pytest\n@pytest.mark.linsim('door_zone.ldf', 'Run', 5)\n"
                       "def test_it(bus):\n    pass\n")
        told, status = self.pytest("test_door.py")
        self.assertEqual(status, 1)
        self.assertIn("and then options by their names, not (5,)", told)

    def test_a_test_that_is_tried_again(self):
        """As by pytest-rerunfailures. The files are those of the last try."""
        with open(os.path.join(self.folder, "conftest.py"), "a", encoding="ascii") as file:
            file.write("from _pytest.runner import runtestprotocol\n"
                       "def pytest_runtest_protocol(item, nextitem):\n"
                       "    for _ in range(2):\n"
                       "        item._initrequest()\n"
                       "        runtestprotocol(item, nextitem=nextitem)\n"
                       "    return True\n")
        told, status = self.pytest("-k", "raises")
        self.assertEqual(status, 1, told)
        self.assertIn("2 failed", told)
        self.assertEqual(self.kept(), [f"test_more.py_test_raises.{suffix}"
                                       for suffix in ("bench", "html", "log")])

    def test_settings(self):
        with open(os.path.join(self.folder, "pytest.ini"), "a", encoding="ascii") as file:
            file.write("linsim_artifacts = kept/here\n")
        told, _ = self.pytest("-k", "raises")
        self.assertIn("\nkept/here/test_more.py_test_raises.bench\n", told)
        told, status = self.pytest("-k", "session", "--rootdir", TOP)
        self.assertEqual(status, 0, told)       # files are in the configuration's folder
        os.remove(os.path.join(self.folder, "pytest.ini"))
        told, status = self.pytest("test_door.py", "-k", "window")
        self.assertEqual(status, 1)
        self.assertIn("the fixture bus needs an LDF: mark the test with linsim(ldf)", told)

    def test_files_that_cannot_be_written(self):
        with open(os.path.join(self.folder, "linsim-failed"), "w", encoding="ascii"):
            pass
        told, status = self.pytest("-k", "raises")
        self.assertEqual(status, 1)
        self.assertRegex(told, "\nnot written: .*linsim-failed")

    def test_the_wheel_brings_the_plugin(self):
        """Also if conftest.py names it."""
        backend = os.path.join(TOP, "python", "backend")
        code = (f"import sys; sys.path.insert(0, {backend!r}); import linsim_backend\n"
                f"print(linsim_backend.build_wheel({self.folder!r}))")
        name = subprocess.run([sys.executable, "-c", code], stdout=subprocess.PIPE, timeout=60,
                              check=True, universal_newlines=True).stdout.strip()
        site = os.path.join(self.folder, "site")
        shutil.unpack_archive(os.path.join(self.folder, name), site, "zip")
        for remove in (False, True):
            if remove:
                os.remove(os.path.join(self.folder, "conftest.py"))
            told, status = self.pytest("-k", "session", path=site)
            self.assertEqual(status, 0, told)


if __name__ == "__main__":
    unittest.main()
