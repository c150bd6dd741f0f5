"""What the backend builds, by its hooks, without pip."""
import base64
import csv
import hashlib
import importlib.util
import io
import os
import subprocess
import sys
import tarfile
import tempfile
import unittest
import unittest.mock
import zipfile

from tests import SEAT

PACKAGE = os.path.dirname(os.path.dirname(os.path.abspath(__file__)))


def loaded(path):
    spec = importlib.util.spec_from_file_location("linsim_backend", path)
    module = importlib.util.module_from_spec(spec)
    spec.loader.exec_module(module)
    return module


backend = loaded(os.path.join(PACKAGE, "backend", "linsim_backend.py"))
MODULES = {f"linsim/{name}" for name in os.listdir(os.path.join(PACKAGE, "linsim"))} - {
    "linsim/__pycache__", "linsim/bin"}
NAME = f"linsim-{backend.VERSION}"
INFO = {f"{NAME}.dist-info/{name}" for name in (
    "METADATA", "WHEEL", "RECORD", "entry_points.txt")}


class Backend(unittest.TestCase):
    def setUp(self):
        room = tempfile.TemporaryDirectory()
        self.addCleanup(room.cleanup)
        self.room = room.name

    def imported_from(self, path):
        """Where Python finds the package with this path alone, and that it runs there."""
        text = (f"import sys; sys.path.insert(0, {path!r}); import linsim\n"
                f"with linsim.Cluster({SEAT!r}) as bus: bus.run(slots=3)\n"
                "print(linsim.__file__)")
        return subprocess.run([sys.executable, "-c", text], cwd=self.room, timeout=60, check=True,
                              stdout=subprocess.PIPE, universal_newlines=True).stdout.strip()

    def test_version(self):
        words = [os.environ["LINSIM"], "--version"]
        told = subprocess.run(words, stdout=subprocess.PIPE, timeout=60, check=True).stdout
        self.assertEqual(told.decode(), f"linsim {backend.VERSION}\n")

    def test_wheel(self):
        name = backend.build_wheel(self.room)
        self.assertEqual(name, f"{NAME}-py3-none-any.whl")
        path = os.path.join(self.room, name)
        with zipfile.ZipFile(path) as archive:
            self.assertEqual(set(archive.namelist()), MODULES | INFO)
            record = archive.read(f"{NAME}.dist-info/RECORD").decode()
            for file, told, size in csv.reader(io.StringIO(record)):
                data = archive.read(file)
                digest = base64.urlsafe_b64encode(hashlib.sha256(data).digest()).decode()
                wanted = ("", "") if file.endswith("RECORD") else (
                    "sha256=" + digest.rstrip("="), str(len(data)))
                self.assertEqual((told, size), wanted, file)
            self.assertEqual(len(record.splitlines()), len(MODULES | INFO))
            metadata = archive.read(f"{NAME}.dist-info/METADATA").decode()
            self.assertIn(f"\nName: linsim\nVersion: {backend.VERSION}\n", metadata)
        self.assertTrue(self.imported_from(path).startswith(path))

    def built(self, program):
        """The wheel's path, built with this program."""
        with unittest.mock.patch.dict(os.environ, LINSIM_PROGRAM=program):
            return os.path.join(self.room, backend.build_wheel(self.room))

    def elf(self):
        """The program, unless LINSIM names a script that starts it."""
        path = os.path.abspath(os.environ["LINSIM"])
        with open(path, "rb") as file:
            if file.read(4) != b"\x7fELF":
                self.skipTest("LINSIM is a script that starts the program")
        return path

    def test_wheel_with_the_program(self):
        path = self.built(self.elf())
        self.assertEqual(os.path.basename(path), f"{NAME}-py3-none-manylinux_2_34_x86_64.whl")
        with zipfile.ZipFile(path) as archive:
            self.assertEqual(set(archive.namelist()), MODULES | INFO | {"linsim/bin/linsim"})
            self.assertEqual(archive.getinfo("linsim/bin/linsim").external_attr >> 16, 0o100755)
            self.assertEqual(archive.getinfo("linsim/node.py").external_attr >> 16, 0o100644)
            with open(os.environ["LINSIM"], "rb") as file:
                self.assertEqual(archive.read("linsim/bin/linsim"), file.read())
            told = archive.read(f"{NAME}.dist-info/WHEEL").decode()
            self.assertIn("\nRoot-Is-Purelib: false\nTag: py3-none-manylinux_2_34_x86_64\n", told)

    def test_wheel_with_the_program_in_an_empty_environment(self):
        """Installed without a network; it runs with nothing on the path."""
        path, room = self.built(self.elf()), os.path.join(self.room, "environment")
        quiet = {"stdout": subprocess.PIPE, "stderr": subprocess.STDOUT, "timeout": 600}
        made = subprocess.run([sys.executable, "-m", "venv", room], check=False, **quiet)
        if made.returncode:
            self.skipTest("there is no venv, or no pip")
        python = os.path.join(room, "bin", "python")
        words = [python, "-m", "pip", "install", "--no-index", "--disable-pip-version-check", path]
        done = subprocess.run(words, check=False, **quiet)
        self.assertEqual(done.returncode, 0, done.stdout)
        text = f"import linsim\nprint(linsim.Cluster({SEAT!r}).run(slots=1).slots[0].seen)"
        done = subprocess.run([python, "-c", text], env={"PATH": "/nowhere"}, cwd=self.room,
                              check=False, **quiet)
        self.assertEqual(done.stdout, b"silent\n")

    def test_programs_that_a_wheel_cannot_bring(self):
        script, other = os.path.join(self.room, "linsim"), os.path.join(self.room, "other")
        with open(script, "w", encoding="ascii") as file:
            file.write("#!/bin/sh\n")
        with open(other, "wb") as file:                     # for ARM
            file.write(b"\x7fELF\2\1\1" + bytes(9) + b"\2\0\xb7\0" + bytes(40))
        for program, reason in ((script, "is a script, not the program that it starts"),
                                (other, "isn't an ELF file"),
                                ("out/linsim", "isn't an absolute path")):
            with self.assertRaisesRegex(ValueError, f"^LINSIM_PROGRAM {reason}"):
                self.built(program)
        with self.assertRaises(OSError):
            self.built("/nowhere/linsim")
        self.assertEqual(sorted(os.listdir(self.room)), ["linsim", "other"])

    def test_wheel_that_leads_here(self):
        with zipfile.ZipFile(os.path.join(self.room, backend.build_editable(self.room))) as archive:
            self.assertEqual(set(archive.namelist()), {"linsim.pth"} | INFO)
            self.assertEqual(archive.read("linsim.pth").decode(), PACKAGE + "\n")

    def test_source_archive(self):
        """What it has builds the same wheel."""
        with tarfile.open(os.path.join(self.room, backend.build_sdist(self.room))) as archive:
            for entry in archive:
                path = os.path.join(self.room, entry.name)
                os.makedirs(os.path.dirname(path), exist_ok=True)
                with open(path, "wb") as file:
                    file.write(archive.extractfile(entry).read())
        top = os.path.join(self.room, NAME)
        self.assertTrue({"pyproject.toml", "README.md", "PKG-INFO"} <= set(os.listdir(top)))
        with open(os.path.join(self.room, backend.build_wheel(self.room)), "rb") as file:
            wheel = file.read()
        other = loaded(os.path.join(top, "backend", "linsim_backend.py"))
        with open(os.path.join(top, other.build_wheel(top)), "rb") as file:
            self.assertEqual(file.read(), wheel)


if __name__ == "__main__":
    unittest.main()
