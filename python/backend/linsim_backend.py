"""Builds the package with the standard library alone, so that pip needs no network for it.

The hooks are those of PEP 517 and PEP 660. What is built is a function of the files: times are left
out of it. With the path of a program in LINSIM_PROGRAM a wheel brings this program.
"""
import base64
import hashlib
import io
import os
import stat
import tarfile
import zipfile

NAME, VERSION = "linsim", "0.2.0"
HERE = os.path.dirname(os.path.dirname(os.path.abspath(__file__)))
INFO = f"{NAME}-{VERSION}.dist-info"
METADATA = f"""Metadata-Version: 2.1
Name: {NAME}
Version: {VERSION}
Summary: A LIN cluster in a Python test, over the program linsim
Requires-Python: >=3.8
Description-Content-Type: text/markdown

"""
WHEEL = f"""Wheel-Version: 1.0
Generator: {os.path.splitext(os.path.basename(__file__))[0]}
Root-Is-Purelib: {{is_pure}}
Tag: {{tag}}
"""
PURE = "py3-none-any"
WITH_PROGRAM = "py3-none-manylinux_2_34_x86_64"      # the program needs glibc 2.34
PROGRAM = f"{NAME}/bin/linsim"
# The plugin has its module's name, so a conftest.py may name it too.
ENTRY_POINTS = f"[pytest11]\n{NAME}.pytest_plugin = {NAME}.pytest_plugin\n"


def build_wheel(wheel_directory, config_settings=None, metadata_directory=None):
    """The wheel's name; it is in that folder then."""
    content, path = files("linsim"), os.environ.get("LINSIM_PROGRAM")
    if not path:
        return wheel_of(wheel_directory, content)
    content[PROGRAM] = program(path)
    return wheel_of(wheel_directory, content, WITH_PROGRAM)


def build_editable(wheel_directory, config_settings=None, metadata_directory=None):
    """A wheel that leads to this folder in place of a copy of the package."""
    return wheel_of(wheel_directory, {f"{NAME}.pth": f"{HERE}\n".encode()})


def build_sdist(sdist_directory, config_settings=None):
    """The source archive's name; it is in that folder then."""
    top = f"{NAME}-{VERSION}"
    content = {name: read(name) for name in ("pyproject.toml", "README.md")}
    content.update(files("linsim"))
    content.update(files("backend"))
    content["PKG-INFO"] = metadata()
    with tarfile.open(os.path.join(sdist_directory, f"{top}.tar.gz"), "w:gz") as archive:
        for name, data in content.items():
            entry = tarfile.TarInfo(f"{top}/{name}")
            entry.size = len(data)
            archive.addfile(entry, io.BytesIO(data))
    return f"{top}.tar.gz"


def read(name):
    with open(os.path.join(HERE, name), "rb") as file:
        return file.read()


def files(folder):
    """The files of a folder, by their names from the top."""
    names = sorted(f"{folder}/{name}" for name in os.listdir(os.path.join(HERE, folder)))
    return {name: read(name) for name in names if os.path.isfile(os.path.join(HERE, name))}


def program(path):
    """The program's bytes. Raises ValueError if the path isn't absolute, because this runs in a
    folder of its own, or if it isn't a program for x86-64."""
    if not os.path.isabs(path):
        raise ValueError(f"LINSIM_PROGRAM isn't an absolute path: {path}")
    data = read(path)
    if data[:2] == b"#!":
        raise ValueError(f"LINSIM_PROGRAM is a script, not the program that it starts: {path} "
                         "(./linsim --proved prints the path of the proved program)")
    if data[:5] != b"\x7fELF\2" or data[18:20] != b"\x3e\0":
        raise ValueError(f"LINSIM_PROGRAM isn't an ELF file for x86-64: {path}")
    return data


def metadata():
    return METADATA.encode() + read("README.md")


def wheel_of(folder, content, tag=PURE):
    name = f"{NAME}-{VERSION}-{tag}.whl"
    wheel = WHEEL.format(is_pure="true" if tag == PURE else "false", tag=tag)
    content = {**content, f"{INFO}/METADATA": metadata(), f"{INFO}/WHEEL": wheel.encode(),
               f"{INFO}/entry_points.txt": ENTRY_POINTS.encode()}
    record = [f"{path},sha256={digest(data)},{len(data)}\n" for path, data in content.items()]
    content[f"{INFO}/RECORD"] = "".join([*record, f"{INFO}/RECORD,,\n"]).encode()
    with zipfile.ZipFile(os.path.join(folder, name), "w", zipfile.ZIP_DEFLATED) as archive:
        for path, data in content.items():
            entry = zipfile.ZipInfo(path)
            mode = stat.S_IFREG | (0o755 if path == PROGRAM else 0o644)
            entry.external_attr = mode << 16
            entry.compress_type = zipfile.ZIP_DEFLATED
            archive.writestr(entry, data)
    return name


def digest(data):
    """As RECORD files have it (PEP 427)."""
    return base64.urlsafe_b64encode(hashlib.sha256(data).digest()).rstrip(b"=").decode()
