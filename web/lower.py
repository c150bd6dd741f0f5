"""Rewrites the LLVM text that the toolchain lowers linsim to, which is for 64 bits, for wasm32.

The toolchain's layouts are in bytes, in which a pointer takes 8. They stay, so that each size and offset that the program
knows is that of the native one, and `usize` has 64 bits. A pointer has 32 bits here: it is made wider or narrower on its way
to and from memory.

Only the forms that the toolchain is known to write are accepted. `rewritten` raises Unknown at any other form.
"""

import re

from kit import NATIVE_ATTRIBUTES, Unknown, without

LAYOUT = "e-m:e-p:32:32-p10:8:8-p20:8:8-i64:64-i128:128-n32:64-S128-ni:1:10:20"
SIZES = {"i8": 1, "i16": 2, "i32": 4, "i64": 8, "double": 8, "ptr": 8}

LOCAL = r'%(?:"[^"]*"|[\w.$-]+)'
GLOBAL = r'@(?:"[^"]*"|[\w.$-]+)'
POINTER = rf"(?:{LOCAL}|{GLOBAL}|null)"

PAIR_LOAD = re.compile(rf"  ({LOCAL}) = load \{{ (\w+), (\w+) \}}, ptr ({LOCAL}), align (\d+)\n")
POINTER_STORE = re.compile(rf"  store ptr ({POINTER}), ptr ({POINTER}), align (\d+)\n")
MEMORY_CALL = re.compile(
    rf"  call void @llvm\.(memset\.p0|memmove\.p0\.p0)\.i64\((ptr {POINTER}), ((?:ptr|i8) \S+), i64 (\d+|{LOCAL}), i1 false\)\n"
)
# A pointer in a constant: a symbol, or an offset from one.
CONSTANT_POINTER = re.compile(rf"(?:(?<=^)|(?<=, ))ptr (getelementptr (?:inbounds )?\(i8, ptr {GLOBAL}, i64 \d+\)|{GLOBAL})")
# The instructions with pointers that mean the same for either width.
UNCHANGED = re.compile(
    rf"  (?:{LOCAL} = )?(?:"
    rf"load (?:volatile |atomic )?(?:i\d+|double|ptr|<\d+ x i8>|\{{ (?!ptr|\w+, ptr)[^}}]*\}}), ptr"
    rf"|store (?:volatile |atomic )?(?:i\d+|double|<\d+ x i8>|\{{ i64, i64 \}}) "
    rf"|getelementptr (?:inbounds nuw |inbounds )?i8, ptr {POINTER}, i64 "
    rf"|icmp (?:eq|ne) ptr |atomicrmw \w+ ptr {POINTER}, i64 |cmpxchg ptr {POINTER}, i64 "
    rf"|(?:tail |musttail )?call |extractvalue |ret |select |phi |switch |br )"
)


def widened_constant(line):
    """A constant with pointers: 4 bytes more follow each pointer."""
    head, brace, rest = line.partition("<{ ")
    types, middle, values = rest.partition(" }> <{ ")
    values, end, tail = values.rpartition(" }>")
    if "{ " in head or not (brace and middle and end):
        raise Unknown(line)
    types = types.replace("ptr", "ptr, i32")
    values, count = CONSTANT_POINTER.subn(r"ptr \1, i32 0", values)
    if count != types.count("ptr"):
        raise Unknown(line)
    return f"{head}<{{ {types} }}> <{{ {values} }}>{tail}"


class Rewriting:
    """The rewriting of one text, with a number for each new value."""

    def __init__(self):
        self.count = 0

    def new(self, name):
        self.count += 1
        return f"%{name}.{self.count}"

    def memory_call(self, line):
        """A fill or a move of memory: its length has 32 bits."""
        found = MEMORY_CALL.fullmatch(line)
        if not found:
            raise Unknown(line)
        which, to, what, size = found.groups()
        text = ""
        if size.startswith("%"):
            narrow = self.new("size")
            text, size = f"  {narrow} = trunc i64 {size} to i32\n", narrow
        return f"{text}  call void @llvm.{which}.i32({to}, {what}, i32 {size}, i1 false)\n"

    def pointer_store(self, line):
        """A store of a pointer: 8 bytes, of which the last 4 are 0."""
        found = POINTER_STORE.fullmatch(line)
        if not found:
            raise Unknown(line)
        what, to, align = found.groups()
        if what == "null":
            return f"  store i64 0, ptr {to}, align {align}\n"
        wide = self.new("wide")
        return f"  {wide} = ptrtoint ptr {what} to i64\n  store i64 {wide}, ptr {to}, align {align}\n"

    def pair_load(self, line):
        """A load of a pair with a pointer: each part is loaded from its own offset."""
        found = PAIR_LOAD.fullmatch(line)
        if not found or not set(found.groups()[1:3]) <= set(SIZES):
            raise Unknown(line)
        to, first, second, at, align = found.groups()
        offset = (SIZES[first] + SIZES[second] - 1) // SIZES[second] * SIZES[second]
        kind = f"{{ {first}, {second} }}"
        a, place, b, half = (self.new(it) for it in ("a", "place", "b", "half"))
        return (
            f"  {a} = load {first}, ptr {at}, align {min(int(align), SIZES[first])}\n"
            f"  {place} = getelementptr i8, ptr {at}, i64 {offset}\n"
            f"  {b} = load {second}, ptr {place}, align {min(int(align), SIZES[second])}\n"
            f"  {half} = insertvalue {kind} poison, {first} {a}, 0\n"
            f"  {to} = insertvalue {kind} {half}, {second} {b}, 1\n"
        )

    def instruction(self, line):
        """An instruction in which a pointer occurs."""
        if "@llvm.mem" in line:
            return self.memory_call(line)
        if " = ptrtoaddr ptr " in line:
            return line.replace(" = ptrtoaddr ptr ", " = ptrtoint ptr ")
        if " = alloca " in line:
            return line.replace(" = alloca ptr,", " = alloca i64,")
        if line.startswith("  store ptr "):
            return self.pointer_store(line)
        if " = load {" in line and ("ptr }" in line or "{ ptr" in line):
            return self.pair_load(line)
        if UNCHANGED.match(line):
            return line
        raise Unknown(line)

    def line(self, line):
        if line.startswith("  "):
            return self.instruction(line) if "ptr" in line else line
        if line.startswith("target datalayout"):
            return f'target datalayout = "{LAYOUT}"\n'
        if line.startswith("target triple"):
            return 'target triple = "wasm32-unknown-unknown"\n'
        if line.startswith("attributes #"):
            return without(NATIVE_ATTRIBUTES, line)
        if line.startswith("declare void @llvm.mem"):
            return line.replace(".i64(", ".i32(").replace(", i64, i1", ", i32, i1")
        if line.startswith("define ") and " @main(" in line:
            return line.replace(" @main(", " @linsim_main(")
        if line.startswith("@") and re.search(r"[<{ ]ptr[ ,]", line.split(' c"')[0]):
            return widened_constant(line)
        return line


def rewritten(lines):
    """The lines for wasm32."""
    return map(Rewriting().line, lines)
