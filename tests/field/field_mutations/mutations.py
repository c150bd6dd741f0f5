"""Texts of the field with a change or two, read with --field and without it: mutations.py PROGRAM FOLDER HOW_MANY

Each must be answered: with a list and exit status 0, or with a fault or findings, no list and status 1. Of each, what the design promises
is compared: warnings stand in order, a finding isn't read over in silence, and a plain text is read as without the option.
"""

import pathlib
import random
import re
import subprocess
import sys

TOKEN = re.compile(rb"/\*.*?\*/|//[^\n]*|\"[^\"]*\"|[A-Za-z_][A-Za-z_0-9]*|[0-9][A-Za-z_0-9.]*|\s+|.", re.DOTALL)
NUMBERS = [b"0", b"1", b"2", b"8", b"16", b"17", b"24", b"59", b"60", b"61", b"64", b"125", b"126", b"255", b"256", b"0.0004", b"19.20049",
           b"65535", b"0x3C", b"1e3", b"4294967296", b"18446744073709551616", b"99999999999999999999.5"]
WORDS = [b",", b";", b";;", b"{", b"}", b":", b"=", b'"1.3"', b'"2.0"', b"initial_NAD", b"configured_NAD", b"LIN_protocol", b"Nodes",
         b"LIN_sig_byte_order_big_endian;", b"Diagnostic_addresses { }", b"x { }", b"\x0c", b"\x1a", b"\x00", b"\xff", b"/*", b'"']
LINE = re.compile(r"(\d+):(\d+) (finding|warning) (\d+) [A-Za-z]+( \d+)?")
FAULT = re.compile(r"ldf \d+:\d+ fault [1-7] [A-Za-z]+|ldf too long")


def changed(text, others, chance):
    """The text with a token left out, said twice, moved or replaced, or cut short."""
    tokens = TOKEN.findall(text)
    at = chance.randrange(len(tokens))
    kind = chance.choice((0, 1, 2, 3, 4, 4, 4, 5, 6, 6, 7))
    if kind == 0:
        del tokens[at]
    elif kind == 1:
        tokens.insert(at, tokens[at])
    elif kind == 2:
        other = chance.randrange(len(tokens))
        tokens[at], tokens[other] = tokens[other], tokens[at]
    elif kind == 3:
        tokens[at] = chance.choice(others)
    elif kind == 4:
        numbers = [it for it, token in enumerate(tokens) if token[:1].isdigit()]
        tokens[chance.choice(numbers or [at])] = chance.choice(NUMBERS)
    elif kind == 5:
        tokens.insert(at, chance.choice(WORDS))
    elif kind == 6:
        names = [it for it, token in enumerate(tokens) if token[:1].isalpha()]
        tokens[chance.choice(names or [at])] = tokens[chance.choice(names or [at])]
    else:
        del tokens[at : at + chance.randrange(1, 12)]
    return b"".join(tokens)


def answer(program, text, *words):
    run = subprocess.run([program, "check", "-", "--frames", *words], input=text, capture_output=True, check=False, timeout=60)
    return run.returncode, run.stdout, run.stderr.decode("utf-8", "replace").splitlines()


def places(lines):
    return [tuple(int(it) for it in LINE.fullmatch(line).group(1, 2, 4)) for line in lines]


def wrong_with(text, field, plain):
    """What of a text's answers, with --field and without it, isn't as promised."""
    status, listed, told = field
    plain_status, plain_listed, plain_told = plain
    if status not in (0, 1) or plain_status not in (0, 1):
        return f"status {status}, without --field {plain_status}"
    if (status == 0) != bool(listed):
        return f"status {status} and {len(listed)} bytes"
    if len(told) == 1 and FAULT.fullmatch(told[0]):
        return None if status == 1 else "a fault, and a list"
    if not all(LINE.fullmatch(line) for line in told):
        return f"another line: {told}"
    if any(" finding " in line for line in told) != (status == 1):
        return f"status {status} with {told}"
    if places(told) != sorted(places(told)):
        return f"in no order: {told}"
    is_old = re.search(rb"LIN_protocol_version\s*=\s*\"?1\.", text) is not None
    if status == 0 and plain_status == 1 and not FAULT.fullmatch(plain_told[0]) and not told and not is_old:
        return f"read in silence: {plain_told}"
    is_plain = not is_old and not re.search(rb"Diagnostic_addresses|initial_NAD|byte_order", text)
    if plain_status == 0 and is_plain and ((status, listed) != (0, plain_listed) or any(it[2] not in (23, 27) for it in places(told))):
        return f"read otherwise: status {status}, {told}"
    return None


def main():
    program, folder, most = sys.argv[1], pathlib.Path(sys.argv[2]), int(sys.argv[3])
    samples = [path.read_bytes() for path in sorted(folder.glob("*/data/*.ldf"))]
    others = sorted({token for text in samples for token in TOKEN.findall(text)})
    chance = random.Random(1)
    accepted = 0
    for number in range(most):
        text = chance.choice(samples)
        for _ in range(chance.choice((1, 1, 2, 3))):
            text = changed(text, others, chance)
        field, plain = answer(program, text, "--field"), answer(program, text)
        wrong = wrong_with(text, field, plain)
        if wrong:
            print(f"{number}: {wrong}\n{text.decode('latin-1')}")
        accepted += field[0] == 0
    print(f"{most} texts" if most // 10 < accepted < most else f"{accepted} of {most} texts are read")


main()
