"""Sends a line only when the answer to the one before has come, within 20 s; then lines ahead of their answers."""
import os
import select
import subprocess
import sys

live = subprocess.Popen(sys.argv[1:], stdin=subprocess.PIPE, stdout=subprocess.PIPE, bufsize=0)
waiting = b""


def answer():
    """The lines up to the one that begins with #."""
    global waiting
    lines = []
    while not lines or not lines[-1].startswith(b"# "):
        while b"\n" not in waiting:
            if not select.select([live.stdout], [], [], 20)[0]:
                live.kill()
                sys.exit("no answer within 20 s")
            more = os.read(live.stdout.fileno(), 65536)
            if not more:
                sys.exit("no answer")
            waiting += more
        line, waiting = waiting.split(b"\n", 1)
        lines.append(line)
    return b"\n".join(lines).decode()


for line in ["? time", "slot", "", "wrte", "expect awake", "? time", "#" * 70000]:
    live.stdin.write(line.encode() + b"\n")
    print(answer())
live.stdin.write(b"? time\n" * 500)
print({answer() for _ in range(500)})
live.stdin.write(b"? asleep")
live.stdin.close()
print(answer(), live.stdout.read(), live.wait())
