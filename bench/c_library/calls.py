"""Times the same from Python: calls.py LIBRARY FILE.ldf SCRIPT LONG_SCRIPT LOG LONG_LOG"""

import ctypes
import pathlib
import sys
import time

RUNS, TIMES = 100_000, 5


class Settings(ctypes.Structure):
    _fields_ = [("capacity", ctypes.c_size_t), ("flags", ctypes.c_uint32), ("table", ctypes.c_uint16)]


class Report(ctypes.Structure):
    _fields_ = [("length", ctypes.c_size_t), ("line", ctypes.c_uint64), ("column", ctypes.c_uint64), ("number", ctypes.c_uint32)]


class Handle(ctypes.Structure):
    _fields_ = [("at", ctypes.c_void_p)]


def best(work):
    times = []
    for _ in range(TIMES):
        began = time.process_time()
        work()
        times.append(time.process_time() - began)
    return min(times)


def main():
    library = ctypes.CDLL(sys.argv[1])
    library.linsim_replay.restype = library.linsim_open.restype = library.linsim_line.restype = ctypes.c_uint32
    library.linsim_close.restype = None
    size = ctypes.c_size_t
    ldf, first, script, log, long_log = (pathlib.Path(path).read_bytes() for path in sys.argv[2:])
    settings, report = Settings(16, 0, 0), Report()
    out = ctypes.create_string_buffer(len(log))

    def whole_runs():
        for _ in range(RUNS):
            status = library.linsim_replay(
                ldf, size(len(ldf)), ctypes.byref(settings), first, size(len(first)), out, size(len(log)), ctypes.byref(report)
            )
            assert status == 0 and out.raw[: report.length] == log, "a whole run writes another log"

    def lines():
        handle, told = Handle(None), []
        assert library.linsim_open(ldf, size(len(ldf)), ctypes.byref(settings), ctypes.byref(handle), ctypes.byref(report)) == 0
        for line in script.splitlines():
            status = library.linsim_line(
                ctypes.byref(handle), line, size(len(line)), out, size(len(log)), ctypes.byref(report)
            )
            assert status == 0, "a line isn't made"
            told.append(out.raw[: report.length])
        library.linsim_close(ctypes.byref(handle))
        assert b"".join(told) == long_log, "lines make another log"

    print(f"Python: a whole run {best(whole_runs) / RUNS * 1e6:.2f} microseconds")
    print(f"Python: a line {best(lines) / len(script.splitlines()) * 1e6:.2f} microseconds")


main()
