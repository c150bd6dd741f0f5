"""A LIN cluster in a Python test, over `linsim live` as a co-process.

    import linsim
    with linsim.Cluster("seat.ldf", table="Regul") as bus:
        bus["BCM"]["HeatLevel"].raw = 5
        bus.run(slots=2)
        assert bus["Heater"]["HeatLevel"].raw == 5

The program is the argument `program`, the environment's LINSIM, the one that the wheel brings, or
`linsim` on the path. Times are the schedule's: milliseconds in arguments, microseconds in results.
Only the limit of seconds for an answer is in real time.
"""
from .bench import Bench
from .cluster import Cluster
from .errors import (BadLine, Ended, Fault, LdfError, LinsimError, NoAnswer, Refused, SlotLimit,
                     StartError, TimeLimit, UnknownName, Unmet)
from .log import ALL, Message, Received, RefusedStep, Run, Slot
from .node import Node, Signal, is_answer
from .process import Answer, Live

__all__ = ["ALL", "Answer", "BadLine", "Bench", "Cluster", "Ended", "Fault", "LdfError",
           "LinsimError", "Live", "Message", "NoAnswer", "Node", "Received", "Refused",
           "RefusedStep", "Run", "Signal", "Slot", "SlotLimit", "StartError", "TimeLimit",
           "UnknownName", "Unmet", "is_answer"]
