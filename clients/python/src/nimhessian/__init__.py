"""A client of `pc-sim session`: the proved model of a per-CPU ghOSt scheduler, asked from Python.

A `World` is a kernel, an agent for each of its CPUs, and what the agents sent each other. Each command is a method; what
it is answered is a value, and a refusal is an exception of its own class. FORMATS.md says what each command does.
"""
from . import commands
from .commands import Command
from .errors import (
    BadCpu, BadLevel, BadLimits, Busy, Dead, Died, EmptyMask, Fault, Forbidden, HaveEnclave, IdleCpu, Lost,
    MaskTooWide, Misread, NamesSpent, NimhessianError, NoDelta, NoEnclave, NotBlocked, NotReady, NotYours, NothingReady,
    NothingToSteal, NumbersSpent, OnForbiddenCpu, Pending, PostsSpent, QueueFull, Refused, Running, Stale, TooLate,
    TooMany, UnknownThread, WireFault,
)
from .messages import (
    Message, ThreadAffinity, ThreadBlocked, ThreadCreated, ThreadDead, ThreadLeft, ThreadMessage, ThreadPreempted,
    ThreadPriority, ThreadWakeup, ThreadYield, TimerTick,
)
from .values import Known, Limits, Phase, Placed, Posted, Published, Status, View
from .world import Answer, Batch, World

__all__ = [
    "Answer", "BadCpu", "BadLevel", "BadLimits", "Batch", "Busy", "Command", "Dead", "Died", "EmptyMask", "Fault",
    "Forbidden", "HaveEnclave", "IdleCpu", "Known", "Limits", "Lost", "MaskTooWide", "Message", "Misread", "NamesSpent",
    "NimhessianError", "NoDelta", "NoEnclave", "NotBlocked", "NotReady", "NotYours", "NothingReady",
    "NothingToSteal", "NumbersSpent", "OnForbiddenCpu", "Pending", "Phase", "Placed", "Posted", "PostsSpent",
    "Published", "QueueFull", "Refused", "Running", "Stale", "Status", "ThreadAffinity", "ThreadBlocked",
    "ThreadCreated", "ThreadDead", "ThreadLeft", "ThreadMessage", "ThreadPreempted", "ThreadPriority", "ThreadWakeup",
    "ThreadYield", "TimerTick", "TooLate", "TooMany", "UnknownThread", "View", "WireFault", "World", "commands",
]
__version__ = "1.0.0"
