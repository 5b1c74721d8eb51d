"""Benches in pytest, sweeps and figures for applications of IEC 61499. All traces come from the simulator `fbsim`."""

__version__ = "1.2.0"

from fbsim.application import Application, Stream
from fbsim.faults import (
    Fault, FileFault, InputFault, Location, OutOfMemory, ProgramFault, ProgramMissing, ReferenceDiffers, Refused,
    RulesBroken, SequenceBroken, Stop, Stopped, TimedOut, WriteFault, hide_frames
)
from fbsim.latencies import Latencies
from fbsim.patterns import Pattern
from fbsim.program import find_program
from fbsim.sequence import check_sequence
from fbsim.session import Session
from fbsim.stimuli import StimuliWarning
from fbsim.sweep import Jitter, RuleWarning, Sweep, jitter
from fbsim.trace import Line, Lines, Report, Signal, Trace, Verdict
from fbsim.variant import Variant

__all__ = [
    "Application", "Fault", "FileFault", "InputFault", "Jitter", "Latencies", "Line", "Lines", "Location",
    "OutOfMemory", "Pattern", "ProgramFault", "ProgramMissing", "ReferenceDiffers", "Refused", "Report", "RuleWarning",
    "RulesBroken", "SequenceBroken", "Session", "Signal", "StimuliWarning", "Stop", "Stopped", "Stream", "Sweep",
    "TimedOut", "Trace", "Variant", "Verdict", "WriteFault", "check_sequence", "find_program", "jitter"
]

# (for what fails while pytest loads a module of tests)
hide_frames()
