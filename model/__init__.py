"""An independent model of the formats and of the sessions, in plain Python: it computes the values that tests expect.

It is written from docs/formats.md and crates/README.md, as recursions over whole lists, and shares no algorithm with the
program. What an auditor's own programs already state (auditor/) is taken from there.
"""
import os
import sys

TOP = os.path.dirname(os.path.dirname(os.path.abspath(__file__)))
sys.path.insert(0, os.path.join(TOP, "auditor"))
