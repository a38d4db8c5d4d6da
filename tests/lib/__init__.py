"""What tests and tools share that begin processes: stations and matches of them, networks, terminals, pages and browsers, how they
wait, and how cases are run. Of the standard library alone.

By importing it a script also finds the readers of `examples/`, the shim's modules and those of the rows.
"""
import os, sys

sys.dont_write_bytecode = True
TOP = os.path.dirname(os.path.dirname(os.path.dirname(os.path.realpath(__file__))))
sys.path[1:1] = [f"{TOP}/tests", f"{TOP}/examples", f"{TOP}/tests/shim", f"{TOP}/tests/rows"]
