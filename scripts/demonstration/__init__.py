"""A network of two connectors that is started, used, closed and started again, and whose books are reckoned
beside it; scripts/demonstrate.py runs it. Packets are made by examples/ilp_packets.py."""
import sys
from pathlib import Path

# Tests read the folder of the examples, so nothing is left in it.
sys.dont_write_bytecode = True
sys.path.append(str(Path(__file__).resolve().parent.parent.parent / "examples"))
