"""The statement of a peer's account, reckoned from a journal by the rules of docs/PROTOCOL.md alone, and what tries it
and the examples that read statements and journals; scripts/statement.py prints it. It shares nothing with the
crates."""
import sys
from pathlib import Path

# Tests read the folder of the examples, so nothing is left in it.
sys.dont_write_bytecode = True
sys.path.append(str(Path(__file__).resolve().parent.parent.parent / "examples"))
