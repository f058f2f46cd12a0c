"""Cases of a server that runs, over real sockets; scripts/check.py plays them. What peers, engines and
the server say is made by scripts/vectors."""
import sys
from pathlib import Path

sys.path.append(str(Path(__file__).resolve().parent.parent / "vectors"))
