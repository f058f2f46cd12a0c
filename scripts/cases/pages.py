"""The repository's pages: what they show of its crates, files and names."""
import subprocess
from pathlib import Path

from cases.case import case, expect
from cases.laboratory import Laboratory

SCRIPTS = Path(__file__).resolve().parent.parent


@case
def pages_name_what_there_is(_: Laboratory) -> None:
    """The drawings of the crates are those of crates.txt, and each path and name that a page gives is there."""
    for words in (["drawing/layers.py", "--check"], ["check_map.py"]):
        done = subprocess.run([SCRIPTS / words[0], *words[1:]], capture_output=True, text=True)
        expect(words[0], (done.returncode, done.stderr), (0, ""))
