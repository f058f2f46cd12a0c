#!/usr/bin/env python3
"""Prints the statement of a peer's account in CSV, as `connector statement CONFIG JOURNAL PEER --csv` does, reckoned by
scripts/statements/reckoned.py, which shares nothing with the crates.

    scripts/statement.py CONFIG JOURNAL PEER [FROM [TO]]

Entries are listed from FROM on, and before TO: each is a date, which stands for its midnight in UTC, or a moment such
as 2026-11-26T20:00:00Z, with up to three decimals of the second. What JOURNAL.log has counts where it goes on from
JOURNAL, be it in use or not, and what is open stays so. The exit status is 1 where a file is not as it must be, and 2
where the arguments are not understood.
"""
import sys

from statements.reckoned import main

if __name__ == "__main__":
    sys.exit(main(sys.argv[1:]))
