#!/usr/bin/env python3
"""Tries scripts/statement.py, examples/reconcile.py and examples/report_page.py, and what examples do whose standard
output fails; the exit status is 1 where one of them does not do what is meant.

    scripts/statements/try_statements.py
"""
import sys
from pathlib import Path

sys.path.insert(0, str(Path(__file__).resolve().parent.parent))

from cases.case import Differs  # noqa: E402
from statements import (browsing, by_hand, disputed, joined, matched, outputs, pages, reconciling,  # noqa: E402
                        refused)

TRIES = (by_hand.try_rows, by_hand.try_moments, by_hand.try_texts, by_hand.try_files,
         reconciling.try_planted, reconciling.try_two_periods, reconciling.try_times_of_periods,
         reconciling.try_parts, reconciling.try_sums,
         matched.try_matches, matched.try_ends, matched.try_late, matched.try_joined, matched.try_refused,
         joined.try_times, joined.try_nothing, joined.try_gaps, joined.try_other_times, joined.try_unknown,
         disputed.try_dispute, disputed.try_documents, refused.try_bad_input,
         outputs.try_outputs,
         pages.try_examples, pages.try_small, pages.try_configurations, pages.try_places, pages.try_periods,
         pages.try_ends_meanwhile, pages.try_great, pages.try_many,
         browsing.try_shown, browsing.try_picture)


def main() -> int:
    differed = 0
    for one in TRIES:
        try:
            one()
            said = "ok"
        except Differs as differs:
            said, differed = str(differs), differed + 1
        print(f"{one.__name__}: {said}", flush=True)
    return 1 if differed else 0


if __name__ == "__main__":
    sys.exit(main())
