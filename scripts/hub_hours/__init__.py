"""A hub under full load, whose peers and engines each run in a process of their own, and the books to which all that
they saw must come; scripts/hub_hour.py plays it."""
