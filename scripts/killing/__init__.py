"""A connector under load that is killed again and again, and the book that its journal must come to; scripts/kills.py
plays it. Peers and engines are those of scripts/cases."""
