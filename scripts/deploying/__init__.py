"""What scripts/try_wrapper.py and scripts/try_front.sh have in common with each other and with the cases of
scripts/check.py."""
