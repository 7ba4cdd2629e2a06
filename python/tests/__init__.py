"""The tests of `farey`. From the folder python: `python3 -m unittest`."""
