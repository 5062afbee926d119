"""Trials of the built program: one run, a small folder, random trips, and files of changed
bytes."""
