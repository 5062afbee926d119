"""Measures of the built program: its seconds and its memory, over folders at their limits and over
long trips."""
