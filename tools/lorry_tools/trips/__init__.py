"""Trips in people's words: what was asked, the program's answer to it, and its texts."""
