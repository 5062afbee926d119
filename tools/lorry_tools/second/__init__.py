"""The second implementation of the program's answers, which shares nothing with what it judges:
neither with the program nor with the rest of this library."""
