"""Gives memory that is no longer used back to the system."""
from __future__ import annotations

import ctypes

# The option M_MMAP_THRESHOLD of mallopt(3), and from how many bytes on memory has pages of its own,
# which go back as soon as it is freed.
MAPPED, MAPPED_BYTES = -3, 3 << 18

library = ctypes.CDLL(None)


def map_large() -> None:
    """Has large arrays go back as soon as they are freed, where the C library can."""
    if hasattr(library, "mallopt"):
        library.mallopt(MAPPED, MAPPED_BYTES)


def give_back() -> None:
    """Gives the pages back that are free now, where the C library can."""
    if hasattr(library, "malloc_trim"):
        library.malloc_trim(0)
