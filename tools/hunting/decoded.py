"""Letters as frames, each decoded once for all that look at it here."""
from functools import lru_cache

from model.reading import decode

decoded = lru_cache(maxsize=4096)(decode)
