"""Thrushscreen's data loader for asyncio, in `threads` for a thread, and in `shared` for threads that share it: what hits, what is batched
and what is forgotten is decided by a proved library."""

from ._desk import LoaderFull
from ._options import Counters
from .data_loader import DataLoader

__all__ = ["Counters", "DataLoader", "LoaderFull"]
__version__ = "0.5.0"
