"""What workers of this machine begin with: nothing of theirs is written on the study's standard error, which has one line for each end."""

from __future__ import annotations

import os
from threading import RLock

from tqdm import tqdm


def dask_setup(_: object) -> None:
    """Called by Dask in each worker's process, which complains there of its own end when it is ended at once."""
    os.dup2(os.open(os.devnull, os.O_WRONLY), 2)
    # (the usual lock of bars is one of all processes: of a worker that is ended at once it is left behind, which Python then says)
    tqdm.set_lock(RLock())
