"""Trees of stacking. Stacking is associative byte for byte, so each of them gives the same file."""

from pathlib import Path
from typing import List

from dask.distributed import Client, Future

from segments import stack_segments


def stacked_in(client: Client, leaves: List[Future], width: int, folder: Path, name: str) -> Future:
    """`width` neighbours at a time, level by level, until one is left."""
    level, depth = leaves, 0
    while len(level) > 1:
        groups = [level[at:at + width] for at in range(0, len(level), width)]
        level = [
            client.submit(stack_segments, str(folder / f"{name}-{depth}-{at}.store"), group, pure=False)
            for at, group in enumerate(groups)
        ]
        depth += 1
    return level[0]


def stacked_in_turn(client: Client, leaves: List[Future], folder: Path, name: str) -> Future:
    """Each one after the stores before it, one by one."""
    whole = leaves[0]
    for at, leaf in enumerate(leaves[1:]):
        whole = client.submit(stack_segments, str(folder / f"{name}-{at}.store"), [whole, leaf], pure=False)
    return whole
