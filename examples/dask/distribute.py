#!/usr/bin/env python3
"""Packs a corpus in segments on a Dask cluster, stacks them as a tree, and compares every document.

A worker is ended in the middle, and the result is the same: two trees of another shape give the same file.
"""

import argparse
import hashlib
import json
import logging
import os
import signal
import sys
import tempfile
import time
from pathlib import Path
from typing import Dict, List

import dask
from corpus import Corpus, Places
from dask.distributed import Client, Future, LocalCluster, as_completed, wait
from segments import pack_segment, remove_leftovers
from tree import stacked_in, stacked_in_turn
from zevkhadun import Store

HERE = Path(__file__).resolve().parent


def arguments() -> argparse.Namespace:
    parser = argparse.ArgumentParser(description=__doc__.splitlines()[0])
    parser.add_argument("--segments", type=int, default=16)
    parser.add_argument("--documents", type=int, default=20_000, help="of each segment")
    parser.add_argument("--length", type=int, default=500, help="bytes of a document, on the average")
    parser.add_argument("--workers", type=int, default=len(os.sched_getaffinity(0)))
    parser.add_argument("--directory", type=Path, default=None, help="where the files go for the time")
    parser.add_argument("--scale", metavar="FILE", type=Path, help="only time one worker, two, and so on")
    return parser.parse_args()


def pack(corpus: Corpus, segment: int, path: str) -> str:
    """What a worker does for a segment: makes the documents, and packs them."""
    return pack_segment(path, corpus.segment(segment))


def count(path: str) -> int:
    with Store(path) as store:
        return len(store)


def differences(corpus: Corpus, segment: int, packed: str, whole: str, places: Places) -> int:
    """How many documents of a segment are not the same in the segment's store and in the whole one."""
    wrong = 0
    with Store(packed) as own, Store(whole) as all_of_them:
        for number, document in enumerate(corpus.segment(segment)):
            same = own[number] == document and all_of_them[places.number(segment, number)] == document
            wrong += not same
    return wrong


def packed_segments(client: Client, corpus: Corpus, folder: Path) -> List[Future]:
    return [
        client.submit(pack, corpus, segment, str(folder / f"segment-{segment}.store"), pure=False)
        for segment in range(corpus.segments)
    ]


def worker_processes(client: Client) -> List[int]:
    return list(client.run(os.getpid).values())


def end_a_worker(client: Client, futures: List[Future]) -> int:
    """Ends a worker's process once the first segment is packed. Answers its number."""
    next(iter(as_completed(futures)))
    process = worker_processes(client)[0]
    pending = sum(not future.done() for future in futures)
    os.kill(process, signal.SIGKILL)
    print(f"ended worker {process} with {pending} of {len(futures)} segments still to be packed")
    return process


def digest(path: str) -> str:
    return hashlib.sha256(Path(path).read_bytes()).hexdigest()


def compare(client: Client, corpus: Corpus, leaves: List[Future], whole: str) -> int:
    """Every document of every segment, by (segment, number), on all workers."""
    paths = client.gather(leaves)
    places = Places(client.gather(client.map(count, paths, pure=False)))
    wrong = [
        client.submit(differences, corpus, segment, path, whole, places, pure=False)
        for segment, path in enumerate(paths)
    ]
    print(f"compared {sum(places.counts)} documents in {len(paths)} segments")
    return sum(client.gather(wrong))


def whole_run(client: Client, corpus: Corpus, folder: Path) -> bool:
    """Packs twice, with a worker ended in the first; stacks in trees; compares. Answers whether all is the same."""
    before = worker_processes(client)
    leaves = packed_segments(client, corpus, folder)
    ended = end_a_worker(client, leaves)
    trees = {
        "pairs": stacked_in(client, leaves, 2, folder, "pairs"),
        "fours": stacked_in(client, leaves, 4, folder, "fours"),
        "in turn": stacked_in_turn(client, leaves, folder, "turn"),
    }
    again = folder / "again"
    again.mkdir()
    undisturbed = stacked_in(client, packed_segments(client, corpus, again), 2, again, "pairs")
    files = {name: future.result() for name, future in {**trees, "undisturbed": undisturbed}.items()}
    digests = {name: digest(path) for name, path in files.items()}
    for name, value in digests.items():
        print(f"{name}: {os.path.getsize(files[name])} bytes, {value}")
    wrong = compare(client, corpus, leaves, files["pairs"])
    print(f"{wrong} documents differ")
    remove_leftovers(folder)
    is_gone = ended in before and ended not in worker_processes(client)
    return is_gone and wrong == 0 and len(set(digests.values())) == 1


def timed(workers: int, corpus: Corpus, folder: Path) -> Dict[str, float]:
    """Seconds to pack and to stack on this many workers."""
    with cluster_of(workers) as cluster, Client(cluster) as client:
        start = time.monotonic()
        leaves = packed_segments(client, corpus, folder)
        wait(leaves)
        packed = time.monotonic()
        whole = stacked_in(client, leaves, 2, folder, "pairs").result()
        stacked = time.monotonic()
        return {"workers": workers, "pack_seconds": packed - start, "stack_seconds": stacked - packed,
                "bytes": os.path.getsize(whole)}


def cluster_of(workers: int) -> LocalCluster:
    """Workers that are processes. What they say of one that was ended is left out; a task that fails is reported all
    the same. Others wait for one that is gone no longer than a moment."""
    dask.config.set({"distributed.comm.timeouts.connect": "3s"})
    return LocalCluster(n_workers=workers, threads_per_worker=1, processes=True, dashboard_address=None,
                        silence_logs=logging.CRITICAL)


def scaled(most: int, corpus: Corpus, folder: Path) -> List[Dict[str, float]]:
    told = []
    for workers in range(1, most + 1):
        part = folder / str(workers)
        part.mkdir()
        told.append(timed(workers, corpus, part))
        print(told[-1])
    return told


def main() -> int:
    given = arguments()
    corpus = Corpus(given.segments, given.documents, given.length)
    folders = [str(HERE), os.environ.get("PYTHONPATH", "")]
    os.environ["PYTHONPATH"] = os.pathsep.join(folders)
    with tempfile.TemporaryDirectory(dir=given.directory) as name:
        folder = Path(name)
        if given.scale:
            told = {"segments": corpus.segments, "documents": corpus.documents, "length": corpus.length,
                    "rows": scaled(given.workers, corpus, folder)}
            given.scale.write_text(json.dumps(told, indent=1) + "\n")
            return 0
        with cluster_of(given.workers) as cluster, Client(cluster) as client:
            is_same = whole_run(client, corpus, folder)
    print("the same bytes by every tree" if is_same else "NOT THE SAME")
    return 0 if is_same else 1


if __name__ == "__main__":
    sys.exit(main())
