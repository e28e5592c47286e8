"""Gathers a blob out of copies of its encoding, any of which may be damaged, and writes it to standard output.

    python3 mirror.py ROOT COPY ..

ROOT is the blob's hash in hexadecimal digits, and each COPY a file with its combined encoding. A thread for each copy
begins with that one. `windows.c` does so in C, part by part.
"""
import mmap
import sys
from concurrent.futures import ThreadPoolExecutor
from typing import List

from berylwool import CHUNK_LEN, BerylwoolError, Seat, Store


def mapped(path: str) -> mmap.mmap:
    with open(path, "rb") as file:
        return mmap.mmap(file.fileno(), 0, access=mmap.ACCESS_READ)


def gather(seat: Seat, copies: List[mmap.mmap], number: int) -> None:
    with seat:
        for copy in copies[number:] + copies[:number]:
            seat.gather(copy, number, len(copies))


def main(root: str, *paths: str) -> None:
    copies = [mapped(it) for it in paths]
    capacity = min(max(map(len, copies)) // CHUNK_LEN + 1, 65_536)
    with Store(bytes.fromhex(root), capacity) as store, ThreadPoolExecutor(len(copies)) as pool:
        for work in [pool.submit(gather, store.split(), copies, number) for number in range(len(copies))]:
            work.result()
        for copy in copies:
            store.gather(copy)  # what one thread passed by because another had claimed it
        for copy in copies:
            store.salvage(copy)  # chunks of groups that are damaged in every copy
        sys.stdout.buffer.write(store.finish())


if __name__ == "__main__":
    if len(sys.argv) < 3:
        sys.exit(__doc__)
    try:
        main(*sys.argv[1:])
    except (BerylwoolError, OSError, ValueError) as fault:
        sys.exit(f"mirror.py: {fault}")
