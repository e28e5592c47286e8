"""Calls the module while the C library is refused memory, from its first request on, then from its second, and so on.

usage: LD_PRELOAD=SHIM python3 refused.py SHIM

A refused call raises NoMemoryError, and once there is memory it does what it would have done. SHIM is made of refuse.c.
"""
import ctypes
import itertools
import sys

from known import ALL, blob

import berylwool
from berylwool import Blake3, NoMemoryError, Outline, Store

left = ctypes.c_int.in_dll(ctypes.CDLL(sys.argv[1]), "refuse_left")
DATA = blob(70_000)
ROOT, COMBINED = berylwool.encode(DATA)
BESIDE = berylwool.outboard(DATA).encoding
CHUNKS = 69


def filled():
    store = Store(ROOT, CHUNKS)
    store.gather(COMBINED)
    return store


def gathered(name):
    """The refusals that a round of gathering counts, after which another round takes the rest."""
    for refusals in itertools.count():
        store = Store(ROOT, CHUNKS)
        left.value = refusals
        memory = getattr(store, name)(COMBINED).memory
        left.value = -1
        assert getattr(store, name)(COMBINED).memory == 0 and store.finish() == DATA
        if not memory:
            return refusals


hasher, store, outline = Blake3(DATA), filled(), Outline(ROOT, BESIDE)
# What takes memory, and what it has to return.
TAKING = {
    "Blake3": (lambda: Blake3(DATA).digest(), ROOT),
    "Blake3.copy": (lambda: hasher.copy().digest(), ROOT),
    "encode": (lambda: berylwool.encode(DATA), (ROOT, COMBINED)),
    "outboard": (lambda: berylwool.outboard(DATA), (ROOT, BESIDE)),
    "slice": (lambda: berylwool.slice(DATA, 0, ALL), (ROOT, COMBINED)),
    "cut_slice": (lambda: berylwool.cut_slice(COMBINED, 0, ALL), COMBINED),
    "decode, a range": (lambda: berylwool.decode(ROOT, COMBINED, 1), DATA[1:]),
    "decode, outboard": (lambda: berylwool.decode(ROOT, DATA, outboard=BESIDE), DATA),
    "decode_iter": (lambda: b"".join(berylwool.decode_iter(ROOT, [COMBINED])), DATA),
    "Outline": (lambda: Outline(ROOT, BESIDE).length, len(DATA)),
    "Outline.share": (lambda: outline.share().length, len(DATA)),
    "Outline.slice": (lambda: outline.slice(0, DATA), COMBINED),
    "Store": (lambda: Store(ROOT, CHUNKS).commit_chunks(0, ALL, COMBINED), CHUNKS),
    "Seat.split": (lambda: store.split().held(0), ALL),
    "Seat.serve": (lambda: store.serve(0, ALL), COMBINED),
}
# What takes none.
FREE = {
    "blake3": (lambda: berylwool.blake3(DATA), ROOT),
    "decode": (lambda: berylwool.decode(ROOT, COMBINED), DATA),
    "Outline.decode": (lambda: outline.decode(DATA, 5), DATA[5:]),
    "Seat.commit": (lambda: store.commit(0, ALL, COMBINED), (0, 0)),
    "Seat.read": (lambda: store.read(0, len(DATA)), DATA),
    "Seat.finish": (lambda: store.finish(), DATA),
}

for name, (call, wanted) in {**TAKING, **FREE}.items():
    refusals = 0
    while True:
        left.value = refusals
        try:
            got = call()
            break
        except NoMemoryError as fault:
            refusals += 1
            left.value = -1
            assert isinstance(fault, MemoryError) and call() == wanted, name
        finally:
            left.value = -1
    assert got == wanted and (refusals > 0) == (name in TAKING), (name, refusals)
for name in ("gather", "salvage"):
    assert gathered(name) > 0, name
