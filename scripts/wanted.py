"""What is measured, and what is wanted of it: the names of all figures, their bounds, why one is missed, and bench/history.tsv.

bench.py measures them, and doc/ makes their table and plot.
"""
import os
import re

HISTORY = f"{os.path.dirname(os.path.dirname(os.path.abspath(__file__)))}/bench/history.tsv"


# The whole programs: a name, the words, and whether they make a file. FILE and OUT stand for paths.
HASH = "bao_gather hash"
HASH_ONE = "bao_gather hash --length 33"
B3SUM_ONE = "b3sum --num-threads 1"
B3SUM_FOUR = "b3sum --num-threads 4"
B3SUM_READ_ONE = "b3sum --no-mmap --num-threads 1"
B3SUM_READ_FOUR = "b3sum --no-mmap --num-threads 4"
HASH_SMALL = "bao_gather hash of many small files"
B3SUM_SMALL = "b3sum of many small files"
CHECK_SMALL = "bao_gather check of many small files"
B3SUM_CHECK_SMALL = "b3sum --check of many small files"
HASH_LARGE = "bao_gather hash of several large files"
B3SUM_LARGE = "b3sum of several large files"
CHECK_LARGE = "bao_gather check of several large files"
B3SUM_CHECK_LARGE = "b3sum --check of several large files"
OUTBOARD = "bao_gather outboard"
ENCODE = "bao_gather encode"
COPY_ENCODED = "cp of the combined encoding"
COPY_FILE = "cp of the file"
SLICED = "bao_gather slice of 100 bytes"
DECODE = "bao_gather decode"
DECODE_TO_DISK = "bao_gather decode, OUT on a disk"
DECODE_BESIDE = "bao_gather decode --outboard"
GATHER = "bao_gather gather, one true file"
GATHER_BESIDE = "bao_gather gather --outboard, one true copy"
GATHER_VERBOSE = "bao_gather gather --verbose, one true file"
GATHER_TEN = "bao_gather gather, ten damaged files"
GATHER_COMMON = "bao_gather gather, twenty files with one damaged chunk in common"
GATHER_SALVAGE = "bao_gather gather --salvage, three files damaged in the same groups"
GATHER_LONG = "bao_gather gather --long, one true file"
GATHER_LONGER = "bao_gather gather --long, one true file of all"
HASH_GATHERED = "bao_gather hash of the gathered blob"
DECODE_REFUSED = "bao_gather decode, damaged in its last byte"
SLICE = "bw_cut_slice of 1 MiB out of all"
SLICE_OF_SIXTEENTH = "bw_cut_slice of 1 MiB out of a sixteenth"
LARGER_SLICE = "bw_cut_slice of 8 MiB out of all"
PIECES_ONE = "hashes of 16 KiB by one thread"
PIECES_FOUR = "hashes of 16 KiB by four threads"
# The lengths of small files, in KiB, and what hashing such ones takes us and BLAKE3's own library.
SMALL = [1, 2, 4, 8, 16, 64]
EACH = {kib: f"hashes of {kib} KiB each" for kib in SMALL}
OF_BLAKE3_EACH = {kib: f"libblake3's {EACH[kib]}" for kib in SMALL}
INTO_EMPTY = "a group into an empty store"
INTO_FULL = "a group into a full store"
OUT_OF_ONE = "a group out of a store of one"
OUT_OF_FULL = "a group out of a full store"
COPY = "a plain copy"
TAKES_OF_ONE = "a group taken 1,000 times, of one"
TAKES_OF_ALL = "a group taken 1,000 times, of 1,024"
READ = "bw_seat_read of 1 MiB"
SERVED = "bw_seat_slice of 1 MiB"
C_HASH = "bw_hash"
C_CHECK = "bw_check"
C_CHECK_REFUSED = "bw_check, damaged in its last byte"
C_COMMITS_ONE = "bw_seat_commit_chunks by one thread"
C_COMMITS_FOUR = "bw_seat_commit_chunks by four threads"
C_READS_ONE = "bw_seat_read by one thread"
C_READS_FOUR = "bw_seat_read by four threads"
C_HASH_FIRST = "bw_hash of the first 64 MiB"
C_UPDATE_SMALL = "bw_hasher_update in pieces of 64 KiB"
C_UPDATE_LARGE = "bw_hasher_update in pieces of 1 MiB"
C_AUDIT = "bw_audit"
C_OUTLINE_NEW = "bw_outline_new"
C_FEED_SMALL = "bw_feed_take in pieces of 64 KiB"
C_FEED_LARGE = "bw_feed_take in pieces of 256 KiB"
C_DECODE = "bw_decode"
C_OUTLINE = "bw_outline_check"
C_COMMIT = "bw_seat_commit"
C_COMMIT_CHUNKS = "bw_seat_commit_chunks"
C_OUTLINE_COMMIT = "bw_outline_commit"
C_GATHER = "bw_seat_gather"
C_GATHER_FOUR = "bw_seat_gather by four threads"
C_WHOLE = "bw_seat_gather and bw_seat_finish"

# The table: a name of what was timed, and how it worked. Those of calls have their names from c/compare.c and c/pieces.c.
ROWS = [
    (HASH, "whole program, as a user runs it"),
    (B3SUM_FOUR, "whole program, several threads"),
    (B3SUM_READ_FOUR, "whole program, reads in pieces"),
    (HASH_ONE, "whole program, one thread"),
    (B3SUM_ONE, "whole program, one thread"),
    (B3SUM_READ_ONE, "whole program, one thread, reads in pieces"),
    (HASH_SMALL, "whole program, 10,000 files of 20 KB"),
    (B3SUM_SMALL, "whole program, the same"),
    (CHECK_SMALL, "whole program, the same by their hashes"),
    (B3SUM_CHECK_SMALL, "whole program, the same by their hashes"),
    (HASH_LARGE, "whole program, as many files of 10 MB as the file is long"),
    (B3SUM_LARGE, "whole program, the same"),
    (CHECK_LARGE, "whole program, the same by their hashes"),
    (B3SUM_CHECK_LARGE, "whole program, the same by their hashes"),
    (OUTBOARD, "whole program, one thread, writes a file"),
    (ENCODE, "whole program, several threads, writes a file"),
    (COPY_ENCODED, "the system's copy of as many bytes as encode writes"),
    (COPY_FILE, "the system's copy of as many bytes as decode writes"),
    (SLICED, "whole program, of the middle of the file, writes a file"),
    (DECODE, "whole program, one thread, checks the file's combined encoding, writes the file"),
    (DECODE_REFUSED, "as before, of an encoding whose last byte is changed, which it refuses"),
    (DECODE_TO_DISK, "as decode, with OUT in the folder of temporary files, whose device its sync waits for"),
    (DECODE_BESIDE, "whole program, verifies the file beside its outboard encoding, writes it"),
    (HASH_GATHERED, "whole program, as a user runs it, of the first 64 MiB"),
    (GATHER, "whole program, four workers, window by window, of the combined encoding of the first 64 MiB"),
    (GATHER_BESIDE, "as before, of the first 64 MiB as they are, beside their outboard encoding"),
    (GATHER_VERBOSE, "whole program, four workers, of the combined encoding of the first 64 MiB, which is counted"),
    (GATHER_TEN, "whole program, four workers, of ten such encodings, each with another tenth damaged"),
    (GATHER_COMMON, "whole program, four workers, of twenty such encodings, which leave the blob unfinished"),
    (GATHER_LONG, "as before, of a blob that may have any length"),
    (GATHER_LONGER, "whole program, four workers, window by window, of the combined encoding of all"),
    (GATHER_SALVAGE, "whole program, four workers, of three such encodings, each with another byte damaged in one of 16 groups"),
    (PIECES_ONE, "C library in one process, one POSIX thread, of one piece, as often as the file has such pieces"),
    (PIECES_FOUR, "as before, by four POSIX threads, which share a count of how often, and nothing else"),
    *((EACH[kib], f"C library in one process, one thread, of each {kib} KiB of the first MiB by itself") for kib in SMALL),
    *((OF_BLAKE3_EACH[kib], f"BLAKE3's own C library, held to AVX2, in one process, one thread, of each {kib} KiB of the first MiB by itself") for kib in SMALL),
    (SLICE, "C library in one process, one thread, from the file's combined encoding"),
    (SLICE_OF_SIXTEENTH, "as before, from a combined encoding a sixteenth as long"),
    (LARGER_SLICE, "as before, from the file's combined encoding"),
    (INTO_EMPTY, "C library's take, check and commit of 64 chunks in one process, where the store holds nothing"),
    (INTO_FULL, "as before, where it holds 64 MiB"),
    (OUT_OF_ONE, "C library's read of 64 chunks in one process, where the store holds no others"),
    (OUT_OF_FULL, "as before, where it holds 64 MiB"),
    (TAKES_OF_ONE, "C library's take and give in one process, one thread, in a store of one group"),
    (TAKES_OF_ALL, "as before, in a store of 1,024 groups"),
    (COPY, "of the first 64 MiB, in one process, one thread"),
    (C_HASH, "C library in one process, one thread"),
    (C_CHECK, "C library in one process, one thread, of the file's combined encoding"),
    (C_CHECK_REFUSED, "as before, where that isn't accepted"),
    (C_COMMITS_ONE, "C library in one process, one POSIX thread with a seat, of the slices of the groups of the first 64 MiB, which it checks and claims"),
    (C_COMMITS_FOUR, "as before, four POSIX threads with a seat each"),
    (C_READS_ONE, "C library in one process, one POSIX thread with a seat, of these bytes, the mean of four reads"),
    (C_READS_FOUR, "as before, four POSIX threads with a seat each, a quarter by each"),
    (C_HASH_FIRST, "C library in one process, one thread, as all that follow"),
    (C_UPDATE_SMALL, "of the same, with the hash"),
    (C_UPDATE_LARGE, "as before"),
    ("bw_hash with 1 MiB of output", "of no bytes"),
    ("bw_encode", "of the same 64 MiB, in the caller's memory"),
    ("bw_outboard", "as before"),
    ("bw_cut_slice of 1 MiB", "from their combined encoding"),
    ("bw_check of 1 MiB", "of that slice"),
    (C_AUDIT, "of the first 64 MiB and their combined encoding, which agree"),
    (C_DECODE, "of their combined encoding"),
    (C_FEED_SMALL, "as before"),
    (C_FEED_LARGE, "as before"),
    (C_OUTLINE_NEW, "of their outboard encoding"),
    (C_OUTLINE, "of the same beside it, 64 KiB at a time"),
    ("bw_outline_slice", "as before"),
    ("bw_seat_new", "with room for them"),
    ("bw_seat_new of 4 MiB", "of the second 4 MiB"),
    (C_COMMIT_CHUNKS, "of their combined encoding, into an empty store"),
    (C_COMMIT, "as before, with the parents"),
    (C_OUTLINE_COMMIT, "of the same beside the outline, 64 KiB at a time, into an empty store"),
    ("bw_seat_settle", "of the slice of the last byte"),
    (C_GATHER, "of their combined encoding, into an empty store"),
    (C_GATHER_FOUR, "as before, by four POSIX threads with a seat each"),
    (C_WHOLE, "as by one thread, with a new store and all that is read out of it and hashed"),
    ("bw_seat_salvage of a full store", "where nothing is left to be asked for"),
    (SERVED, "out of a full store"),
    (READ, "as before"),
    ("bw_seat_finish", "as before, of all"),
]

# The table of calls of the C library that have next to nothing to do: a name, and what is wanted of it.
CALLS = [
    ("bw_hasher_update of no bytes", "below 20"),
    ("bw_seat_length", "below 20"),
    ("bw_seat_take and bw_seat_give", ""),
    ("bw_seat_held", ""),
    ("bw_seat_split and bw_seat_join", ""),
    ("bw_hasher_new", ""),
    ("bw_hasher_finish of no bytes", ""),
    ("bw_hash of no bytes", ""),
    ("bw_feed_new", ""),
    ("bw_slice_len of 64 KiB", ""),
    ("bw_slice_ranges of 64 KiB", ""),
    ("bw_outboard_ranges of 64 KiB", ""),
    ("bw_slice_nodes of 64 KiB", ""),
    ("bw_node_at of 64 KiB", ""),
]

# The table of memory: a name, how it was measured, and what is wanted of it.
MEMORY = [
    ("a shared store keeps", "C library's bw_store_new with room for 65,536 chunks, in a process with little else", "below 70"),
    ("a shared store takes at most", "as before, while it is made", "below 140"),
]

# The table of the most memory that the whole program has at once: a name, which stands in the table of times too, and how many MiB are wanted. Each is
# printed beside the MiB of the file, which a task would have at once that reads it whole.
PEAKS = [
    (HASH, "at most 32"),
    (ENCODE, "at most 120"),
    (OUTBOARD, "at most 120"),
    (SLICED, "at most 32"),
    (DECODE, "at most 120"),
    (DECODE_BESIDE, "at most 120"),
    (GATHER, "at most 40"),
    (GATHER_BESIDE, "at most 40"),
    (GATHER_VERBOSE, "at most 40"),
    (GATHER_COMMON, "at most 40"),
    (GATHER_LONG, "at most 40"),
    (GATHER_LONGER, "at most 40"),
]

# The ratios of two of those times: the first over the second, and what is wanted of it.
RATIOS = [
    ("several threads", B3SUM_FOUR, HASH, "at least 0.45 on four processors"),
    ("several threads", B3SUM_READ_FOUR, HASH, "at least 1.0 on four processors"),
    ("several threads", HASH_SMALL, B3SUM_SMALL, "at most 1.4"),
    ("several threads", CHECK_SMALL, B3SUM_CHECK_SMALL, "at most 1.4"),
    ("several threads", HASH_LARGE, B3SUM_LARGE, "at most 1.4"),
    ("several threads", CHECK_LARGE, B3SUM_CHECK_LARGE, "at most 1.4"),
    ("one thread", B3SUM_ONE, HASH_ONE, "at least 0.42"),
    ("one thread", B3SUM_READ_ONE, HASH_ONE, ""),
    ("one thread", B3SUM_ONE, C_HASH, "at least 0.55"),
    ("several threads", HASH_ONE, HASH, "at least 2.5 on four processors"),
    ("several threads", PIECES_ONE, PIECES_FOUR, "4 on four processors of their own: what threads are worth on this machine"),
    ("one thread", EACH[64], EACH[8], "at least 0.7: small files"),
    *(("one thread", EACH[kib], OF_BLAKE3_EACH[kib], "at most 1.4") for kib in SMALL),
    ("one thread", C_UPDATE_SMALL, C_HASH_FIRST, "at most 1.3"),
    ("one thread", C_UPDATE_LARGE, C_HASH_FIRST, "at most 1.1"),
    ("one thread", OUTBOARD, HASH_ONE, "at most 1.5"),
    ("several threads", ENCODE, HASH_ONE, "at most 2.2"),
    ("several threads", DECODE, HASH_ONE, "at most 3.5"),
    ("as a user runs it", ENCODE, COPY_ENCODED, "1 is what the system takes to read and write as many bytes"),
    ("as a user runs it", DECODE, COPY_FILE, "1 is what the system takes to read and write as many bytes"),
    ("one thread", SLICE, SLICE_OF_SIXTEENTH, "about 1: not with the encoding"),
    ("one thread", LARGER_SLICE, SLICE, "about 8: with the slice"),
    ("as a user runs it", DECODE_REFUSED, DECODE, "at most 1.1: a refusal"),
    ("one thread", C_CHECK, C_HASH, "at most 1.1"),
    ("one thread", C_CHECK_REFUSED, C_CHECK, "at most 1.1: a refusal"),
    ("one thread", C_OUTLINE_NEW, C_HASH_FIRST, "at most 0.1"),
    ("one thread", C_OUTLINE, C_HASH_FIRST, "at most 1.1"),
    ("one thread", C_AUDIT, C_HASH_FIRST, "at most 2.4: a check, one hash and one comparison"),
    ("one thread", C_WHOLE, C_HASH_FIRST, "at most 3.5: a check, a store, a read and a hash"),
    ("as a user runs it", GATHER, HASH_GATHERED, "at most 6"),
    ("as a user runs it", GATHER_TEN, GATHER, "at most 3"),
    ("as a user runs it", GATHER_LONG, HASH_GATHERED, "at most 8"),
    ("as a user runs it", GATHER_LONGER, HASH, "at most 8"),
    ("as a user runs it", GATHER_BESIDE, GATHER, "at most 1"),
    ("as a user runs it", GATHER_COMMON, GATHER, "at most 4"),
    ("one thread", INTO_FULL, INTO_EMPTY, "about 1: not with what the store holds"),
    ("one thread", OUT_OF_FULL, OUT_OF_ONE, "about 1: not with what the store holds"),
    ("one thread", COPY, C_READS_ONE, "at least 0.3"),
    ("one thread", TAKES_OF_ALL, TAKES_OF_ONE, "about 1: not with the store"),
    ("one thread", SERVED, READ, "at most 3"),
    ("several threads", C_GATHER, C_GATHER_FOUR, "at least 2.5 on four processors"),
    ("several threads", C_COMMITS_ONE, C_COMMITS_FOUR, "at least 2.5 on four processors"),
    ("several threads", C_READS_ONE, C_READS_FOUR, "at least 2.5 on four processors"),
    ("one thread", C_DECODE, C_HASH_FIRST, ""),
    ("one thread", C_FEED_SMALL, C_HASH_FIRST, "at most 1.3"),
    ("one thread", C_FEED_LARGE, C_HASH_FIRST, ""),
    ("one thread", C_COMMIT_CHUNKS, C_HASH_FIRST, ""),
    ("one thread", C_COMMIT, C_COMMIT_CHUNKS, ""),
    ("one thread", C_OUTLINE_COMMIT, C_COMMIT, ""),
    ("one thread", C_GATHER, C_HASH_FIRST, ""),
]


# How far above a figure is that is wanted to be about another one, and isn't.
ABOUT = 1.25


def ratio_name(how, first, second):
    return f"{how}: {first} / {second}"


def peak_name(name):
    return f"memory of {name}"


def wanted_figures():
    """What is wanted of each figure of which something is, by its name."""
    found = {ratio_name(how, first, second): wanted for how, first, second, wanted in RATIOS if wanted}
    found |= {f"{name}, MB": wanted for name, _, wanted in MEMORY}
    found |= {f"{peak_name(name)}, MiB": wanted for name, wanted in PEAKS}
    return found | {f"{name}, ns": wanted for name, wanted in CALLS if wanted}


def is_missed(wanted, figure, processors=os.cpu_count() or 1):
    """Whether the figure isn't what is wanted, where that begins with a number. One for four processors counts where there are as many."""
    said = re.match(r"(at least|at most|below|about) ([0-9.]+)( on four processors)?", wanted)
    if not said or (said[3] and processors < 4):
        return False
    number = float(said[2])
    return {"at least": figure < number, "at most": figure > number, "below": figure >= number, "about": figure > ABOUT * number}[said[1]]


def judged(wanted, figure):
    """What is said behind the figure."""
    return f" (wanted: {wanted}{'; MISSED' if is_missed(wanted, figure) else ''})" if wanted else ""


# The columns before the figures.
RUN = ["date", "commit", "machine", "build", "load", "mib", "runs", "what"]

# Why a figure is missed that is, as far as it is known.
WHY = {
    ratio_name("several threads", HASH_ONE, HASH): "virtual processors share cores: see the row of 16 KiB",
    ratio_name("one thread", EACH[2], OF_BLAKE3_EACH[2]): "that library has two chunks side by side in one vector, row by row",
    ratio_name("one thread", EACH[4], OF_BLAKE3_EACH[4]): "that library has two chunks side by side in one vector, row by row",
    ratio_name("one thread", SLICE, SLICE_OF_SIXTEENTH): "the cache was in another state for each; since each comes after a slice of 8 MiB, 1.02 was measured",
    ratio_name("one thread", C_OUTLINE, C_HASH_FIRST): "eight neighbouring chunks at a time leave the processor less to read ahead: 1.02 of 1 MiB, which stays in its cache",
    ratio_name("one thread", OUT_OF_FULL, OUT_OF_ONE): "the cache was in another state for each; since each is read twice, 1.05 was measured",
    ratio_name("one thread", C_WHOLE, C_HASH_FIRST): "two fresh 64 MiB, beside the check and the hash",
    ratio_name("as a user runs it", GATHER, HASH_GATHERED): "each window is hashed and written on one thread, while the next one is filled",
    ratio_name("as a user runs it", GATHER_LONG, HASH_GATHERED): "each window is hashed and written on one thread, while the next one is filled",
    ratio_name("as a user runs it", GATHER_LONGER, HASH): "each window is hashed and written on one thread, while the next one is filled",
    ratio_name("several threads", C_COMMITS_ONE, C_COMMITS_FOUR): "starting four threads takes up to 4 ms, beside 13 of work",
    ratio_name("several threads", ENCODE, HASH_ONE): "more than half of its time is the kernel's, for fresh pages of what is written",
    ratio_name("several threads", C_READS_ONE, C_READS_FOUR): "other work beside it; of 64 MiB with nothing else at work 2.63 was measured, and 2.58 of commits",
    ratio_name("one thread", C_FEED_SMALL, C_HASH_FIRST): "of 1 MiB, which stays in the processor's cache, 1.29 was measured; a piece has a copy of its chunks, 8 turns of the lanes where 7.5 would be full, and 11 parents one by one, and its lanes wait for memory more than those of the hash",
    "a shared store keeps, MB": "4.2 of it are for parents",
    "a shared store takes at most, MB": "the list of zeros and the table's copy of it",
}

# What the plot shows, from top to bottom.
PLOTTED = [
    ("hash: b3sum's time / ours, one thread", ratio_name("one thread", B3SUM_ONE, C_HASH)),
    ("check: of a combined encoding / hash, one thread", ratio_name("one thread", C_CHECK, C_HASH)),
    ("decode: the program's / hash on one thread", ratio_name("several threads", DECODE, HASH_ONE)),
    ("gather: the program's, one true file / hash on four threads", ratio_name("as a user runs it", GATHER, HASH_GATHERED)),
]


# The figures that were measured through the Rust crates, or by former calls of the C library, until 2026-11-30, in one process: each with the one that goes
# through the C library now, or None.
FORMER = {
    "one thread: b3sum --num-threads 1 / hash": ratio_name("one thread", B3SUM_ONE, C_HASH),
    "one thread: Hasher, pieces of 64 KiB / hash": ratio_name("one thread", C_UPDATE_SMALL, C_HASH_FIRST),
    "one thread: Hasher, pieces of 1 MiB / hash": ratio_name("one thread", C_UPDATE_LARGE, C_HASH_FIRST),
    "one thread: cut_slice of 1 MiB / cut_slice of 1 MiB, a sixteenth of the file": ratio_name("one thread", SLICE, SLICE_OF_SIXTEENTH),
    "one thread: cut_slice of 8 MiB / cut_slice of 1 MiB": ratio_name("one thread", LARGER_SLICE, SLICE),
    "one thread: check_combined / hash": ratio_name("one thread", C_CHECK, C_HASH),
    "one thread: check_outboard / hash": ratio_name("one thread", C_OUTLINE_NEW, C_HASH_FIRST),
    "one thread: check_bare / hash": ratio_name("one thread", C_OUTLINE, C_HASH_FIRST),
    "one thread: gather_texts / hash of the gathered": ratio_name("one thread", C_WHOLE, C_HASH_FIRST),
    "one thread: a plain copy / reads by one seat": ratio_name("one thread", COPY, C_READS_ONE),
    "one thread: 1 MiB served by a shared store / 1 MiB read from a shared store": ratio_name("one thread", SERVED, READ),
    "several threads: run by one worker / run by four workers": ratio_name("several threads", C_GATHER, C_GATHER_FOUR),
    "several threads: bw_seat_commit by one thread / bw_seat_commit by four threads": ratio_name("several threads", C_COMMITS_ONE, C_COMMITS_FOUR),
    "one thread: bw_feed_take_many in pieces of 64 KiB / bw_hash of the first 64 MiB": ratio_name("one thread", C_FEED_SMALL, C_HASH_FIRST),
    "several threads: hash / hash_join": None,
    "several threads: hash / hash_pool, 4 workers": None,
    "several threads: check_combined / check_combined_join": None,
    "several threads: commits by one seat / commits by four seats": None,
    "several threads: reads by one seat / reads by four seats": None,
    "one thread: audit of the whole encoding / hash": None,
    "one thread: commits by one seat / stores of as many words": None,
    "one thread: 1 MiB served by a one-thread store / 1 MiB read from a one-thread store": None,
    "one thread: parents alone / run by one worker": None,
    "one thread: bw_hash / hash": None,
    "one thread: bw_check_combined / check_combined": None,
}


def history():
    """Returns the runs: of each its cells by their columns, those of a figure's former name under that of today."""
    with open(HISTORY, encoding="utf-8") as it:
        head, *lines = it.read().rstrip("\n").split("\n")
    head = [FORMER.get(it) or it for it in head.split("\t")]
    return [dict(zip(head, line.split("\t"))) for line in lines]


def ends_of(cell):
    """Returns the least and the most of a figure or a range."""
    first, _, last = cell.partition(" to ")
    return float(first), float(last or first)


def in_short(least, most):
    return f"{least:g}" if least == most else f"{least:g} to {most:g}"


def missed_by(name, wanted, cell):
    """What is said of a figure that is missed."""
    misses = [is_missed(wanted, it, 4) for it in ends_of(cell)]
    if not any(misses):
        return ""
    return f"{'missed' if all(misses) else 'at times missed'}: {WHY.get(name, 'it is not known why')}"
