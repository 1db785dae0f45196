#!/usr/bin/env python3
"""Measures overwrites with the collector at work, and how long a chip takes to be ready.

Traces are made from a seed, of lines `U` and `D` alone. Some of the unit's blocks are written once, in pieces of 8
blocks, and then single blocks of these are overwritten at random. Both the trace with the overwrites and the one
without them are run, and the times and counts are of what the overwrites add. How many pages were moved and how many
erase blocks were erased is told by the `T` line: a block of the host takes a call of the chip, a page that is moved
two, and an erase block that is erased one. Times are those of the processor, the best of several runs. The program has
to be built first:

    (cd crates/ufshpb && rt run -- replay </dev/null)
"""

import argparse
import os
import pathlib
import random

from bench import BLOCK, ROOT, heading, print_load, row, run, scsi_command, write_lines

# The chip, and the share of its unit that holds data.
BLOCKS, PAGES = 64, 64
SHARES = [50, 80, 95]

# The chips whose first scan is timed.
SCANNED = [(64, 64), (4096, 16)]


def fill_lines(chance, count):
    """Each of the first blocks of the unit is written once."""
    for index, lba in enumerate(range(0, count, 8)):
        yield from write_lines(chance, index % 256, lba, min(8, count - lba))


def overwrite_lines(chance, count, overwrites):
    """Single blocks of these are overwritten at random."""
    for index in range(overwrites):
        yield from write_lines(chance, index % 256, chance.randrange(count), 1)


def ready_lines():
    """One TEST UNIT READY, which waits for the scan."""
    yield scsi_command(0x0100, 0, 0, 0, 0)
    yield "D\n"


def write_trace(path, *parts):
    """Writes the lines of a trace."""
    with open(path, "w", encoding="ascii") as file:
        for part in parts:
            file.writelines(part)


def best(runs, words, trace):
    """The best time of the processor over some runs."""
    return min(run(words, trace)[1] for _ in range(runs))


def counted(words, trace, transcript):
    """How many pages were moved, and how many erase blocks were erased. Each write has to be answered GOOD."""
    run(words, trace, transcript)
    with open(transcript, "rb") as lines:
        texts = [line[:2] + line[14:16] if line[:2] != b"T " else line for line in lines if line[:2] != b"> "]
    bad = [text for text in texts[:-1] if text[:2] not in (b"< ", b"M ")]
    if bad or texts[-1][:2] != b"T ":
        raise SystemExit(f"{transcript} has other lines: {bad[:3]}")
    counts = dict(word.split(b"=") for word in texts[-1].split()[1:])
    return int(counts[b"moved"]), int(counts[b"erased"])


def measure_share(options, folder, share):
    """A row of the table of overwrites."""
    unit = (BLOCKS - 3) * PAGES
    count = unit * share // 100
    words = [options.program, "replay", "--blocks", str(BLOCKS), "--pages", str(PAGES), "--mode", "host"]
    filled, written = folder / f"filled_{share}.trace", folder / f"overwritten_{share}.trace"
    write_trace(filled, fill_lines(random.Random(options.seed), count))
    chance = random.Random(options.seed)
    write_trace(written, fill_lines(chance, count), overwrite_lines(chance, count, options.overwrites))
    used = best(options.runs, words, written) - best(options.runs, words, filled)
    ends = [counted(words, trace, folder / "moved.transcript") for trace in (written, filled)]
    each, erased = ((end - begin) / options.overwrites for end, begin in zip(*ends))
    calls = 1 + 2 * each + erased
    rate = options.overwrites * BLOCK / 1e6 / used
    row(f"{share} %", f"{rate:.0f}", f"{used * 1e6 / options.overwrites:.1f}", f"{calls:.2f}", f"{each:.2f}", f"{1 + each:.2f}")


def measure_scan(options, folder, blocks, pages):
    """A row of the table of scans."""
    trace = folder / "ready.trace"
    write_trace(trace, ready_lines())
    words = [options.program, "replay", "--blocks", str(blocks), "--pages", str(pages), "--mode", "host"]
    used = best(options.runs, words, trace) - best(options.runs, words, os.devnull)
    row(f"{blocks} by {pages}", blocks * pages, f"{used * 1e3:.2f}", f"{used * 1e9 / (blocks * pages):.0f}")


def read_options():
    """The words of the command line."""
    parser = argparse.ArgumentParser(description="Measures overwrites with the collector at work, and scans.")
    parser.add_argument("--program", default=str(ROOT / "crates/ufshpb/out/ufshpb"))
    parser.add_argument("--folder", default=str(ROOT / "bench/out"), help="where traces and transcripts go")
    parser.add_argument("--seed", type=int, default=1)
    parser.add_argument("--runs", type=int, default=9, help="of which the best counts")
    parser.add_argument("--overwrites", type=int, default=20_000, help="single blocks that are overwritten")
    return parser.parse_args()


def main():
    """Prints the tables, and the machine's load before and after."""
    options = read_options()
    folder = pathlib.Path(options.folder)
    folder.mkdir(parents=True, exist_ok=True)
    print_load("before")
    print()
    heading("Of the unit", "MB/s", "us per block", "Chip calls a block", "Pages moved a block", "Pages programmed a block")
    for share in SHARES:
        measure_share(options, folder, share)
    print()
    heading("Chip", "Pages", "ms", "ns per page")
    for blocks, pages in SCANNED:
        measure_scan(options, folder, blocks, pages)
    print()
    print_load("after")


if __name__ == "__main__":
    main()
