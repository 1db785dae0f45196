#!/usr/bin/env python3
"""Measures how fast `ufshpb` drives a device, by how many of the reads are answered by entries.

A drive writes a subregion, makes it hot, and so has the driver load its entries; seven of its blocks are then written
again, which makes their entries dirty. After that it reads single blocks, 16 at a time, at random: a clean one goes out
with its entry, a dirty one without. So each share of reads by entries can be had, and is the same from begin to end. The
same drives are run with `--plain`, where each block is looked up.

The times are those of the processor, less what an empty drive takes, the best of several runs; the output goes to
/dev/null. With `--yardstick PATH` the same runs are made of that program in turn, after both printed the same. The
program has to be built first:

    (cd crates/ufshpb && rt run -- replay </dev/null)
"""

import argparse
import filecmp
import os
import pathlib
import random
import re
import sys

from bench import ROOT, best_in_turn, heading, print_load, row, run

# The text of a read of one block: its DATA IN and its answer in hex, and four short lines.
READ_TEXT = 2 * (2 * 4096) + 240
BLOCKS = 32
DIRTY = 7
SIZES = 1, 10, 100
SHARES = 0, 50, 100


def lines_of(share, megabytes):
    """The lines of a drive that prints so much."""
    chance = random.Random(f"{share} {megabytes}")
    yield f"write 0 {BLOCKS} 1\ndrain\n"
    yield "read 0 1\ndrain\n" * 4
    yield f"write 0 {DIRTY} 2\ndrain\n"
    for place in range(megabytes * 1_000_000 // READ_TEXT):
        is_clean = chance.random() * 100 < share
        lba = chance.randrange(DIRTY, BLOCKS) if is_clean else chance.randrange(DIRTY)
        yield f"read {lba} 1\n" + ("drain\n" if place % 16 == 15 else "")


def counts_of(transcript):
    """The counts in the last line of a transcript."""
    with open(transcript, "rb") as file:
        file.seek(-200, os.SEEK_END)
        return {name: int(value) for name, value in re.findall(r"(\w+)=(\d+)", file.read().decode().splitlines()[-1])}


def make(programs, folder):
    """Writes the drives, and what they print; answers the path of each with the size of its text and its counts."""
    for megabytes in SIZES:
        for share in SHARES:
            drive = folder / f"{share}-{megabytes}.drive"
            drive.write_text("".join(lines_of(share, megabytes)))
            for flags in (), ("--plain",):
                printed = [folder / f"drive-{place}.transcript" for place in range(len(programs))]
                for program, transcript in zip(programs, printed):
                    run((program, "drive", *flags), drive, transcript)
                if not all(filecmp.cmp(printed[0], other, shallow=False) for other in printed[1:]):
                    sys.exit(f"the programs print different lines for {drive} with {flags}")
                yield share, flags, drive, os.path.getsize(printed[0]), counts_of(printed[0])


def measure(programs, runs, folder):
    """Prints a row for each drive."""
    cases = list(make(programs, folder))
    jobs = [((program, "drive", *flags), str(drive)) for _, flags, drive, _, _ in cases for program in programs]
    empty = [((program, "drive", *flags), os.devnull) for flags in ((), ("--plain",)) for program in programs]
    best = best_in_turn(runs, jobs + empty)
    heading("By entries", "Way", "Text, MB", "Look-ups", "Entries", "ms", "MB/s", *(["Its ms", "Ratio"] if programs[1:] else []))
    for share, flags, drive, size, counts in cases:
        words = [(program, "drive", *flags) for program in programs]
        used = [best[each, str(drive)][1] - best[each, os.devnull][1] for each in words]
        told = [f"{used[0] * 1e3:.2f}", f"{size / 1e6 / used[0]:.0f}"]
        told += [f"{used[1] * 1e3:.2f}", f"{used[0] / used[1]:.2f}"] if programs[1:] else []
        way = "`--plain`" if flags else "HPB"
        row(f"{share} %", way, f"{size / 1e6:.2f}", counts["lookups"], counts["entries"], *told)


def main():
    """Prints a table, and the machine's load before and after."""
    parser = argparse.ArgumentParser(description="Measures how fast ufshpb drives a device.")
    parser.add_argument("--runs", type=int, default=15, help="how often each drive is run; the best counts")
    parser.add_argument("--folder", default=ROOT / "bench" / "out", help="where the drives are written")
    parser.add_argument("--yardstick", metavar="PATH", help="another program, which is run in turn")
    options = parser.parse_args()
    folder = pathlib.Path(options.folder)
    folder.mkdir(parents=True, exist_ok=True)
    programs = [str(ROOT / "crates" / "ufshpb" / "out" / "ufshpb")] + ([options.yardstick] if options.yardstick else [])
    print_load("before")
    print()
    measure(programs, options.runs, folder)
    print()
    print_load("after")


if __name__ == "__main__":
    main()
