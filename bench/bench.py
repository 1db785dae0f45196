#!/usr/bin/env python3
"""Measures how fast `ufshpb` replays traces and shows transcripts.

Traces are made from a seed, of lines `U` and `D` alone. Each time is the best of several runs, whose output goes to
/dev/null. Processor time is that of the program and of the system for it; the rates are of processor time, less what
the same command takes for an empty input. The program has to be built first:

    (cd crates/ufshpb && rt run -- replay </dev/null)

By default traces of several sizes are made, by the options, and `show` runs over the transcripts of `replay`. With
`--cases` the same eight cases are measured each time. With `--yardstick PATH` they are measured for that program too,
a plain fast Rust program of the same profile: each run of one is followed by the same run of the other, and the table
has the ratio of the two times. What each takes for an empty input is subtracted from its own times. The first two
columns of milliseconds are ours, and `Its` are the yardstick's.
"""

import argparse
import filecmp
import os
import pathlib
import random
import subprocess
import sys
import time

ROOT = pathlib.Path(__file__).resolve().parent.parent
BLOCK = 4096

# The bytes of a transcript's line about a UPIU without data, and of the hex digits of a block.
PLAIN_LINE = 67
BLOCK_DIGITS = 2 * BLOCK

# The words of each command in the cases. Where the host decides which regions it holds, no answer has hints.
WORDS = {"replay": ["replay", "--mode", "host"], "show": ["show"]}

# How many times the yardstick's time each command may take.
TARGETS = {"replay": 1.15, "show": 1.05}


def upiu(*words, data=b""):
    """A line of a trace: words of four bytes, and data."""
    header = b"".join(word.to_bytes(4, "big") for word in words)
    return "U " + (header.ljust(32, b"\0") + data).hex() + "\n"


def scsi_command(flags_and_code, tag, opcode, lba, count):
    """A COMMAND of unit 0 about some blocks."""
    cdb = (opcode << 24 | lba >> 16, (lba & 0xFFFF) << 16 | count >> 8, (count & 0xFF) << 24)
    return upiu(flags_and_code << 16 | tag, 0, 0, count * BLOCK, *cdb)


def write_lines(chance, tag, lba, count):
    """A write of some blocks with random data."""
    size = count * BLOCK
    yield scsi_command(0x0120, tag, 0x2A, lba, count)
    yield "D\n"
    yield upiu(0x0200 << 16 | tag, 0, size, 0, size, data=chance.randbytes(size))
    yield "D\n"


def read_lines(tag, lba, count):
    """A read of some blocks."""
    yield scsi_command(0x0140, tag, 0x28, lba, count)
    yield "D\n"


class Mix:
    """Lines of a trace, by a seed, and the size of the transcript that they lead to."""

    def __init__(self, options):
        self.random = random.Random(options.seed)
        self.options = options
        self.units = (options.blocks - 3) * options.pages
        self.pages_left = (options.blocks - 1) * options.pages
        self.written = []
        self.tag = 0
        self.transcript = 0

    def write(self):
        """Writes some blocks."""
        count = self.options.write_blocks
        lba = self.random.randrange(0, self.units - count + 1, count)
        self.pages_left -= count
        self.written.append(lba)
        self.transcript += 4 * PLAIN_LINE + count * BLOCK_DIGITS
        return write_lines(self.random, self.tag, lba, count)

    def read(self):
        """Reads some blocks, the first of which was written."""
        count = self.options.read_blocks
        lba = min(self.random.choice(self.written), self.units - count)
        self.transcript += 2 * PLAIN_LINE + count * (PLAIN_LINE + BLOCK_DIGITS)
        return read_lines(self.tag, lba, count)

    def lines(self, megabytes):
        """Lines until the transcript has this size. Once a write would need the collector, there are only reads."""
        while self.transcript < megabytes * 1_000_000:
            self.tag = (self.tag + 1) % 256
            may_write = self.pages_left >= self.options.write_blocks
            if not self.written or (may_write and self.random.random() < self.options.write_share):
                yield from self.write()
            else:
                yield from self.read()


def writes(seed, commands, count):
    """Writes of so many blocks each, one after the other."""
    chance = random.Random(seed)
    for index in range(commands):
        yield from write_lines(chance, index % 256, index * count, count)


def long_reads(seed):
    """40 writes of 8 blocks, and then 370 reads of 32 of the blocks that were written."""
    yield from writes(seed, 40, 8)
    chance = random.Random(seed)
    for index in range(370):
        yield from read_lines(index % 256, chance.randrange(0, 40 * 8 - 32 + 1), 32)


def nop_outs():
    """400,000 NOP OUTs."""
    return (upiu(index % 256) for index in range(400_000))


def cases(options):
    """The name of each trace that is always the same but for the seed, and its lines."""
    seed = options.seed
    mix = argparse.Namespace(seed=seed, blocks=64, pages=64, write_blocks=8, read_blocks=32, write_share=0.5)
    return {
        "3,900 writes of 1 block": writes(seed, 3900, 1),
        "480 writes of 8 blocks": writes(seed, 480, 8),
        "370 reads of 32 blocks": long_reads(seed),
        "400,000 NOP OUTs": nop_outs(),
        "writes of 8 blocks, reads of 32": Mix(mix).lines(100),
    }


# The traces whose transcripts are shown.
SHOWN = ["writes of 8 blocks, reads of 32", "3,900 writes of 1 block", "400,000 NOP OUTs"]


def run(words, source, sink=os.devnull):
    """Runs a program over a file. Answers its seconds by the clock, and those of its processor."""
    with open(source, "rb") as standard_input, open(sink, "wb") as standard_output:
        begin = time.perf_counter()
        child = subprocess.Popen(words, stdin=standard_input, stdout=standard_output)
        _, status, usage = os.wait4(child.pid, 0)
        seconds = time.perf_counter() - begin
    child.returncode = os.waitstatus_to_exitcode(status)
    if child.returncode != 0:
        sys.exit(f"{words} ended with {child.returncode} over {source}")
    return seconds, usage.ru_utime + usage.ru_stime


def count_upius(path):
    """How many UPIUs a transcript has. It ends the program where lines before the last one are of another kind."""
    count = 0
    with open(path, "rb") as transcript:
        for line in transcript:
            if line[:2] == b"T ":
                break
            if line[:2] not in (b"> ", b"< "):
                sys.exit(f"{path} has the line {line[:40]}")
            count += 1
    return count


def best_in_turn(runs, jobs):
    """The best seconds of each job, by the clock and of the processor. A job is a program's words, and a file that it
    reads. All jobs run in turn, again and again, and each second time in the other order.
    """
    found = {job: [] for job in jobs}
    for number in range(runs):
        for words, source in reversed(found) if number % 2 else found:
            found[words, source].append(run(words, source))
    return {job: tuple(map(min, zip(*times))) for job, times in found.items()}


def row(*cells):
    """Prints a row of a table."""
    print(f"| {' | '.join(str(cell) for cell in cells)} |", flush=True)


def heading(*cells):
    """Prints the head of a table."""
    row(*cells)
    print("|" + "---|" * len(cells))


def megabytes(path):
    """The size of a file, as it stands in a table."""
    return f"{os.path.getsize(path) / 1e6:.2f}"


def rates(transcript, upius, seconds):
    """Megabytes of a transcript in a second, and nanoseconds for each of its UPIUs."""
    seconds = max(seconds, 1e-6)
    return f"{os.path.getsize(transcript) / 1e6 / seconds:.0f}", f"{seconds * 1e9 / upius:.0f}"


def make(folder, name, lines, words):
    """Writes a trace, and its transcript by the words. Answers the paths of both."""
    trace, transcript = folder / f"{name}.trace", folder / f"{name}.transcript"
    with open(trace, "w", encoding="ascii") as file:
        file.writelines(lines)
    run(words, trace, transcript)
    return trace, transcript


def print_size(best, name, words, source, transcript):
    """A row of the table of sizes."""
    clock, used = best[words, source]
    upius = count_upius(transcript)
    told = rates(transcript, upius, used - best[words, os.devnull][1]) if upius else ("", "")
    row(f"`{name}`", megabytes(source), megabytes(transcript), upius, f"{clock:.4f}", f"{used:.4f}", *told)


def measure_sizes(options, folder):
    """The table of traces of several sizes."""
    commands = {"replay": (options.program, *options.words.split()), "show": (options.program, "show")}
    inputs = [(os.devnull, os.devnull)]
    for size in options.sizes:
        inputs.append(make(folder, size, Mix(options).lines(size), commands["replay"]))
    sources = [dict(zip(commands, pair)) for pair in inputs]
    best = best_in_turn(options.runs, [(commands[name], of[name]) for of in sources for name in commands])
    heading("Command", "Input, MB", "Transcript, MB", "UPIUs", "Seconds", "Processor, s", "MB/s", "ns per UPIU")
    for of in sources:
        for name, words in commands.items():
            print_size(best, name, words, of[name], of["show"])


def do_the_same(programs, trace, transcript):
    """Ends the program where a program prints another transcript than the first one."""
    other = transcript.with_suffix(".other")
    for program in programs[1:]:
        run([program, *WORDS["replay"]], trace, other)
        if not filecmp.cmp(transcript, other, shallow=False):
            sys.exit(f"{program} prints another transcript of {trace}")
        other.unlink()


def make_cases(programs, options, folder):
    """The command, the name, the input and the transcript of each case."""
    made = {}
    for number, (name, lines) in enumerate(cases(options).items()):
        made[name] = make(folder, f"case_{number}", lines, [programs[0], *WORDS["replay"]])
        do_the_same(programs, *made[name])
    replayed = [("replay", name, *paths) for name, paths in made.items()]
    return replayed + [("show", name, made[name][1], made[name][1]) for name in SHOWN]


def print_case(best, programs, command, name, source, transcript):
    """A row of the table of cases: the times of each program, less those of an empty input, and their ratio."""
    words = [(program, *WORDS[command]) for program in programs]
    empty = [best[it, os.devnull][1] for it in words]
    used = [max(best[it, source][1] - less, 1e-6) for it, less in zip(words, empty)]
    upius = count_upius(transcript)
    cells = [f"{1000 * empty[0]:.2f}", f"{1000 * used[0]:.2f}", *rates(transcript, upius, used[0])]
    if len(programs) == 2:
        cells += [f"{1000 * empty[1]:.2f}", f"{1000 * used[1]:.2f}", f"{used[0] / used[1]:.2f}", TARGETS[command]]
    row(f"`{command}`", name, megabytes(source), megabytes(transcript), upius, *cells)


def measure_cases(options, folder):
    """The table of cases."""
    programs = [options.program, *([options.yardstick] if options.yardstick else [])]
    made = make_cases(programs, options, folder)
    jobs = [
        ((program, *WORDS[command]), path)
        for command, _, source, _ in made for path in (os.devnull, source) for program in programs
    ]
    best = best_in_turn(options.runs, jobs)
    columns = ["Command", "Case", "Input, MB", "Transcript, MB", "UPIUs", "Empty, ms", "ms", "MB/s", "ns per UPIU"]
    heading(*columns, *(["Its empty, ms", "Its ms", "Ratio", "At most"] if options.yardstick else []))
    for case in made:
        print_case(best, programs, *case)


def read_options():
    """The words of the command line."""
    parser = argparse.ArgumentParser(description="Measures how fast ufshpb replays traces and shows transcripts.")
    parser.add_argument("--program", default=str(ROOT / "crates/ufshpb/out/ufshpb"))
    parser.add_argument("--folder", default=str(ROOT / "bench/out"), help="where traces and transcripts go")
    parser.add_argument("--seed", type=int, default=1)
    parser.add_argument("--runs", type=int, default=9, help="of which the best counts")
    parser.add_argument("--cases", action="store_true", help="measure the cases, and not traces by the options below")
    parser.add_argument("--yardstick", default=None, help="measure the cases for this program too, in turn with ours")
    parser.add_argument("--sizes", type=int, nargs="+", default=[1, 10, 100], help="megabytes of transcript")
    parser.add_argument("--blocks", type=int, default=64, help="erase blocks of the chip")
    parser.add_argument("--pages", type=int, default=64, help="pages of an erase block")
    parser.add_argument("--write-blocks", type=int, default=8, help="blocks of each write, at most 8")
    parser.add_argument("--read-blocks", type=int, default=32, help="blocks of each read")
    parser.add_argument("--write-share", type=float, default=0.5, help="how many of the commands are writes")
    parser.add_argument("--words", default=None, help="the words of a replay over that chip")
    options = parser.parse_args()
    if options.words is None:
        options.words = f"replay --blocks {options.blocks} --pages {options.pages}"
    return options


def print_load(when):
    """Prints how busy the machine is."""
    loads = ", ".join(f"{load:.2f}" for load in os.getloadavg())
    print(f"Load {when}: {loads}, of {os.cpu_count()} processors", flush=True)


def main():
    """Prints a table, and the machine's load before and after."""
    options = read_options()
    folder = pathlib.Path(options.folder)
    folder.mkdir(parents=True, exist_ok=True)
    print_load("before")
    print()
    if options.cases or options.yardstick:
        measure_cases(options, folder)
    else:
        measure_sizes(options, folder)
    print()
    print_load("after")


if __name__ == "__main__":
    main()
