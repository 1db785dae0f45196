"""Runs of the program of which a device over plain lists (plain_device.py) foretells each line, and lines of traces."""
import subprocess

from plain_device import BLOCK, Device, number
from programs import path_of

FLAGS = ["--plain"]


class Differs(Exception):
    """A printed line that isn't the one that was foretold."""


# Lines of traces.


def command(tag, flags, length, cdb):
    """A COMMAND of unit 0."""
    head = bytes((1, flags, 0, tag)).ljust(12, b"\0") + length.to_bytes(4, "big")
    return "U " + (head + cdb.ljust(16, b"\0")).hex()


def blocks_of(opcode, lba, n):
    """The CDB of READ(10) or WRITE(10)."""
    return bytes((opcode, 0)) + lba.to_bytes(4, "big") + b"\0" + n.to_bytes(2, "big")


def read(tag, lba, n):
    """A read, and a drain."""
    return [command(tag, 0x40, n * BLOCK, blocks_of(0x28, lba, n)), "D"]


def data_out(tag, offset, data, lun=0, count=None):
    """A DATA OUT, whose count is that of its bytes where no other is named."""
    count = len(data) if count is None else count
    head = bytes((2, 0, lun, tag)).ljust(10, b"\0") + len(data).to_bytes(2, "big")
    head += offset.to_bytes(4, "big") + count.to_bytes(4, "big")
    return "U " + (head.ljust(32, b"\0") + data.ljust(-(-len(data) // 4) * 4, b"\0")).hex()


def write(tag, lba, n, byte):
    """A write whose data come as they are asked for."""
    lines = [command(tag, 0x20, n * BLOCK, blocks_of(0x2A, lba, n)), "D"]
    for first in range(0, n, 8):
        lines += [data_out(tag, first * BLOCK, bytes((byte,)) * (min(8, n - first) * BLOCK)), "D"]
    return lines


class Run:
    """A run of the program over a chip of which these calls fail, and of which each line is foretold."""

    def __init__(self, words, lines, failing):
        self.is_drive = words[0] == "drive"
        numbers, text = ",".join(str(call) for call in failing) or "0", "\n".join(lines)
        program = [path_of("faulty_chip"), numbers, *words]
        done = subprocess.run(program, input=text.encode(), stdout=subprocess.PIPE, check=True)
        self.printed = done.stdout.decode().splitlines()
        self.place = 0
        self.device = Device([word for word in words[1:] if word not in FLAGS], failing)
        self.lines = lines
        # Of a drive: the number of requests, those that wait for a command, the open ones by tag, and all open tags.
        self.count, self.asked, self.callers, self.open = 0, [], {}, []

    def expect(self, lines):
        """The next lines that were printed are these."""
        for line in lines:
            came = self.printed[self.place] if self.place < len(self.printed) else "nothing"
            if came != line:
                raise Differs(f"line {self.place + 1} is {came[:80]!r} and not {line[:80]!r}")
            self.place += 1

    def go(self):
        """Goes through all lines; answers the last that was printed."""
        for line in self.lines:
            self.drive(line) if self.is_drive else self.replay(line)
        if self.is_drive:
            self.drain()
        self.expect([self.device.last_line()])
        if self.place != len(self.printed):
            raise Differs("more was printed")
        return self.printed[-1]

    def replay(self, line):
        """A line of a trace."""
        if line.startswith("#"):
            return
        if line.startswith("U "):
            self.expect(["> " + line[2:]])
            self.expect(self.device.receive(bytes.fromhex(line[2:])))
        elif line == "R":
            self.expect(self.device.reset())
        elif line == "D":
            while self.device.waits_for_step():
                self.expect(self.device.step())
        else:
            call = self.device.step if line[0] == "S" else self.device.collect
            for _ in range(int(line[2:])):
                self.expect(call())

    def drive(self, line):
        """A line of a drive."""
        word, *numbers = line.split(" ")
        numbers = [int(each) for each in numbers]
        if word in ("read", "write"):
            self.request(word, *numbers)
        elif word == "steps":
            for _ in range(numbers[0]):
                self.step()
        elif word == "collect":
            for _ in range(numbers[0]):
                self.expect(self.device.collect())
        elif word == "drain":
            self.drain()
        elif word == "reset":
            self.expect(self.device.reset())
            self.expect(f"A {request['k']} cut" for request in self.callers.values())
            self.callers, self.open = {}, []
        else:
            self.lun = numbers[0]

    lun = 0

    def request(self, word, lba, n, seed=0):
        """A request, which is out of range or goes out at once."""
        if len(self.open) == 32:
            self.drain()
        self.count += 1
        if self.lun or lba + n > self.device.shape["--units"]:
            self.expect([f"A {self.count} range"])
        else:
            self.asked.append({"k": self.count, "word": word, "lba": lba, "n": n, "seed": seed, "got": b"", "gave": 0})
        self.exchange()
        if self.asked:
            raise Differs(f"request {self.count} has no command")

    def exchange(self, held=False):
        """The host's UPIUs that stand next; where it is held, its data alone."""
        while self.place < len(self.printed) and self.printed[self.place].startswith("> "):
            data = bytes.fromhex(self.printed[self.place][2:])
            if data[0] != 2 and (held or self.is_of_next_line(data)):
                return
            self.place += 1
            self.sent(data)
            self.expect(self.device.receive(data))

    def is_of_next_line(self, data):
        """Whether a command is one of a request that wasn't read yet."""
        is_prefetch = data[16:18] == b"\xfa\x02"
        return not self.asked and (data[16] in (0x28, 0x2A, 0xF8) or is_prefetch)

    def sent(self, data):
        """The host's UPIU is one that its requests have."""
        if data[0] == 2:
            request = self.callers.get(data[3])
            if request and data[32:] != self.piece_of(request, data):
                raise Differs("a DATA OUT isn't the next piece of its write")
            return
        tag, opcode = data[3], data[16]
        if tag != min(tag for tag in range(33) if tag not in self.open):
            raise Differs(f"tag {tag} isn't the lowest that is free")
        self.open.append(tag)
        if opcode in (0x28, 0x2A, 0xF8):
            request = self.asked.pop(0)
            n = data[30] if opcode == 0xF8 else number(data, 23, 25)
            if (number(data, 18, 22), n, opcode == 0x2A) != (request["lba"], request["n"], request["word"] == "write"):
                raise Differs(f"the command of request {request['k']} is another one")
            self.callers[tag] = request

    @staticmethod
    def piece_of(request, data):
        """The block of a write that is due."""
        place = request["gave"]
        if number(data, 12, 16) != place * BLOCK or place == request["n"]:
            return None
        request["gave"] += 1
        return pattern(request["lba"] + place, request["seed"])

    def step(self, held=False):
        """A step of the device, and an exchange."""
        for line in self.device.step():
            self.expect([line])
            if line.startswith("< "):
                self.delivered(bytes.fromhex(line[2:]))
        self.exchange(held)

    def delivered(self, data):
        """The lines of the request that a UPIU of the device ends."""
        request = self.callers.get(data[3])
        if request and data[0] == 0x22:
            request["got"] += data[32:]
        if data[0] != 0x21:
            return
        self.open.remove(data[3])
        if not request:
            return
        del self.callers[data[3]]
        if data[7]:
            sense = data[34:]
            self.expect([f"A {request['k']} check {sense[2]:x} {sense[12]:02x} {sense[13]:02x}"])
            return
        self.expect([f"A {request['k']} good"])
        for place in range(request["n"] if request["word"] == "read" else 0):
            block = request["got"][place * BLOCK : (place + 1) * BLOCK]
            self.expect([f"B {request['lba'] + place} {block.hex()}"])

    def drain(self):
        """Two passes: an exchange, and steps until no command is open."""
        for _ in range(2):
            self.exchange()
            while self.open:
                self.step(held=True)


def pattern(lba, seed):
    """A block of a write."""
    return bytes((31 * seed + 7 * lba + place) % 256 for place in range(BLOCK))


def differs(words, lines, failing=(), last=None, seen=None):
    """In what a run isn't as foretold, if it is not. What was printed goes to `seen`."""
    run = Run(words, lines, failing)
    if seen is not None:
        seen += run.printed
    try:
        came = run.go()
    except Differs as different:
        return str(different)
    return None if last in (None, came) else f"{came} and not {last}"
