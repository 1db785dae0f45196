"""A device over plain lists, for the scripts that go through runs of the program call by call.

It has the rules of docs/device.md, said over whole lists: the page of a block is the one with the greatest sequence number
of all its pages, a page is current where it is its block's, and what is full, erased or next to be written is counted anew
each time. It serves one logical unit and shares nothing with the program. Calls of the chip are numbered from 1 on, those
of the scan too, and those with the given numbers fail.
"""

BLOCK = 4096
BURST = 8 * BLOCK
NO_PAGE = 2**64 - 1
DEFAULTS = {"--blocks": 64, "--pages": 64, "--units": None, "--region": 10, "--sub": 8, "--held": 4, "--mode": "device"}
KINDS = 0x00, 0x01, 0x02, 0x04, 0x16, 0x20, 0x21, 0x22, 0x24, 0x31, 0x36, 0x3F
COUNTS = "steps", "lookups", "entries", "moved", "erased"


class Failed(Exception):
    """A call of the chip that failed, by its name."""


def number(data, first, past):
    """A number in some bytes, the highest first."""
    return int.from_bytes(data[first:past], "big")


def wire_fault(data):
    """The number of the first condition by which bytes are no UPIU, or 0."""
    conditions = (
        lambda: len(data) < 32,
        lambda: data[0] & 0xC0,
        lambda: data[8],
        lambda: len(data) != 32 + -(-number(data, 10, 12) // 4) * 4,
        lambda: data[0] not in KINDS,
        lambda: data[0] == 1 and data[4] & 15,
    )
    return next((place for place, holds in enumerate(conditions, 1) if holds()), 0)


def upiu(code, tag, lun=0, flags=0, response=0, status=0, words=(), data=b""):
    """A UPIU of the device."""
    head = bytes((code, flags, lun, tag, 0, 0, response, status, 0, 0)) + len(data).to_bytes(2, "big")
    head += b"".join(word.to_bytes(4, "big") for word in words)
    return head.ljust(32, b"\0") + data.ljust(-(-len(data) // 4) * 4, b"\0")


def sense_of(key, code):
    """A segment of fixed sense."""
    return bytes((0, 18, 0x70, 0, key, 0, 0, 0, 0, 10, 0, 0, 0, 0, code >> 8, code & 255, 0, 0, 0, 0))


class Chip:
    """Pages with a sequence number, an LBA and bytes each; none where they are erased."""

    def __init__(self, blocks, pages, failing=()):
        self.blocks, self.pages, self.failing = blocks, pages, failing
        self.content = [None] * (blocks * pages)
        self.calls = 0

    def call(self, name):
        self.calls += 1
        if self.calls in self.failing:
            raise Failed(name)

    def block(self, number):
        """The content of an erase block."""
        return self.content[number * self.pages : (number + 1) * self.pages]

    def page_of(self, lba):
        """The current page of a block."""
        of_block = [(page[0], place) for place, page in enumerate(self.content) if page and page[1] == lba]
        return max(of_block)[1] if of_block else None

    def is_current(self, place):
        return self.content[place] is not None and self.page_of(self.content[place][1]) == place

    def current_in(self, number):
        """The current pages of an erase block."""
        return [place for place in range(number * self.pages, (number + 1) * self.pages) if self.is_current(place)]

    def next_sequence(self):
        return max((page[0] + 1 for page in self.content if page), default=0)

    def erased(self):
        return self.content.count(None)

    def next_page(self):
        """The first erased page of the block that is partly written, else of the lowest that is erased."""
        free = [self.block(number).count(None) for number in range(self.blocks)]
        partly = [number for number in range(self.blocks) if 0 < free[number] < self.pages]
        number = partly[0] if partly else free.index(self.pages)
        return number * self.pages + self.block(number).index(None)

    def program(self, lba, data):
        self.call("program")
        self.content[self.next_page()] = (self.next_sequence(), lba, data)


class Collector:
    """The block that is collected, and the page that was read to be moved."""

    def __init__(self, chip):
        self.chip, self.victim, self.buffer = chip, None, None

    def choose(self):
        """The first full erase block with the fewest current pages, if not all are."""
        chip = self.chip
        full = [number for number in range(chip.blocks) if None not in chip.block(number)]
        least = min(((len(chip.current_in(number)), number) for number in full), default=(chip.pages, None))
        return least[1] if least[0] < chip.pages else None

    def step(self):
        """What it did: nothing, or its name with the block that it moved."""
        chip = self.chip
        if self.victim is None:
            self.victim = self.choose()
        if self.victim is None:
            return None
        if self.buffer is not None and chip.is_current(self.buffer):
            _, lba, data = chip.content[self.buffer]
            chip.program(lba, data)
            self.buffer = None
            return "moved", lba
        self.buffer = None
        current = chip.current_in(self.victim)
        if current:
            chip.call("read")
            self.buffer = current[0]
            return "read", None
        chip.call("erase")
        first = self.victim * chip.pages
        chip.content[first : first + chip.pages] = [None] * chip.pages
        self.victim = None
        return "erased", None


class Regions:
    """What the host holds, and what is to be told of it."""

    def __init__(self, shape):
        self.shape = shape
        self.news = False
        self.forget()

    def forget(self):
        subregions = -(-self.shape["--units"] // self.blocks_of("--sub"))
        self.list, self.gone = [], []
        self.is_held, self.heat = [False] * subregions, [0] * subregions

    def blocks_of(self, option):
        return 2 ** (self.shape[option] - 3)

    def region_of(self, subregion):
        return subregion * self.blocks_of("--sub") // self.blocks_of("--region")

    def touched(self, option, lba, n):
        size = self.blocks_of(option)
        return range(lba // size, (lba + n - 1) // size + 1) if n else ()

    def drop(self, region):
        for subregion in range(len(self.heat)):
            if self.region_of(subregion) == region:
                self.is_held[subregion], self.heat[subregion] = False, 0

    def read(self, lba, n, plain):
        for region in self.touched("--region", lba, n):
            if region in self.list:
                self.list.remove(region)
                self.list.insert(0, region)
        for subregion in self.touched("--sub", lba, n) if plain else ():
            if not self.is_held[subregion]:
                self.heat[subregion] = min(4, self.heat[subregion] + 1)

    def changed(self, lba):
        subregion = lba // self.blocks_of("--sub")
        if self.is_held[subregion]:
            self.heat[subregion] = min(8, self.heat[subregion] + 1)

    def loaded(self, region, subregion):
        if region not in self.list and len(self.list) == self.shape["--held"]:
            last = self.list.pop()
            self.drop(last)
            self.gone.append(last)
        self.list = [region] + [other for other in self.list if other != region]
        self.gone = [other for other in self.gone if other != region]
        self.is_held[subregion], self.heat[subregion] = True, 0

    def given_up(self, region):
        self.list = [other for other in self.list if other != region]
        self.gone = [other for other in self.gone if other != region]
        self.drop(region)

    def take(self):
        """The hint that is due, or nothing."""
        if self.news:
            self.news = False
            return bytes((0, 18, 0x80, 0x10, 2)).ljust(20, b"\0")
        due = [at for at, heat in enumerate(self.heat) if heat == (8 if self.is_held[at] else 4)]
        active = due[:2] if self.shape["--mode"] == "device" else []
        for subregion in active:
            self.heat[subregion] = 0
        inactive, self.gone = self.gone[:2], self.gone[2:]
        if not active and not inactive:
            return b""
        each = self.blocks_of("--region") // self.blocks_of("--sub")
        pairs = b"".join((at // each << 16 | at % each).to_bytes(4, "big") for at in active)
        regions = b"".join(region.to_bytes(2, "big") for region in inactive)
        head = bytes((0, 18, 0x80, 0x10, 1, 0, len(active), len(inactive)))
        return head + pairs.ljust(8, b"\0") + regions.ljust(4, b"\0")


class Task:
    """A command that is kept."""

    def __init__(self, data, kind, lba=0, n=0, moves=0, entries=None, identifier=0):
        self.tag, self.expected = data[3], number(data, 12, 16)
        self.kind, self.lba, self.n, self.moves = kind, lba, n, moves
        self.entries, self.identifier = entries, identifier
        self.asked = self.programmed = self.sent = 0
        self.come = bytearray()
        self.tried = False

    def waits(self):
        return len(self.come) < self.asked


class Device:
    """The device; each call answers the lines that are printed of it."""

    def __init__(self, words, failing=()):
        self.shape = dict(DEFAULTS)
        for name, value in zip(words[::2], words[1::2]):
            self.shape[name] = value if name == "--mode" else int(value)
        blocks, pages = self.shape["--blocks"], self.shape["--pages"]
        self.shape["--units"] = self.shape["--units"] or (blocks - 3) * pages
        self.chip = Chip(blocks, pages, failing)
        self.counts = dict.fromkeys(COUNTS, 0)
        self.regions = Regions(self.shape)
        self.begin()

    def begin(self):
        self.tasks, self.lists, self.scanned = [], {}, 0
        self.collector = Collector(self.chip)

    def reset(self):
        self.begin()
        self.regions.forget()
        self.regions.news = True
        return ["R"]

    def is_ready(self):
        return self.scanned == len(self.chip.content)

    def waits_for_step(self):
        return bool(self.tasks) and not (self.is_ready() and self.tasks[0].waits())

    def last_line(self):
        return "T " + " ".join(f"{name}={self.counts[name]}" for name in COUNTS)

    # What comes from the host.

    def receive(self, data):
        """The answers to any bytes."""
        fault = wire_fault(data)
        if fault:
            return [self.reject(data, fault)]
        if data[0] == 0x00:
            return [self.line(upiu(0x20, data[3]))]
        if data[0] == 0x02:
            return self.data_out(data)
        return self.command(data) if data[0] == 0x01 else [self.reject(data, 7)]

    def command(self, data):
        """A COMMAND, which is refused or kept."""
        if any(task.tag == data[3] for task in self.tasks):
            return [self.reject(data, 8)]
        if data[2] != 0:
            return [self.refused(data, 0x2500)]
        if len(self.tasks) == 32:
            expected = number(data, 12, 16)
            return [self.line(upiu(0x21, data[3], 0, 0x20 if expected else 0, 1, 0x28, (expected,)))]
        task = self.task_of(data)
        if isinstance(task, int):
            return [self.refused(data, task)]
        if task.expected < task.moves:
            return [self.refused(data, 0x2400)]
        self.tasks.append(task)
        return []

    def reject(self, data, reason):
        lun, tag = data[2:4] if len(data) >= 4 else (0, 0)
        return self.line(upiu(0x3F, tag, lun, response=1, words=(reason << 24,)))

    def refused(self, data, code):
        return self.line(self.response(data[3], data[2], number(data, 12, 16), (5, code)))

    def data_out(self, data):
        head = self.tasks[0] if self.tasks and self.is_ready() else None
        if head is None or not head.waits() or (data[2], data[3]) != (0, head.tag):
            return [self.reject(data, 9)]
        offset, count = number(data, 12, 16), number(data, 16, 20)
        segment = data[32 : 32 + number(data, 10, 12)]
        come = len(head.come)
        if offset != come or count != len(segment) or not 0 < count <= head.asked - come:
            return [self.ended((0xB, 0x4B00))]
        head.come += segment
        return []

    def task_of(self, data):
        """The task of a command, or the sense code of its refusal."""
        cdb, units = data[16:32], self.shape["--units"]
        lba, n = number(cdb, 2, 6), number(cdb, 7, 9)
        if cdb[0] in (0x00, 0x25, 0x35):
            task = Task(data, "capacity" if cdb[0] == 0x25 else "nothing", moves=8 if cdb[0] == 0x25 else 0)
            return 0x2100 if cdb[0] == 0x35 and lba + n > units else task
        if cdb[0] in (0x28, 0x2A):
            kind = "read" if cdb[0] == 0x28 else "write"
            return Task(data, kind, lba, n, n * BLOCK) if lba + n <= units else 0x2100
        if cdb[0] == 0xF8:
            return self.hpb_read(data, lba, cdb)
        if cdb[0] == 0xF9:
            return self.read_buffer(data, cdb)
        return self.write_buffer(data, lba, cdb) if cdb[0] == 0xFA else 0x2000

    def hpb_read(self, data, lba, cdb):
        n, identifier = cdb[14], cdb[15]
        if identifier > 127:
            return 0x2400
        if lba + n > self.shape["--units"]:
            return 0x2100
        return Task(data, "hpb", lba, n, n * BLOCK, {0: number(cdb, 6, 14)}, identifier)

    def read_buffer(self, data, cdb):
        region, sub, length = number(cdb, 2, 4), number(cdb, 4, 6), number(cdb, 6, 9)
        size, units = self.regions.blocks_of("--sub"), self.shape["--units"]
        each = self.regions.blocks_of("--region") // size
        first = (region * each + sub) * size
        if cdb[1] != 1 or sub >= each or first >= units:
            return 0x2400
        n = min(size, units - first)
        return Task(data, "buffer", first, n, min(length, 8 * n), entries=(region, first // size))

    def write_buffer(self, data, lba, cdb):
        region, length = number(cdb, 2, 4), number(cdb, 7, 9)
        if cdb[1] == 1:
            is_there = region * self.regions.blocks_of("--region") < self.shape["--units"]
            return Task(data, "give up", entries=[region]) if is_there else 0x2400
        if cdb[1] == 3:
            return Task(data, "give up", entries=range(self.regions.region_of(len(self.regions.heat) - 1) + 1))
        if cdb[1] != 2 or not 1 <= cdb[6] <= 127 or length % 8 or length > 2040:
            return 0x2400
        if lba + length // 8 > self.shape["--units"]:
            return 0x2100
        return Task(data, "prefetch", lba, 0, length, identifier=cdb[6])

    # What the device sends.

    @staticmethod
    def line(data):
        return "< " + data.hex()

    @staticmethod
    def response(tag, lun, residual, sense=None, segment=b""):
        flags = 0x20 if residual else 0
        if sense is None:
            return upiu(0x21, tag, lun, flags, words=(residual,), data=segment)
        return upiu(0x21, tag, lun, flags, 1, 2, (residual,), sense_of(*sense))

    def ended(self, sense=None):
        """The head's RESPONSE, GOOD or with this sense."""
        task = self.tasks.pop(0)
        if task.kind == "hpb":
            self.lists.pop(task.identifier, None)
        segment = self.told(task) if sense is None else b""
        return self.line(self.response(task.tag, 0, task.expected - task.sent - len(task.come), sense, segment))

    def told(self, task):
        """What the regions take in of a task that is GOOD, and the hint that is due then."""
        if task.kind in ("read", "hpb"):
            self.regions.read(task.lba, task.n, task.kind == "read")
        for lba in range(task.lba, task.lba + task.n) if task.kind == "write" else ():
            self.regions.changed(lba)
        if task.kind == "buffer":
            self.regions.loaded(*task.entries)
        for region in task.entries if task.kind == "give up" else ():
            self.regions.given_up(region)
        if task.kind == "prefetch":
            entries = {place // 8: number(task.come, place, place + 8) for place in range(0, len(task.come), 8)}
            self.lists[task.identifier] = task.lba, entries
        return self.regions.take()

    def sends(self, data):
        """A DATA IN of the head."""
        task = self.tasks[0]
        sent, task.sent = task.sent, task.sent + len(data)
        return [self.line(upiu(0x22, task.tag, words=(sent, len(data)), data=data))]

    # Steps.

    def step(self):
        """The lines of a step."""
        if not self.is_ready():
            return self.scan()
        if not self.tasks or self.tasks[0].waits():
            return []
        self.counts["steps"] += 1
        try:
            return self.go_on(self.tasks[0])
        except Failed as failed:
            code = 0x0C00 if self.tasks[0].kind == "write" else 0x1100
            return [f"! {failed}", self.ended((3, code))]

    def scan(self):
        self.counts["steps"] += 1
        try:
            self.chip.call("read")
        except Failed:
            return ["! read"] + ([self.ended((4, 0x4400))] if self.tasks else [])
        self.scanned += 1
        return []

    def go_on(self, task):
        if task.kind == "write" and task.programmed * BLOCK < len(task.come):
            return self.write(task)
        if task.kind in ("write", "prefetch") and task.asked < task.moves:
            burst = min(BURST, task.moves - task.asked)
            asked, task.asked = task.asked, task.asked + burst
            return [self.line(upiu(0x31, task.tag, words=(asked, burst)))]
        if task.kind in ("read", "hpb") and task.sent < task.moves:
            return self.read(task)
        if task.kind == "capacity" and task.sent == 0:
            return self.sends((self.shape["--units"] - 1).to_bytes(4, "big") + BLOCK.to_bytes(4, "big"))
        if task.kind == "buffer" and task.sent < task.moves:
            pages = [self.chip.page_of(lba) for lba in range(task.lba, task.lba + task.n)]
            entries = b"".join((NO_PAGE if page is None else page).to_bytes(8, "big") for page in pages)
            return self.sends(entries[task.sent : min(task.sent + BLOCK, task.moves)])
        return [self.ended()]

    def write(self, task):
        if self.chip.erased() <= self.chip.pages:
            return self.collected()
        first = task.programmed * BLOCK
        self.chip.program(task.lba + task.programmed, bytes(task.come[first : first + BLOCK]))
        task.programmed += 1
        return []

    def read(self, task):
        lba, k = task.lba + task.sent // BLOCK, task.sent // BLOCK
        entry = self.entries_of(task).get(k)
        if entry is not None and not task.tried:
            task.tried = True
            return self.read_by_entry(lba, entry)
        self.counts["lookups"] += 1
        task.tried = False
        page = self.chip.page_of(lba)
        if page is None:
            return self.sends(bytes(BLOCK))
        self.chip.call("read")
        return self.sends(self.chip.content[page][2])

    def read_by_entry(self, lba, entry):
        chip = self.chip
        if entry >= len(chip.content) or not chip.is_current(entry):
            return []
        chip.call("read")
        if chip.content[entry][1] != lba:
            return []
        self.counts["entries"] += 1
        self.tasks[0].tried = False
        return self.sends(chip.content[entry][2])

    def entries_of(self, task):
        """The entries that the blocks of a read have, by their place in it."""
        if task.kind != "hpb":
            return {}
        lba, entries = self.lists.get(task.identifier, (None, None))
        return entries if task.identifier and lba == task.lba else task.entries

    def collected(self):
        """The lines of a step of the collector."""
        did = self.collector.step()
        if did and did[0] == "erased":
            self.counts["erased"] += 1
        if did and did[0] == "moved":
            self.counts["moved"] += 1
            self.regions.changed(did[1])
            return [f"M {did[1]}"]
        return []

    def collect(self):
        """The lines of a call of the collector."""
        if not self.is_ready():
            return []
        try:
            return self.collected()
        except Failed as failed:
            return [f"! {failed}"]
