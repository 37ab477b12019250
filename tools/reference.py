#!/usr/bin/env python3
"""A second account of the pin machine, the trace reader, the trace file and the
listing, in plain Python, written apart from the proved code so that the two can
be compared.

    tools/reference.py list FILE    what the listing program must print for FILE
    tools/reference.py replay FILE  what the replay program must print for FILE:
                                    the listing; unless it was refused, a line
                                    `do` with the levels of DO in order, each with
                                    how many samples it lasts; and a line
                                    `byte OFFSET VALUE` for each byte that is not
                                    255 at the end (all are 255 at first)
    tools/reference.py cuts         what the program that cuts the supply must print

The expected output of crates/list_cases is remade from its files with this
reference:

    tools/make_cases.py crates/list_cases/data
    ls crates/list_cases/data | LC_ALL=C sort > crates/list_cases/args
    while read -r name; do
        echo "== $name"
        tools/reference.py list "crates/list_cases/data/$name"
    done < crates/list_cases/args > crates/list_cases/stdout

and that of crates/replay_trace, whose files are some of the same, by `replay` in
place of `list`.
"""

import sys

LONGEST_FILE = 65536
LISTED_ENTRIES = 1024
HEADER = "kind address data width first last verdict"

FALL, CLOCK = 0, 1
CARRIED_OUT, SHUT, PROTECTED, WRONG_COUNT = 0, 1, 2, 3
LOW, HIGH, OFF = 0, 1, 2  # the three answers of DO

# part: bytes, and for each width that the part has, cells and address bits
PARTS = {
    46: (128, {16: (64, 6)}),
    56: (256, {16: (128, 8), 8: (256, 9)}),
    66: (512, {16: (256, 8), 8: (512, 9)}),
    76: (1024, {16: (512, 10), 8: (1024, 11)}),
    86: (2048, {16: (1024, 10), 8: (2048, 11)}),
}

CHANGES = ("WRITE", "ERASE", "WRALL", "ERAL")


class Refused(Exception):
    def __init__(self, number, place):
        super().__init__(number, place)
        self.number = number
        self.place = place

    def __str__(self):
        return f"refused {self.number} at {self.place}"


# ---------------------------------------------------------------- instructions


def kind_of(bits):
    """The kind that the bits after the start bit name, or None if too few came."""
    named = {"10": "READ", "01": "WRITE", "11": "ERASE"}
    special = {"11": "WEN", "00": "WDS", "10": "ERAL", "01": "WRALL"}
    opcode, address = bits[:2], bits[2:4]
    if opcode in named:
        return named[opcode]
    if opcode == "00" and address in special:
        return special[address]
    return None


def length_of(kind, address_bits, width):
    """The number of bits after the start bit; None for a kind not yet known."""
    if kind is None:
        return None
    data_bits = width if kind in ("WRITE", "WRALL") else 0
    return 2 + address_bits + data_bits


# ------------------------------------------------------------- the pin machine


class Machine:
    """One chip, one sample at a time. `step` returns the entry that the sample
    makes, as a tuple in the order of the listing's columns, or None."""

    def __init__(self, part, edition, lengths):
        self.part = part
        self.edition = edition
        self.lengths = lengths  # of WRITE and ERASE; of ERAL; of WRALL
        self.memory = bytearray([0xFF]) * PARTS[part][0]
        self.open = False
        self.left = 0
        self.status = False
        self.cs_before = False
        self.sk_before = False
        self.phase = "waiting"
        self.do = OFF
        # Of the instruction under way; kept for the entry when the phase forgets.
        self.width = None
        self.bits = ""
        self.first = None
        # Of a READ under way.
        self.cell = None
        self.next_bit = None
        # The place of the sample now being taken.
        self.place = 0

    def cells(self):
        return PARTS[self.part][1][self.width][0]

    def address_bits(self):
        return PARTS[self.part][1][self.width][1]

    def word(self, cell):
        if self.width == 8:
            return self.memory[cell]
        return self.memory[2 * cell] * 256 + self.memory[2 * cell + 1]

    def set_word(self, cell, value):
        if self.width == 8:
            self.memory[cell] = value
        else:
            self.memory[2 * cell] = value // 256
            self.memory[2 * cell + 1] = value % 256

    def step(self, sample):
        cs, sk, di, org, pe = (bool(sample >> bit & 1) for bit in range(5))
        if self.part == 46:
            org = True
        if self.edition == FALL:
            pe = True
        entry = self.take(cs, sk, di, org, pe)
        self.cs_before, self.sk_before = cs, sk
        self.place += 1
        return entry

    def take(self, cs, sk, di, org, pe):
        entry = None

        # Rule 1: a cycle under way has one sample less to go.
        if self.left > 0:
            self.left -= 1

        # Rule 2: CS low ends everything.
        if not cs:
            if self.cs_before and self.phase in ("taking", "spoiled"):
                entry = self.end(pe)
            self.phase = "waiting"
            self.status = False
            self.do = OFF
            return entry

        # Rule 3: CS rising during a cycle shows the status.
        if not self.cs_before and self.left > 0:
            self.status = True
            self.phase = "over"

        # Rule 4: a clock.
        clock = self.cs_before and sk and not self.sk_before
        if clock and self.left == 0:
            entry = self.clock(di, org, pe)

        # Rule 5: DO, where READ has not set it.
        if self.phase != "reading":
            if not self.status:
                self.do = OFF
            elif self.left > 0:
                self.do = LOW
            else:
                self.do = HIGH
        return entry

    def clock(self, di, org, pe):
        if self.phase == "waiting" and di:
            self.phase = "taking"
            self.width = 16 if org else 8
            self.bits = ""
            self.first = self.place
        elif self.phase == "taking":
            return self.take_bit(di, pe)
        elif self.phase == "reading":
            self.put_next_bit()
        elif self.phase == "over" and di:
            self.status = False
        return None

    def complete(self):
        length = length_of(kind_of(self.bits), self.address_bits(), self.width)
        return length is not None and len(self.bits) == length

    def take_bit(self, di, pe):
        if self.edition == FALL and self.complete():
            self.phase = "spoiled"
            return None
        self.bits += "1" if di else "0"
        if not self.complete():
            return None
        if kind_of(self.bits) == "READ":
            self.phase = "reading"
            self.cell = self.addressed_cell()
            self.next_bit = self.width - 1
            self.do = LOW
            return self.entry("READ", self.cell, None, CARRIED_OUT)
        if self.edition == CLOCK:
            entry = self.carry_out(pe)
            self.phase = "over"
            if entry[0] in CHANGES and entry[-1] == CARRIED_OUT:
                self.status = True
            return entry
        return None

    def put_next_bit(self):
        self.do = self.word(self.cell) >> self.next_bit & 1
        if self.next_bit > 0:
            self.next_bit -= 1
        else:
            self.next_bit = self.width - 1
            self.cell = (self.cell + 1) % self.cells()

    def end(self, pe):
        if self.edition == FALL and self.phase == "taking" and self.complete():
            return self.carry_out(pe)
        return self.entry("BAD", None, None, WRONG_COUNT)

    def addressed_cell(self):
        return int(self.bits[2 : 2 + self.address_bits()], 2) % self.cells()

    def carry_out(self, pe):
        kind = kind_of(self.bits)
        address = self.addressed_cell() if kind in ("WRITE", "ERASE") else None
        data = None
        if kind in ("WRITE", "WRALL"):
            data = int(self.bits[-self.width :], 2)
        if kind == "WEN":
            self.open = True
        if kind == "WDS":
            self.open = False
        verdict = CARRIED_OUT
        if kind in CHANGES:
            verdict = self.change(kind, address, data, pe)
        return self.entry(kind, address, data, verdict)

    def change(self, kind, address, data, pe):
        if not self.open:
            return SHUT
        if not pe:
            return PROTECTED
        value = data if data is not None else 2**self.width - 1
        changed = [address] if address is not None else range(self.cells())
        for cell in changed:
            self.set_word(cell, value)
        one, eral, wrall = self.lengths
        self.left = {"WRITE": one, "ERASE": one, "ERAL": eral, "WRALL": wrall}[kind]
        return CARRIED_OUT

    def entry(self, kind, address, data, verdict):
        return (kind, address, data, self.width, self.first, self.place, verdict)


# -------------------------------------------------------------- the trace file


def parse(file):
    """The settings (part, edition, lengths) and the joined samples of a file."""
    if len(file) > LONGEST_FILE:
        raise Refused(9, LONGEST_FILE)
    if len(file) < 10 or file[0:2] != b"\x93\x01":
        raise Refused(9, 0)
    part, edition = file[2], file[3]
    lengths = [file[at] * 256 + file[at + 1] for at in (4, 6, 8)]
    samples = b""
    at = 10
    while True:
        body = at + 4
        if len(file) < body or file[at : at + 2] != b"\x93\x02":
            raise Refused(9, at)
        count = file[at + 2] * 256 + file[at + 3]
        if len(file) < body + count:
            raise Refused(9, at)
        samples += file[body : body + count]
        at = body + count
        if at == len(file):
            return (part, edition, lengths), samples


# ------------------------------------------------------------------ the reader


def checked_machine(settings, samples):
    """A machine at power-up, or refusal 4 or 6."""
    for place, sample in enumerate(samples):
        if sample > 31:
            raise Refused(4, place)
    part, edition, lengths = settings
    if part not in PARTS or edition not in (FALL, CLOCK):
        raise Refused(6, 0)
    if edition == CLOCK and part not in (76, 86):
        raise Refused(6, 0)
    return Machine(part, edition, lengths)


def read(settings, samples, room):
    """The entries, and the refusal that stopped the reading or None. A refusal
    other than 8 leaves no entries."""
    entries = []
    try:
        machine = checked_machine(settings, samples)
        for place, sample in enumerate(samples):
            entry = machine.step(sample)
            if entry is not None:
                if len(entries) == room:
                    raise Refused(8, place)
                entries.append(entry)
    except Refused as refusal:
        return entries, refusal
    return entries, None


# ----------------------------------------------------------------- the listing


def listing(file):
    lines = [HEADER]
    try:
        settings, samples = parse(file)
    except Refused as refusal:
        entries, refused = [], refusal
    else:
        entries, refused = read(settings, samples, LISTED_ENTRIES)
    for entry in entries:
        lines.append(" ".join("-" if field is None else str(field) for field in entry))
    lines.append(str(refused) if refused else f"end {len(entries)}")
    return "".join(line + "\n" for line in lines)


def replay(file):
    text = listing(file)
    try:
        settings, samples = parse(file)
        machine = checked_machine(settings, samples)
    except Refused:
        return text
    if text.splitlines()[-1].startswith("refused"):
        return text
    runs = []
    for sample in samples:
        machine.step(sample)
        if runs and runs[-1][0] == machine.do:
            runs[-1][1] += 1
        else:
            runs.append([machine.do, 1])
    lines = ["do" + "".join(f" {level} {count}" for level, count in runs)]
    for offset, value in enumerate(machine.memory):
        if value != 0xFF:
            lines.append(f"byte {offset} {value}")
    return text + "".join(line + "\n" for line in lines)


# ------------------------------------------------------------------ the driver


class Driver:
    """The calls of the driver on a machine at power-up, ORG and PE high, as far
    as the programs need them. `sent` has every sample that they put."""

    POLLS = 4096

    def __init__(self, machine):
        self.machine = machine
        self.machine.width = 16
        self.sent = []

    def put(self, cs=0, sk=0, di=0):
        self.sent.append(cs | sk << 1 | di << 2 | 0b11000)
        self.machine.step(self.sent[-1])
        return self.machine.do

    def poll(self):
        ready = any(self.put(cs=1) != LOW for _ in range(self.POLLS))
        self.put()
        return ready

    def frame(self, bits):
        self.put(cs=1)
        for bit in "1" + bits:
            self.put(cs=1, di=int(bit))
            self.put(cs=1, sk=1, di=int(bit))
        self.put(cs=1)
        self.put()

    def call(self, call):
        """One call that is not refused, as its name and what it is given."""
        name, *given = call.split()
        size = self.machine.address_bits()
        if name == "greet":
            self.put()
        assert self.poll()
        if name in ("greet", "shut"):
            self.frame("00" + "00" + "0" * (size - 2))
        elif name == "open":
            self.frame("00" + "11" + "0" * (size - 2))
        elif name == "write":
            address, value = (int(text) for text in given)
            self.frame("01" + f"{address:0{size}b}" + f"{value:016b}")
            assert self.poll()
        else:
            raise ValueError(f"no account of {name}")


CUT_CALLS = ("greet", "open", "write 0 1000", "write 1 1001", "write 2 1002", "shut")
CUT_STEP, CUT_MOST = 40, 560


def cuts():
    """A history on a 46 of the fall edition whose writes take 100 samples, with
    the supply cut after so many of its samples."""
    driver = Driver(Machine(46, FALL, (100, 0, 0)))
    ends = []
    for call in CUT_CALLS:
        driver.call(call)
        ends.append(len(driver.sent))
    lines = ["a 46 of the fall edition powers up, all cells 65535; a write takes 100 samples"]
    lines.append("cut whole cells 0 to 2, last whole call")
    for cut in range(0, CUT_MOST + 1, CUT_STEP):
        machine = Machine(46, FALL, (100, 0, 0))
        for sample in driver.sent[:cut]:
            machine.step(sample)
        machine.width = 16
        whole = sum(end <= cut for end in ends)
        words = " ".join(str(machine.word(cell)) for cell in range(3))
        lines.append(f"{cut} {whole} {words} {CUT_CALLS[whole - 1] if whole else '-'}")
    return "".join(line + "\n" for line in lines)


def main(arguments):
    if arguments == ["cuts"]:
        sys.stdout.write(cuts())
        return
    commands = {"list": listing, "replay": replay}
    if len(arguments) != 2 or arguments[0] not in commands:
        sys.exit("usage: reference.py list FILE | replay FILE | cuts")
    with open(arguments[1], "rb") as source:
        file = source.read()
    sys.stdout.write(commands[arguments[0]](file))


if __name__ == "__main__":
    main(sys.argv[1:])
