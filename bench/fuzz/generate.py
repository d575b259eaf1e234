#!/usr/bin/env python3
"""Random scripts for the card, one for each seed: `generate.py SEED` prints the script of that seed.

A script is a chain of scenes (counting, transmissions, snapshots, interrupts and so on) that overlap on
the same card, with reads of status and data registers between them, and ends with a read of every
register. Some scripts are damaged so that each refusal happens. Beside them stand fixed scripts: one for
each badly written line, and a long one in which the slowest time bases run out (`generate.py long`).
"""
import random
import sys

LIMIT = 65536  # bytes of a script, and of the output of a program that runs one
ANSWERS = 4369  # answers of reads that fit into the output

GLOBAL_CONTROL, GLOBAL_COMMAND, GLOBAL_STATUS = 0x000, 0x004, 0x008
INPUT, INPUT_DEBOUNCING = 0x150, 0x154
OUTPUT_CONTROL, OUTPUT, OUTPUT_STATUS = 0x160, 0x164, 0x168
TIMER_CONTROL, TIMER_PRELOAD, TIMER_DATA = 0x170, 0x174, 0x178
INTERRUPT_ENABLE, EDGE_ENABLE, INTERRUPT_STATUS, EDGE_STATUS = 0x180, 0x184, 0x188, 0x18C
SNAPSHOT_DATA, TEST, SCRATCHPAD = 0x190, 0x1F0, 0x1F8

SSI_CONTROL, SSI_STATUS, COUNTER_CONTROL, COUNTER_STATUS = 0x00, 0x04, 0x08, 0x0C
PRELOAD, COMPARE, COMMAND, DEBOUNCING, DATA = 0x10, 0x14, 0x18, 0x1C, 0x20

OFF, SSI, COUNTER, OFF_TOO = 0, 1, 2, 3
RCNT, LCNT = 1, 2
TRIGGER, CLEAR = 0x100, 0x200

BASES = (3, 10, 100, 100000)
TIMER_BASES = (10, 100, 100000, 100000000)
CLOCK_PERIODS = (100, 50, 25, 20, 10, 5, 2, 1)
EDGE_VALUES = (0, 0, 1, 2, 5, 0xFFFFFFFF, 0xFFFFFFFF, 0xFFFFFFFE, 0xFFFFFFFD, 0x80000000)

WRONG_KIND_OR_COUNT = (
    b"", b" ", b",", b"#", b"X,000", b"r,000", b"w,1F8,00000000", b"R", b"W", b"T", b"RR,000", b" R,000", b"R ,000",
    b",R,000", b"R,000,", b"R,1F8,00000000", b"W,000", b"W,1F8,00000000,", b"W,1F8,00000000,00", b"T,1", b"T,1,000000",
    b"T,1,000000,00,", b"T,1,000000,00,00", b"E,1,6", b"\xff,000", b"\x00", b"TT,1,000000,00", b"R\r", b"\r", b"S,1F8",
    b"R,1F8,W,1F8", b",,", b",,,", b"T,,,,")
BAD_FIELD = (
    b"R,", b"R,00", b"R,0000", b"R,0g0", b"R,1fc", b"R,1FC\r", b"R, 00", b"R,1F8 ", b"R,-04", b"R,0x4", b"R,\x00\x00\x00",
    b"W,1F8,0000000", b"W,1F8,000000000", b"W,1f8,00000000", b"W,1F8,0000000a", b"W,,00000000", b"W,1F8,", b"W,1FF,", b"W,,",
    b"W,1F8,0000000G", b"W,1F8,0000000@", b"W,1F8,0000000:", b"W,1F8,0000000/", b"W,201,0000000", b"W,018,00000F0",
    b"T,0,000000,00", b"T,01,000000,00", b"T,100001,000000,00", b"T,1000000,000000,00", b"T,,000000,00", b"T,+1,000000,00",
    b"T,-1,000000,00", b"T,1 ,000000,00", b"T,A,000000,00", b"T,1,00000,00", b"T,1,0000000,00", b"T,1,000000,0",
    b"T,1,000000,000", b"T,1,00000g,00", b"T,1,000000,0f", b"T,1,,", b"T,4294967297,000000,00", b"T,1,000000,00\r",
    b"T,999999,000000,00", b"T,18446744073709551617,000000,00", b"R,2", b"R,201x", b"T,,,", b"T,1:,000000,00", b"T,1/,000000,00")


class Writer:
    """Collects the lines of a script and remembers what the card was told."""

    def __init__(self, seed):
        self.random = random.Random(seed)
        self.lines = []
        self.budget = self.random.choice((5_000, 20_000, 60_000, 60_000, 200_000))
        self.levels = self.random.choice((0, 0, 0x924924 >> 1, self.random.getrandbits(24)))
        self.inputs = self.random.choice((0, 0xFF, self.random.getrandbits(8)))
        self.mode = [OFF] * 8
        self.snapshots = 0
        self.by_timer = 0
        self.ssi = [0] * 8
        self.counter = [0] * 8
        self.period = [3] * 8
        self.preload = [0] * 8
        self.compare = [0] * 8
        self.timer_period = 0

    # -- lines --

    def read(self, offset):
        self.lines.append(b"R,%03X" % offset)

    def write(self, offset, value):
        self.lines.append(b"W,%03X,%08X" % (offset, value & 0xFFFFFFFF))

    def ticks(self, count):
        count = max(0, min(int(count), self.budget))
        self.budget -= count
        while count > 0:
            part = min(count, 100000)
            self.lines.append(b"T,%d,%06X,%02X" % (part, self.levels, self.inputs))
            count -= part

    def chance(self, probability):
        return self.random.random() < probability

    def near(self, count):
        """A number of ticks at, just before or just after a boundary."""
        return max(1, count + self.random.choice((0, 0, 0, -1, 1, -2, 2, 5)))

    def set_line(self, k, line, level):
        bit = 1 << (3 * k + line)
        self.levels = self.levels | bit if level else self.levels & ~bit

    def flip_lines(self, mask):
        self.levels ^= mask & 0xFFFFFF

    # -- registers --

    def at(self, k, register):
        return 0x010 + 0x28 * k + register

    def write_global_control(self):
        value = sum(mode << (2 * k) for k, mode in enumerate(self.mode))
        value |= self.snapshots << 16 | self.by_timer << 24
        if self.chance(0.2):
            value |= self.random.getrandbits(7) << 25
        self.write(GLOBAL_CONTROL, value)

    def write_debouncing(self, k):
        base, time = self.random.choice(
            ((0, 0), (3, 0), (0, 1), (0, 1), (0, 2), (0, 5), (1, 1), (1, 1), (1, 3), (2, 1), (0, self.random.randrange(1, 40))))
        if self.budget > 100_000 and self.chance(0.05):
            base, time = 3, 1
        if self.chance(0.01):
            base, time = 3, 0xFFFF
        self.period[k] = time * BASES[base] if time else 1
        self.write(self.at(k, DEBOUNCING), base << 16 | time | (self.random.getrandbits(14) << 18 if self.chance(0.1) else 0))

    def write_counter_control(self, k):
        word = self.random.randrange(8) | self.random.randrange(8) << 3 | self.random.randrange(4) << 6
        word |= self.random.choice((0, 0, 1, 2, 2, 3, 4)) << 8
        if self.chance(0.5):
            word |= self.random.getrandbits(3) << 11
        if self.chance(0.1):
            word |= self.random.getrandbits(18) << 14
        self.counter[k] = word
        self.write(self.at(k, COUNTER_CONTROL), word)

    def write_counter_values(self, k):
        value = self.random.choice(EDGE_VALUES) if self.chance(0.8) else self.random.getrandbits(32)
        self.preload[k] = value
        self.write(self.at(k, PRELOAD), value)
        self.compare[k] = self.random.choice((value, value + 1, value - 1, value + 2, value - 3, 0, 1, 0xFFFFFFFF, 3)) & 0xFFFFFFFF
        self.write(self.at(k, COMPARE), self.compare[k])

    def write_ssi_control(self, k, start=None):
        rate = self.random.choice((4095, 4095, 4000, 3000, 2500, 2000, 1000, self.random.randrange(700, 4096)))
        if self.chance(0.06):
            rate = self.random.choice((0, 0, 1, 50, 125, 250))
        word = rate | self.random.choice((0, 3, 7, 11, 15, 24, 30, 31, self.random.randrange(32))) << 12
        word |= self.random.choice((0, 0, 1, 2, 3, 7, self.random.randrange(8))) << 17
        word |= self.random.randrange(4) << 20 | self.random.getrandbits(2) << 22
        word |= (self.random.choice((0, 0, 0, 1)) if start is None else start) << 25
        if self.chance(0.2):
            word |= self.random.getrandbits(5) << 27
        self.ssi[k] = word
        self.write(self.at(k, SSI_CONTROL), word)

    def half_period(self, k):
        rate = self.ssi[k] & 0xFFF
        return 50000 // rate if rate else 50

    def frame_bits(self, k):
        word = self.ssi[k]
        return (word >> 12 & 31) + 1 + (word >> 17 & 7) + (1 if word >> 20 & 3 else 0)

    def write_timer(self):
        base = self.random.choice((0, 0, 0, 0, 1, 1, 2, 3))
        preload = self.random.choice((0, 1, 1, 2, 3, 5, 10, 17, 40, 150, 400))
        if base == 2:
            preload = min(preload, 2)
        if self.chance(0.02):
            preload = self.random.getrandbits(32)
        if self.chance(0.8):
            self.write(TIMER_PRELOAD, preload)
            self.timer_period = TIMER_BASES[base] * preload
        enable = 1 if self.chance(0.85) else 0
        self.write(TIMER_CONTROL, enable | base << 1 | (self.random.getrandbits(29) << 3 if self.chance(0.1) else 0))
        if self.chance(0.2):  # held, restarted or with another base at once
            self.write(TIMER_CONTROL, self.random.randrange(8))

    # -- looking --

    def look(self, k=None):
        """Reads a few registers, mostly of channel k."""
        if k is None:
            k = self.random.randrange(8)
        mine = [self.at(k, DATA), self.at(k, DATA), self.at(k, COUNTER_STATUS), self.at(k, SSI_STATUS), SNAPSHOT_DATA + 4 * k]
        shared = [GLOBAL_STATUS, INTERRUPT_STATUS, EDGE_STATUS, TIMER_DATA, INPUT, TEST, GLOBAL_CONTROL]
        for _ in range(self.random.choice((1, 1, 2, 3))):
            self.read(self.random.choice(mine if self.chance(0.75) else shared))

    def dump(self):
        for offset in range(0x000, 0x200, 4):
            self.read(offset)

    # -- scenes --

    def scene_counter(self):
        channels = self.random.sample(range(8), self.random.choice((1, 1, 2, 3, 8)))
        for k in channels:
            self.mode[k] = COUNTER
            for act in self.random.sample((self.write_debouncing, self.write_counter_control, self.write_counter_values), 3):
                if self.chance(0.85):
                    act(k)
        self.write_global_control()
        if self.chance(0.3):
            for k in channels:
                self.write_counter_control(k)
        for k in channels:
            if self.chance(0.7):
                self.write(self.at(k, COMMAND), self.random.choice((LCNT, LCNT, RCNT, RCNT | LCNT, 0xFFFFFFFE)))
        self.move(channels)

    def move(self, channels):
        """Lines of counter channels move: quadrature one way or the other, pulses, index, noise."""
        style = {k: self.random.choice(("forward", "forward", "back", "back", "noise", "pulse", "index", "still")) for k in channels}
        gray = (0b00, 0b01, 0b11, 0b10)
        place = {k: self.random.randrange(4) for k in channels}
        hold = 3 * max(self.period[k] for k in channels)
        for _ in range(self.random.choice((3, 6, 12, 25))):
            if self.budget <= 0:
                return
            for k in channels:
                self.move_channel(k, style[k], place, gray)
            self.ticks(self.random.choice((hold, hold, hold, hold + 1, hold - 1, 1, 2, 3, 4, self.random.randrange(1, 60))))
            if self.chance(0.4):
                self.look(self.random.choice(channels))
            if self.chance(0.15):
                self.disturb_counter(self.random.choice(channels))
            if self.chance(0.1):
                k = self.random.choice(channels)
                style[k] = self.random.choice(("forward", "back", "noise", "pulse", "index"))

    def move_channel(self, k, style, place, gray):
        if style in ("forward", "back"):
            place[k] = (place[k] + (1 if style == "forward" else -1)) % 4
            self.set_line(k, 0, gray[place[k]] & 1)
            self.set_line(k, 1, gray[place[k]] & 2)
            if self.chance(0.15):
                self.flip_lines(4 << (3 * k))
        elif style == "noise":
            self.flip_lines(self.random.getrandbits(3) << (3 * k))
        elif style == "pulse":
            self.flip_lines(self.random.choice((1, 1, 2, 3)) << (3 * k))
        elif style == "index":
            self.flip_lines(self.random.choice((4, 4, 5, 6)) << (3 * k))

    def disturb_counter(self, k):
        act = self.random.randrange(10)
        if act == 0:
            self.write(self.at(k, COMMAND), self.random.randrange(4))
        elif act == 1:
            self.write(self.at(k, COUNTER_STATUS), self.random.choice((0xFF, 0x20, 0x40, 0x04, 0x03, self.random.getrandbits(32))))
        elif act == 2:
            self.write_counter_control(k)
        elif act == 3:  # the same word, or another polarity of it
            self.counter[k] ^= self.random.choice((0, 0, 1, 2, 4, 7)) << 11
            self.write(self.at(k, COUNTER_CONTROL), self.counter[k])
        elif act == 4:
            self.write_counter_values(k)
        elif act == 5:
            self.write(GLOBAL_COMMAND, self.random.getrandbits(10))
        elif act == 6:
            self.mode[k] = self.random.choice((OFF, SSI, COUNTER, COUNTER, OFF_TOO))
            self.write_global_control()
            if self.chance(0.7):
                self.ticks(self.random.randrange(1, 12))
                self.mode[k] = COUNTER
                self.write_global_control()
        elif act == 7:
            self.write_debouncing(k)
        elif act == 8:
            self.write(self.at(k, DATA), self.random.getrandbits(32))
        else:
            self.read(self.at(k, DATA))

    def scene_internal_clock(self):
        """INPUT 001 and 010 near a wrap, with every CLKDIV and special mode."""
        k = self.random.randrange(8)
        self.mode[k] = COUNTER
        self.write_global_control()
        self.write_counter_values(k)
        divide = self.random.randrange(8)
        word = self.random.choice((1, 2)) | divide << 3 | self.random.randrange(4) << 6 | self.random.choice((0, 0, 1, 2, 3, 4)) << 8
        self.counter[k] = word | (4 << 11 if self.chance(0.3) else 0)
        self.write(self.at(k, COUNTER_CONTROL), self.counter[k])
        self.write(self.at(k, COMMAND), self.random.choice((LCNT, LCNT, RCNT, 0)))
        for _ in range(self.random.choice((3, 6, 10))):
            if self.chance(0.3):
                self.flip_lines(4 << (3 * k))
            self.ticks(self.near(self.random.choice((1, 1, 2, 3)) * CLOCK_PERIODS[divide]))
            self.look(k)
            if self.chance(0.2):
                self.disturb_counter(k)

    def scene_transmission(self):
        channels = self.random.sample(range(8), self.random.choice((1, 1, 1, 2, 3)))
        start = self.random.choice((0, 0, 0, 1))
        for k in channels:
            self.mode[k] = SSI
            if self.chance(0.6):
                self.write_debouncing(k)
            self.write_ssi_control(k, start if self.chance(0.9) else None)
            self.set_line(k, 1, self.chance(0.85))
        self.write_global_control()
        if self.chance(0.85):
            self.ticks(3 * max(self.period[k] for k in channels) + 2)
        if self.chance(0.4):
            self.snapshots |= self.random.getrandbits(8) | 1 << channels[0]
            self.write_global_control()
        self.request(channels, start)
        self.clock_out(channels)

    def request(self, channels, start):
        if start == 1:
            preload = self.random.choice((1, 2, 7))
            self.write(TIMER_CONTROL, 0)
            self.write(TIMER_PRELOAD, preload if self.chance(0.5) else 600)
            self.write(TIMER_CONTROL, 1)
            self.timer_period = 10 * preload
            self.ticks(10 * preload if self.chance(0.5) else self.near(10 * preload))
            if self.chance(0.6):
                self.write(TIMER_CONTROL, 0)
            return
        if self.chance(0.3):
            self.write(GLOBAL_COMMAND, self.random.choice((TRIGGER, TRIGGER, TRIGGER | CLEAR)))
        for k in channels:
            if self.chance(0.85):
                self.write(self.at(k, DATA), self.random.getrandbits(32))

    def clock_out(self, channels):
        """Data levels bit by bit, then the ticks up to completion and the end of recovery."""
        k = channels[0]
        half = self.half_period(k)
        left = (2 * self.frame_bits(k) + 1) * half
        if left > self.budget:
            return
        disturbed = self.chance(0.35)
        while left > 0:
            for other in channels:
                self.set_line(other, 1, self.chance(0.5))
            part = min(left, self.random.choice((2 * half, 2 * half, half, half + 1, 4 * half)))
            self.ticks(part)
            left -= part
            if self.chance(0.12):
                self.look(k)
            if disturbed and self.chance(0.08):
                self.disturb_transmission(k)
        for other in channels:
            self.set_line(other, 1, self.chance(0.2))
        self.finish(k, 500)
        for other in channels:
            self.set_line(other, 1, self.chance(0.8))
        if self.chance(0.8):
            self.finish(k, 2600)
        if self.chance(0.15):  # with CR 0 a request does nothing, whatever WHILE BUSY shows
            self.write(self.at(k, SSI_CONTROL), self.ssi[k] & 0xFFFFF000)
            self.write(self.at(k, DATA), 0)
            self.read(self.at(k, SSI_STATUS))
            self.write(self.at(k, SSI_CONTROL), self.ssi[k])

    def finish(self, k, count):
        """Comes up to a boundary, looks, passes it tick by tick, looks again."""
        early = self.random.choice((0, 1, 2, 3))
        self.ticks(count - early)
        self.look(k)
        if self.chance(0.4):
            self.disturb_transmission(k)
        self.ticks(1)
        self.look(k)
        self.ticks(early + self.random.choice((0, 0, 1, 3)))
        self.look(k)
        if self.chance(0.3):
            self.read(GLOBAL_STATUS)

    def disturb_transmission(self, k):
        act = self.random.randrange(10)
        if act <= 1:
            self.write(self.at(k, DATA), 0)
        elif act == 2:
            self.write(GLOBAL_COMMAND, self.random.choice((TRIGGER, TRIGGER, CLEAR, TRIGGER | CLEAR)))
        elif act == 3:
            self.mode[k] = self.random.choice((OFF, COUNTER, OFF_TOO))
            if self.chance(0.3):
                self.snapshots &= ~(1 << k)
            self.write_global_control()
            if self.chance(0.7):
                self.mode[k] = SSI
                self.write_global_control()
        elif act == 4:
            former = self.ssi[k]
            self.write_ssi_control(k)
            if self.chance(0.7):
                self.ssi[k] = former
        elif act == 5:
            self.snapshots ^= 1 << self.random.choice((k, self.random.randrange(8)))
            self.write_global_control()
        elif act == 6:
            self.read(SNAPSHOT_DATA + 4 * k)
            self.read(GLOBAL_STATUS)
        elif act == 7:
            self.write_debouncing(k)
        elif act == 8:  # the other way to start, perhaps with a trigger
            self.write(self.at(k, SSI_CONTROL), self.ssi[k] ^ 1 << 25)
            if self.chance(0.6):
                self.write(GLOBAL_COMMAND, TRIGGER)
                self.read(GLOBAL_STATUS)
                self.read(SNAPSHOT_DATA + 4 * k)
            if self.chance(0.6):
                self.write(self.at(k, SSI_CONTROL), self.ssi[k])
        else:
            self.write(self.at(k, SSI_STATUS), 0xFFFFFFFF)

    def enter_ssi(self, k):
        """Channel k waits in SSI mode, whatever it did before, and sees its lines after three ticks."""
        self.mode[k] = OFF
        self.write_global_control()
        self.mode[k] = SSI
        self.write_global_control()
        self.period[k] = 1
        self.write(self.at(k, DEBOUNCING), 0)

    def scene_meeting(self):
        """The timer expires in a tick in which a transmission completes or ends its recovery, or in a tick beside it."""
        k = self.random.randrange(8)
        self.by_timer = 1 if self.chance(0.7) else 0
        self.snapshots |= 1 << k if self.chance(0.7) else 0
        self.enter_ssi(k)
        self.write_ssi_control(k, 0)
        self.write(TIMER_CONTROL, 0)
        periods = self.random.choice((1, 2, 9, 30))
        self.write(TIMER_PRELOAD, periods)
        self.ticks(4)
        self.write(self.at(k, DATA), 0)
        last_rise = (2 * self.frame_bits(k) + 1) * self.half_period(k)
        meeting = last_rise + self.random.choice((500, 3100, 3100)) + 1 + self.random.choice((0, 0, -1, 1))
        if meeting > 12_000:
            return
        self.budget += meeting
        self.ticks(meeting - 10 * periods)
        if self.chance(0.5):
            self.write(self.at(k, SSI_CONTROL), self.ssi[k] ^ 1 << 25)
        self.write(TIMER_CONTROL, 1)
        self.ticks(10 * periods)
        self.write(TIMER_CONTROL, 0)
        for count in (1, last_rise + 499, 2, 2600):
            for offset in (self.at(k, SSI_STATUS), self.at(k, DATA), GLOBAL_STATUS, SNAPSHOT_DATA + 4 * k):
                if self.chance(0.5):
                    self.read(offset)
            self.ticks(count)
        self.write(self.at(k, SSI_CONTROL), self.ssi[k])

    def scene_collecting(self):
        """A snapshot collects a transmission, with a count as its earlier word, and meets what may end it."""
        k = self.random.randrange(8)
        self.snapshots |= 1 << k
        self.mode[k] = COUNTER
        self.write_global_control()
        self.write(self.at(k, PRELOAD), self.random.getrandbits(32))
        self.write(GLOBAL_COMMAND, CLEAR | TRIGGER | 1 << k)
        self.enter_ssi(k)
        self.write_ssi_control(k, 0)
        self.write(GLOBAL_COMMAND, TRIGGER)
        for _ in range(self.random.choice((1, 2, 4))):
            self.ticks(self.random.choice((0, 1, 100)))
            self.disturb_transmission(k)
            self.read(SNAPSHOT_DATA + 4 * k)
            self.read(GLOBAL_STATUS)

    def scene_slow_transmission(self):
        """The slowest clocks, beyond the budget of the other scenes."""
        budget, self.budget = self.budget, 300_000
        k = self.random.randrange(8)
        self.enter_ssi(k)
        self.ssi[k] = self.random.choice((1, 1, 2, 3)) | self.random.randrange(2) << 12 | self.random.getrandbits(1) << 23
        self.write(self.at(k, SSI_CONTROL), self.ssi[k])
        self.request([k], 0)
        self.clock_out([k])
        self.budget = budget

    def scene_snapshot(self):
        self.snapshots = self.random.choice((0xFF, self.random.getrandbits(8), self.random.getrandbits(8), 0))
        self.by_timer = 1 if self.chance(0.4) else 0
        if self.chance(0.3):
            self.mode[self.random.randrange(8)] = self.random.randrange(4)
        self.write_global_control()
        for _ in range(self.random.choice((1, 2, 3))):
            self.write(GLOBAL_COMMAND, self.random.choice((TRIGGER, TRIGGER, TRIGGER | CLEAR, CLEAR, self.random.getrandbits(32))))
            self.read(GLOBAL_STATUS)
            self.ticks(self.random.choice((1, 5, 600, 2000)))
            for k in self.random.sample(range(8), self.random.choice((1, 4, 8))):
                self.read(SNAPSHOT_DATA + 4 * k)
            self.read(GLOBAL_STATUS)
            if self.chance(0.2):
                self.write(SNAPSHOT_DATA + 4 * self.random.randrange(8), self.random.getrandbits(32))
            if self.chance(0.2):
                self.snapshots &= self.random.getrandbits(8)
                self.write_global_control()
                self.read(GLOBAL_STATUS)

    def scene_timer(self):
        self.write_timer()
        if self.chance(0.5):
            self.by_timer ^= 1
            self.write_global_control()
        for _ in range(self.random.choice((2, 4))):
            period = self.timer_period if 0 < self.timer_period <= 5000 else self.random.choice((10, 30, 100))
            if self.timer_period in (100000, 200000) and self.budget >= self.timer_period:
                period = self.timer_period
            self.ticks(self.near(period))
            self.read(TIMER_DATA)
            self.read(INTERRUPT_STATUS)
            if self.chance(0.3):
                self.read(GLOBAL_STATUS)
            if self.chance(0.3):
                self.write(TIMER_PRELOAD, self.random.choice((0, 1, 2, 4)))
            if self.chance(0.2):
                self.write(TIMER_CONTROL, self.random.randrange(8))

    def scene_interrupts(self):
        enable = self.random.choice((0xFFFFFFFF, 0x7FFFFFFF, 0x8010FFFF, 0x0010FFFF, self.random.getrandbits(32)))
        self.write(INTERRUPT_ENABLE, enable)
        if self.chance(0.7):
            self.write(EDGE_ENABLE, self.random.choice((0xFFFFFFFF, 0xFFFF, self.random.getrandbits(16))))
        for _ in range(self.random.choice((1, 2, 3))):
            self.inputs = self.random.getrandbits(8)
            self.flip_lines(self.random.getrandbits(24))
            self.ticks(self.random.choice((1, 3, 9, 10, 40)))
            self.read(self.random.choice((INTERRUPT_STATUS, EDGE_STATUS)))
            if self.chance(0.6):
                self.write(self.random.choice((INTERRUPT_STATUS, EDGE_STATUS)), self.random.choice((0xFFFFFFFF, self.random.getrandbits(32))))
                self.read(self.random.choice((INTERRUPT_STATUS, EDGE_STATUS)))
            if self.chance(0.3):
                self.write(EDGE_ENABLE, self.random.getrandbits(16))
            if self.chance(0.3):
                self.write(INTERRUPT_ENABLE, self.random.getrandbits(32))

    def scene_inputs(self):
        if self.chance(0.7):
            base, time = self.random.choice(((0, 0), (0, 1), (0, 3), (1, 1), (1, 2), (2, 1)))
            reserved = self.random.getrandbits(6) << 18 if self.chance(0.2) else 0
            self.write(INPUT_DEBOUNCING, self.random.getrandbits(8) << 24 | reserved | base << 16 | time)
        if self.chance(0.6):
            self.write(EDGE_ENABLE, self.random.choice((0xFFFF, self.random.getrandbits(16))))
        for _ in range(self.random.choice((2, 4, 8))):
            self.inputs ^= self.random.getrandbits(8)
            self.ticks(self.random.choice((1, 2, 3, 4, 8, 9, 10, 29, 30, 31, 90, 300)))
            self.read(self.random.choice((INPUT, INPUT, EDGE_STATUS, INTERRUPT_STATUS)))
            if self.chance(0.15):
                self.write(INPUT_DEBOUNCING, self.random.getrandbits(8) << 24 | self.random.randrange(4))

    def scene_outputs(self):
        self.write(OUTPUT_CONTROL, self.random.choice((0, 1, 2, 3, self.random.getrandbits(32))))
        self.write(OUTPUT, self.random.getrandbits(8 if self.chance(0.7) else 32))
        self.ticks(1)
        for offset in (OUTPUT_CONTROL, OUTPUT, OUTPUT_STATUS):
            self.read(offset)

    def scene_modes(self):
        for k in self.random.sample(range(8), self.random.choice((1, 3, 8))):
            self.mode[k] = self.random.randrange(4)
        self.write_global_control()
        self.ticks(self.random.choice((1, 3, 20)))
        self.look()

    def scene_registers(self):
        """Any offset with any value, kept off the refused settings."""
        for _ in range(self.random.choice((2, 5, 10))):
            offset = self.random.choice((4 * self.random.randrange(0x80), 4 * self.random.randrange(0x80), TEST, SCRATCHPAD))
            if self.chance(0.6):
                value = self.random.choice((0, 0xFFFFFFFF, self.random.getrandbits(32), self.random.getrandbits(16)))
                if 0x010 <= offset < 0x150:
                    k, register = divmod(offset - 0x010, 0x28)
                    if register == SSI_CONTROL:
                        value &= 0xFAFFFFFF
                        self.ssi[k] = value
                    if register == COUNTER_CONTROL and value >> 8 & 7 > 4:
                        value &= 0xFFFFFCFF
                    if register == DEBOUNCING:
                        value &= 0xFFFC000F
                if offset == GLOBAL_CONTROL:
                    self.mode = [value >> (2 * k) & 3 for k in range(8)]
                    self.snapshots, self.by_timer = value >> 16 & 0xFF, value >> 24 & 1
                self.write(offset, value)
            if self.chance(0.7):
                self.read(offset)
            if self.chance(0.3):
                self.ticks(self.random.randrange(1, 10))

    def scene_noise(self):
        for _ in range(self.random.choice((5, 10, 30))):
            self.flip_lines(self.random.getrandbits(24) & self.random.getrandbits(24))
            self.ticks(self.random.choice((1, 1, 2, 3, 3, 9)))
            if self.chance(0.3):
                self.look()

    def scene_index(self):
        """Index control modes: events, gates and latches with everything that releases a lock."""
        k = self.random.randrange(8)
        self.mode[k] = COUNTER
        self.write_global_control()
        self.write_debouncing(k)
        self.write_counter_values(k)
        word = self.random.choice((0, 1, 2, 3, 7, self.random.randrange(8))) | self.random.choice((4, 5, 6, 7)) << 3
        word |= self.random.randrange(4) << 6 | self.random.choice((1, 2, 2, 2, 3, 4)) << 8 | self.random.choice((0, 0, 4, 7)) << 11
        self.counter[k] = word
        self.write(self.at(k, COUNTER_CONTROL), word)
        self.write(self.at(k, COMMAND), self.random.choice((0, LCNT, RCNT)))
        for _ in range(self.random.choice((4, 8, 14))):
            self.flip_lines(self.random.choice((4, 4, 4, 5, 6)) << (3 * k))
            self.ticks(self.random.choice((3 * self.period[k], 3 * self.period[k] + 1, self.near(3 * self.period[k]))))
            self.read(self.at(k, COUNTER_STATUS))
            if self.chance(0.3):
                self.read(INTERRUPT_STATUS)
            if self.chance(0.4):
                self.release(k)
                self.read(self.at(k, COUNTER_STATUS))

    def scene_wrap(self):
        """The index rises in, just before or just after the tick in which a step of the internal clock wraps."""
        k = self.random.randrange(8)
        self.mode[k] = COUNTER
        self.write_global_control()
        self.period[k] = 1
        self.write(self.at(k, DEBOUNCING), 0)
        inverted = self.random.getrandbits(1)
        self.set_line(k, 2, inverted)
        self.ticks(3)
        up = self.random.getrandbits(1)
        self.preload[k] = ((-3 if up else 2) + self.random.choice((0, 0, -1, 1))) & 0xFFFFFFFF
        self.counter[k] = (1 if up else 2) | 7 << 3 | self.random.randrange(4) << 6 | self.random.randrange(5) << 8 | inverted << 13
        self.write(self.at(k, COUNTER_CONTROL), self.counter[k])
        self.write(self.at(k, PRELOAD), self.preload[k])
        self.write(self.at(k, COMPARE), self.random.choice((self.preload[k], 0, 0xFFFFFFFF, 1)))
        self.write(self.at(k, COMMAND), LCNT)
        self.set_line(k, 2, not inverted)
        for count in (2, 1, 1, 3):
            self.ticks(count)
            for offset in (self.at(k, COUNTER_STATUS), self.at(k, DATA), INTERRUPT_STATUS):
                if self.chance(0.5):
                    self.read(offset)

    def release(self, k):
        act = self.random.randrange(8)
        if act <= 1:
            self.read(self.at(k, DATA))
        elif act == 2:
            self.write(self.at(k, COUNTER_STATUS), self.random.choice((0x20, 0x40, 0x60, 0xDF)))
        elif act <= 4:
            self.write(self.at(k, COMMAND), self.random.randrange(4))
        elif act == 5:
            self.write(GLOBAL_COMMAND, TRIGGER | 1 << k)
            self.read(SNAPSHOT_DATA + 4 * k)
        elif act == 6:  # the same index control mode again, or Ignore in between
            if self.chance(0.5):
                self.write(self.at(k, COUNTER_CONTROL), self.counter[k] & ~0x700)
            self.write(self.at(k, COUNTER_CONTROL), self.counter[k])
        else:
            if self.chance(0.5):
                self.mode[k] = OFF
                self.write_global_control()
                self.read(self.at(k, DATA))
            self.mode[k] = COUNTER
            self.write_global_control()

    def scene_slow(self):
        """Time bases of 100,000 ticks, beyond the budget of the other scenes."""
        k = self.random.randrange(8)
        self.budget += 320_000
        if self.chance(0.5):
            self.write(self.at(k, DEBOUNCING), 0x30001)
            self.period[k] = 100_000
            self.write(INPUT_DEBOUNCING, self.random.choice((0, 0xFF, 1 << k)) << 24 | 0x30001)
        else:
            self.write(TIMER_PRELOAD, self.random.choice((1, 2)))
            self.write(TIMER_CONTROL, 5)
        self.flip_lines(7 << (3 * k))
        self.inputs ^= 1 << k
        for part in (99_999, 1, 99_999, 1, 99_999, 1):
            self.ticks(part)
            for offset in self.random.sample((TEST, INPUT, TIMER_DATA, INTERRUPT_STATUS, GLOBAL_STATUS), 3):
                self.read(offset)
        self.budget = max(0, self.budget - 20_000)
        self.write_debouncing(k)

    def scenes(self):
        if self.chance(0.6):
            self.write(INTERRUPT_ENABLE, self.random.choice((0x0010FFFF, 0x8010FFFF, self.random.getrandbits(32))))
        weights = {
            self.scene_counter: 6, self.scene_internal_clock: 3, self.scene_index: 4, self.scene_wrap: 2,
            self.scene_transmission: 8, self.scene_meeting: 2, self.scene_snapshot: 3, self.scene_collecting: 2,
            self.scene_timer: 3, self.scene_interrupts: 3, self.scene_inputs: 2, self.scene_outputs: 1,
            self.scene_modes: 1, self.scene_registers: 2, self.scene_noise: 2,
            self.scene_slow: 0.2, self.scene_slow_transmission: 0.2,
        }
        choice = self.random.choices(list(weights), weights=list(weights.values()), k=self.random.choice((2, 4, 8, 12)))
        for scene in choice:
            scene()


def fill(lines, size, writer):
    """Adds lines until the script has exactly `size` bytes, the last line ended."""
    used = sum(len(line) + 1 for line in lines)
    while size - used > 60:
        lines.append(b"W,1F8,%08X" % writer.random.getrandbits(32))
        used += 15
    rest = size - used
    for fifteens in range(rest // 15 + 1):
        for fourteens in range((rest - 15 * fifteens) // 14 + 1):
            sixes, over = divmod(rest - 15 * fifteens - 14 * fourteens, 6)
            if over == 0:
                lines += [b"W,1F8,00000001"] * fifteens + [b"T,1,000000,00"] * fourteens + [b"R,1F8"] * sixes
                return


def refused_write(writer):
    """A write that asks for what the card does not have."""
    k = writer.random.randrange(8)
    value = writer.random.getrandbits(32)
    if writer.chance(0.5):
        return b"W,%03X,%08X" % (writer.at(k, COUNTER_CONTROL), value & ~0x700 | writer.random.choice((5, 6, 7)) << 8)
    bits = writer.random.choice((0x01000000, 0x04000000, 0x06000000, 0x05000000, 0x07000000, 0x03000000))
    return b"W,%03X,%08X" % (writer.at(k, SSI_CONTROL), value & ~0x07000000 | bits)


def bad_offset(writer):
    offset = writer.random.choice((0x200, 0x204, 0x1FD, 0x001, 0x002, 0x019, 0x033, 0xFFF, 0xFFC, writer.random.randrange(0x1000) | 1))
    return b"R,%03X" % offset if writer.chance(0.5) else b"W,%03X,%08X" % (offset, writer.random.getrandbits(32))


def spoil(line, writer):
    """Changes, removes or adds one byte of a line."""
    spoiled = bytearray(line)
    place = writer.random.randrange(len(spoiled) + 1)
    byte = writer.random.choice(b",RTW0123456789ABCDEFGabcf \r\x00\xff")
    act = writer.random.randrange(3)
    if act == 0 and place < len(spoiled):
        spoiled[place] = byte
    elif act == 1 and place < len(spoiled):
        del spoiled[place]
    else:
        spoiled.insert(place, byte)
    return bytes(spoiled)


def damage(lines, writer, kind):
    if kind == "full":
        # The output fills up; then lines that need no room run on, until a read stops the script.
        reads = sum(line.startswith(b"R") for line in lines)
        lines += [b"R,%03X" % (4 * writer.random.randrange(0x80)) for _ in range(ANSWERS - reads + writer.random.choice((-1, 0, 0, 0, 1)))]
        lines += [b"W,1F8,00000001", b"T,3,000000,00"]
        lines.append(writer.random.choice((b"R,1F8", b"R,1F8", b"R,030", b"R,200", b"R,1f8", b"R,1F8,", b"W,201,00000000")))
        lines.append(b"R,1F8")
        return
    line = {
        "offset": lambda: bad_offset(writer),
        "unsupported": lambda: refused_write(writer),
        "line": lambda: writer.random.choice(WRONG_KIND_OR_COUNT),
        "field": lambda: writer.random.choice(BAD_FIELD),
        "spoiled": lambda: spoil(writer.random.choice(lines), writer),
        "bytes": lambda: writer.random.randbytes(writer.random.randrange(20)),
    }[kind]()
    place = writer.random.choice((len(lines), len(lines), writer.random.randrange(len(lines) + 1), len(lines) // 2))
    lines.insert(place, line)


def script(seed):
    """The script of a seed, as bytes."""
    writer = Writer(seed)
    writer.scenes()
    if writer.chance(0.9):
        writer.dump()
    lines = writer.lines
    while len(lines) > 1 and sum(len(line) + 1 for line in lines) > LIMIT - 200:
        lines.pop()
    kind = writer.random.choices(
        ("none", "offset", "unsupported", "line", "field", "spoiled", "bytes", "full", "exact", "long"),
        weights=(55, 7, 7, 6, 7, 6, 1, 6, 2, 3))[0]
    if not lines:
        lines.append(b"R,1FC")
    if kind in ("exact", "long"):
        fill(lines, LIMIT if kind == "exact" else LIMIT + writer.random.choice((1, 1, 6, 500)), writer)
        text = b"\n".join(lines) + b"\n"
        if kind == "exact" and writer.chance(0.5):
            text = text[:-1] + b"0"  # as long, but the last line has a digit too many
        return text
    if kind != "none":
        damage(lines, writer, kind)
    text = b"\n".join(lines) + (b"" if writer.chance(0.2) else b"\n")
    if writer.chance(0.005):
        text = writer.random.choice((b"", b"\n", text + b"\n"))
    return text


def room(seed, text):
    """Bytes of output for the script of a seed: plenty, just enough, or so few that a read finds no room."""
    chooser = random.Random("room %d" % seed)
    enough = 15 * sum(line.startswith(b"R") for line in text.split(b"\n"))
    return chooser.choice((LIMIT, enough, chooser.randrange(enough + 16), chooser.randrange(enough + 16)))


def damaged_scripts():
    """One script for each badly written line, between two good lines."""
    return [b"R,1FC\n" + line + b"\nR,1F8\n" for line in WRONG_KIND_OR_COUNT + BAD_FIELD]


def long_script():
    """The interval timer with its 1 s base: 100,000,000 ticks, a read just before and just after."""
    lines = [b"W,180,00100000", b"W,174,00000001", b"W,170,00000007"]
    lines += [b"T,100000,000000,00"] * 999
    lines += [b"T,99999,000000,00", b"R,178", b"R,188", b"W,174,00000003", b"T,1,000000,00", b"R,178", b"R,188"]
    return b"\n".join(lines) + b"\n"


def main():
    if len(sys.argv) != 2:
        sys.exit("usage: generate.py SEED | long")
    sys.stdout.buffer.write(long_script() if sys.argv[1] == "long" else script(int(sys.argv[1])))


if __name__ == "__main__":
    main()
