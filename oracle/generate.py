#!/usr/bin/env python3
"""Random call lists for the headroom station, the same for the same seed.

    python3 oracle/generate.py SEED CALLS > some.calls

The generator makes each of its calls on the model too, so that it knows what is enrolled and open and can aim at the
edges: energies and amounts exactly at a limit or a figure, one kilowatt more and one kilowatt less. Most of the calls are
good ones that get as far as the limits; some are out of range, stale, or no calls at all.
"""

import math
import os
import random
import sys

sys.path.insert(0, os.path.dirname(os.path.abspath(__file__)))

import model  # noqa: E402

MOST = 4_000_000
BIG = [2**32 - 1, 2**32, 2**32 + 1, 2**63, 2**64 - 2, 2**64 - 1]
TOO_BIG = [2**64, 2**64 + 1, 10**20, 10**40]

KIND_NAMES = [b"generator", b"semi-scheduled", b"load", b"demand-response"]
SERVICE_NAMES = [b"RAISE1SEC", b"RAISE6SEC", b"RAISE60SEC", b"RAISE5MIN", b"RAISEREG",
                 b"LOWER1SEC", b"LOWER6SEC", b"LOWER60SEC", b"LOWER5MIN", b"LOWERREG"]

# Words that are out of place nearly everywhere.
JUNK = [b"+5", b"-1", b"-0", b"5.0", b"0x10", b"1e3", b"x", b"-", b"--", b".", b"inf", b"nan", b"1_000", b"1,000",
        b"18446744073709551616", b"99999999999999999999999999", b"1:2", b"1:2:3:4", b":1:2", b"1::2", b"1:2:", b"::",
        b"1:0:-1", b"1:0:+1", b"1:0:x", b"1:0:18446744073709551616", b"\xff", b"0\xff", b"\xc3\x28", b"\xd9\xa3",
        b"0\x00", b"\x00", b"0\x0b", b"0\x0c", b"0\r", b"\xc2\xa0", b"raise6sec", b"RAISE", b"RAISEREG ", b"Generator",
        b"semi_scheduled", b"LOWERREG0", b"bare", b"cap", b"share", b"both", b"station", b"ok"]

FIRST_WORDS = [b"Enrol", b"ENERGY", b"opens", b"clos", b"figures", b"retire:", b"bids", b"survey", b"ok", b"help",
               b"\xff\xfe", b"energy\xff", b"\xef\xbb\xbfopen", b"amount\x00", b"probe\x0b", b"-", b"0"]


def number_word(number):
    return b"%d" % number


class Profile:
    """Where a unit runs: around which energy, how wide, and up to which energy its numbers go."""

    def __init__(self, rng, scale):
        self.scale = scale
        self.centre = rng.choice([0, scale, scale // 2, rng.randint(0, scale), rng.randint(0, scale),
                                  rng.randint(0, scale), rng.randint(0, scale)])
        # A roomy unit has wide bids for the regulating services and short ramps, so that it is the ramps that bind.
        self.roomy = rng.random() < 0.35
        if self.roomy:
            self.centre = rng.choice([0, scale // 4, scale // 2, scale // 2, 3 * scale // 4])


class Generator:
    def __init__(self, seed, calls):
        self.rng = random.Random(seed)
        self.calls = calls
        self.session = model.Session()
        self.lines = []     # bytes, with their line breaks
        self.answered = 0
        self.old_passes = []
        rng = self.rng
        self.scale = rng.choice([3, 8, 8, 20, 20, 60, 300, 5_000, 100_000, 700_000, MOST, MOST])
        self.profiles = []
        for _ in range(24):
            scale = self.scale if rng.random() < 0.8 else rng.choice([8, 60, 5_000, MOST])
            self.profiles.append(Profile(rng, scale))
        self.busy = rng.sample(range(24), rng.choice([1, 2, 3, 5, 8, 24]))
        if rng.random() < 0.5:
            self.busy[0] = rng.choice([0, 23])
        self.busy = sorted(set(self.busy))
        # How the lines of this run are written: plainly, or now and then oddly; with or without carriage returns.
        self.oddness = rng.choice([0.0, 0.02, 0.02, 0.1])
        self.returns = rng.choice([0.0, 0.0, 0.0, 0.02, 0.5, 1.0])
        self.damage_rate = rng.choice([0.0, 0.01, 0.03, 0.06])
        self.slip_rate = rng.choice([0.0, 0.01, 0.02, 0.05])
        self.current = None     # the unit that the calls stay with for a while

    # -----------------------------------------------------------------------------------------------------------------
    # Writing lines
    # -----------------------------------------------------------------------------------------------------------------

    def chance(self, probability):
        return self.rng.random() < probability

    def put(self, text, line_break=None):
        """Writes one line, and makes its call on the model."""
        if line_break is None:
            line_break = b"\r\n" if self.returns and self.chance(self.returns) else b"\n"
        self.lines.append(text + line_break)
        answer = None
        for line in model.lines_of(text + line_break):
            answer = self.session.answer(line)
            if answer is not None:
                self.answered += 1
        return answer

    def call(self, *words):
        """Writes a call, most often as it is, sometimes with odd blanks or damaged."""
        words = [word if isinstance(word, bytes) else number_word(word) for word in words]
        rng = self.rng
        if self.damage_rate and self.chance(self.damage_rate):
            words = self.damaged(words)
        if not (self.oddness and self.chance(self.oddness)):
            return self.put(b" ".join(words))
        # Zeros in front of a number.
        if self.chance(0.3):
            words = [b"0" * rng.choice([1, 2, 25]) + word if word.isdigit() and self.chance(0.3) else word
                     for word in words]
        text = b""
        if self.chance(0.2):
            text += rng.choice([b" ", b"\t", b"   ", b"\t \t"])
        for i, word in enumerate(words):
            if i:
                text += rng.choice([b" ", b" ", b"  ", b"\t", b"\t\t", b" \t ", b"          "])
            text += word
        if self.chance(0.2):
            text += rng.choice([b" ", b"\t", b"   ", b" \t"])
        if self.chance(0.3):
            text += rng.choice([b"#", b" # a word", b"#\xff\xfe\x80", b" # 1 2 3 # 4", b"# lapse 0", b"#" * 300, b"#\r"])
        return self.put(text)

    def damaged(self, words):
        """A line that is most often no call."""
        rng = self.rng
        words = list(words)
        at = rng.randrange(len(words))
        way = rng.randrange(9)
        if way == 0:
            del words[at]
        elif way == 1:
            words.insert(at, words[at])
        elif way == 2:
            words.append(rng.choice([b"0", b"10", b"x", b"\xff"]))
        elif way == 3:
            words[0] = rng.choice(FIRST_WORDS)
        elif way == 4:
            words[at] = rng.choice(JUNK)
        elif way == 5:
            words[at] = words[at] + rng.choice([b"x", b"\xff", b"\x00", b":", b".", b"-", b"\x0b", b"\r", b"#", b"#1"])
        elif way == 6:
            words[at] = rng.choice([b"+", b"-", b"0x", b"\xff", b"\xef\xbb\xbf", b"#", b"'"]) + words[at]
        elif way == 7:
            words = words[:rng.randrange(len(words))] or [b"close"]
        else:
            words[at] = number_word(rng.choice(TOO_BIG))
        return words

    def idle_line(self):
        """A line that gets no answer."""
        self.put(self.rng.choice([b"", b" ", b"\t", b" \t ", b"#", b"# lapse 0", b"  # \xff\xfe", b"#\r", b"\t#\x00"]))

    def long_line(self):
        """A line at the greatest length or one byte beyond it, without its comment and with blanks counted once."""
        rng = self.rng
        unit = rng.randrange(24)
        for length in (65_536, 65_537):
            tail = number_word(unit)
            text = b"lapse "
            text += b"0" * (length - len(text) - len(tail)) + tail
            if self.chance(0.3):
                text = text.replace(b" ", rng.choice([b"  ", b" " * 70_000, b"\t\t", b" \t" * 40_000]))
            if self.chance(0.3):
                text += b"#" + b"x" * rng.choice([0, 1, 70_000])
            self.put(text, b"\n")

    # -----------------------------------------------------------------------------------------------------------------
    # Words
    # -----------------------------------------------------------------------------------------------------------------

    def slip(self):
        """Whether this word is to be one that is out of its range or out of place."""
        return self.slip_rate and self.chance(self.slip_rate)

    def unit_word(self, unit):
        if self.slip():
            return self.rng.choice([23, 24, 25, 255, 256, 256 + unit, 2**32 + unit] + BIG)
        return unit

    def service_word(self, service):
        if self.slip():
            return self.rng.choice([9, 10, 11, 255, 256 + service, 2**32 + service] + BIG)
        if self.chance(0.15):
            return SERVICE_NAMES[service]
        return service

    def kind_word(self, kind):
        if self.slip() or self.chance(0.03):
            return self.rng.choice([3, 4, 4, 5, 255, 256 + kind, 2**32 + kind] + BIG)
        if self.chance(0.3):
            return KIND_NAMES[kind]
        return kind

    def power_word(self, power):
        """An energy or an amount: never below 0, and sometimes at the end of its range or beyond it."""
        if self.slip():
            return self.rng.choice([0, 1, MOST - 1, MOST, MOST + 1, 2**32 + max(power, 0)] + BIG)
        return max(power, 0)

    def pass_word(self, the_pass):
        if self.slip():
            return model.pass_text(self.wrong_pass(the_pass)).encode()
        if self.oddness and self.chance(0.01):
            return b"00%d:000%d:0%d" % the_pass
        return b"%d:%d:%d" % the_pass

    def wrong_pass(self, the_pass):
        """A pass of another station, unit or serial, or one of an interval that has ended."""
        rng = self.rng
        number, unit, serial = the_pass
        way = rng.randrange(10)
        if way == 0:
            number = rng.choice([number ^ 1, (number + 1) % 2**64, number + 2**32, 2**64 - 1, 0])
        elif way == 1:
            unit = rng.choice([unit ^ 1, 24, unit + 32, unit + 256, unit + 2**32, 2**64 - 1])
        elif way == 2:
            serial = rng.choice([max(serial - 1, 0), min(serial + 1, 2**64 - 1), serial ^ 2**32, 0, 2**64 - 1])
        elif way == 3:
            # the serial of one open interval with the unit of another
            open_units = self.open_units()
            if open_units:
                unit = rng.choice(open_units)
        elif self.old_passes:
            return rng.choice(self.old_passes)
        return number, unit, serial

    # -----------------------------------------------------------------------------------------------------------------
    # The station
    # -----------------------------------------------------------------------------------------------------------------

    def cap(self, profile):
        rng = self.rng
        centre, scale = profile.centre, profile.scale
        return rng.choice([
            centre, centre + rng.randint(0, scale), centre + rng.randint(0, scale), centre + rng.randint(0, 3),
            centre + scale // 4, centre + scale // 2, 3 * scale, rng.choice([0, MOST, 2**32 - 1, 12_000_000, centre // 2]),
        ])

    def share(self):
        rng = self.rng
        return rng.choice([rng.randint(0, self.scale), rng.randint(0, 5 * self.scale), self.scale, 2 * self.scale,
                           rng.choice([0, 1, MOST, 2**32 - 1, 20_000_000])])

    def plant(self):
        caps = [b"cap"] + [number_word(self.cap(profile)) for profile in self.profiles]
        shares = [b"share", number_word(self.share()), number_word(self.share())]
        return self.rng.choice([[b"bare"], caps, shares, [b"both"] + caps + shares, [b"both"] + caps + shares])

    def station(self):
        rng = self.rng
        number = rng.choice([0, 1, 7, rng.randrange(2**32), 2**32 - 1])
        # The last serials are rare, and come near the end of a run.
        opens = self.calls // 10
        serial = rng.choice([
            0, 1, 1, rng.randrange(2**64 - 2**20), 2**32 - rng.randint(0, 10), 2**63,
        ])
        if self.chance(0.5 if self.calls < 300 else 0.15):
            serial = 2**64 - 1 - (rng.randint(0, 4) if self.calls < 300 else rng.randint(opens // 2, opens))
        words = [b"station", number_word(number), number_word(serial)] + self.plant()
        # Before the station: calls that find none, and stations that are no calls.
        if self.chance(0.3):
            for _ in range(rng.randint(1, 4)):
                self.put(rng.choice([
                    b"lapse 0", b"enrol 0 0", b"close 0:0:0", b"", b"# nothing", b"station", b"station 1 1",
                    b"station 4294967296 1 bare", b"station 1 18446744073709551616 bare", b"station 1 1 bare 1",
                    b"station 1 1 share 1", b"station 1 1 share 4294967296 1", b"station 1 1 both share 1 1",
                    b"station 1 1 cap" + b" 1" * 23, b"station 1 1 cap" + b" 1" * 25,
                    b"station 1 1 cap" + b" 1" * 23 + b" 4294967296", b"station x 1 bare", b"station 1 -1 bare",
                    b"station 1 1 both cap" + b" 1" * 24 + b" share 1", b"station 1 1 Bare",
                    b"station 1 1 both share 1 1 cap" + b" 1" * 24, b"station 1 1 both cap" + b" 1" * 24 + b" cap 1 1",
                ]))
        self.put(b" ".join(words))
        if self.chance(0.2):
            self.put(rng.choice([b" ".join(words), b"station 1 1 bare", b"station 2 0 share 0 0"]))

    # -----------------------------------------------------------------------------------------------------------------
    # Units and bids
    # -----------------------------------------------------------------------------------------------------------------

    def enrol(self, unit):
        return self.call(b"enrol", self.unit_word(unit), self.kind_word(self.rng.randrange(4)))

    def bid_numbers(self, unit, service):
        """The fifteen numbers of a bid: most often a trapezium around the energy at which the unit runs."""
        rng = self.rng
        profile = self.profiles[unit]
        scale, centre = profile.scale, profile.centre

        enrolled = self.session.station.units[unit]
        others = [bid for bid in enrolled.bids if bid is not None] if enrolled is not None else []
        if others and self.chance(0.2 if profile.roomy else 0.35):
            # Like another bid of the unit, or nearly: then several limits break at the same kilowatt.
            numbers = list(rng.choice(others).numbers)
            if self.chance(0.5):
                at = rng.randrange(5)
                numbers[at] = max(0, numbers[at] + rng.choice([-1, 1]))
        else:
            way = rng.randrange(12)
            roomy = profile.roomy and self.chance(0.9 if service in model.REGULATING else 0.7)
            if roomy:
                numbers = [0, rng.choice([0, 0, centre // 4]), rng.choice([scale, scale, (scale + centre) // 2]), scale]
            elif way == 0:
                numbers = [centre] * 4                       # all four equal
            elif way == 1:
                numbers = [0, 0, scale, scale]               # a rectangle
            elif way == 2:
                numbers = sorted(rng.randint(0, scale) for _ in range(4))
            else:
                least = rng.choice([0, 0, rng.randint(0, centre), rng.randint(0, centre), centre // 2])
                greatest = rng.choice([scale, rng.randint(centre, scale), rng.randint(centre, scale)])
                low = rng.choice([least, rng.randint(least, centre), rng.randint(least, greatest), centre, greatest])
                high = rng.choice([greatest, rng.randint(centre, greatest), rng.randint(low, greatest), low])
                high = max(low, high)
                numbers = [least, low, high, greatest]
            upper, lower = numbers[3] - numbers[2], numbers[1] - numbers[0]
            availability = rng.choice([upper, lower, rng.randint(1, scale), rng.randint(1, scale),
                                       rng.randint(1, max(1, scale // 3)), rng.choice([1, 2, 3, 7, scale, MOST])])
            if roomy:
                availability = rng.choice([scale, scale, rng.randint(1, scale)])
            if availability == 0 and self.chance(0.7):
                availability = rng.randint(1, scale)         # flat bids only now and then
            numbers.append(availability)
            numbers += [0] * 10
            for _ in range(rng.choice([1, 1, 1, 2, 10])):
                numbers[5 + rng.randrange(10)] = rng.choice([1, availability, max(1, availability), MOST])
        if self.chance(0.02):
            numbers[4] = 0
        if self.chance(0.02):
            numbers[5:] = [0] * 10
        if self.slip():
            numbers[rng.randrange(15)] = rng.choice([MOST, MOST + 1, MOST + 1] + BIG)
        if self.slip():
            at = rng.randrange(3)
            numbers[at] = numbers[at + 1] + 1
        return numbers

    def bid(self, unit, service):
        return self.call(b"bid", self.unit_word(unit), self.service_word(service), *self.bid_numbers(unit, service))

    def several_bids(self, unit):
        services = self.rng.choice([
            list(range(10)), list(range(10)), [4, 9], [3, 4, 8, 9], [0, 4, 9], [5, 4, 9],
            self.rng.sample(range(10), self.rng.randint(1, 10)), self.rng.sample(range(10), self.rng.randint(3, 10)),
        ])
        for service in services:
            self.bid(unit, service)

    # -----------------------------------------------------------------------------------------------------------------
    # Readings
    # -----------------------------------------------------------------------------------------------------------------

    def float_text(self, power):
        """Decimal text in MW for about so many kW: exact, at a half kilowatt, or a float beside that."""
        rng = self.rng
        way = rng.randrange(20)
        if way < 8:
            return repr(power / 1000).encode()
        if way < 12:
            # half a kilowatt more or less, as decimal text
            half = 2 * power + rng.choice([-1, 1])
            sign = "-" if half < 0 else ""
            tenths = abs(half) * 5  # in tenths of a kilowatt
            return ("%s%d.%04d" % (sign, tenths // 10_000, tenths % 10_000)).encode()
        if way < 15:
            half = (power + rng.choice([-0.5, 0.5])) / 1000
            return repr(math.nextafter(half, rng.choice([-math.inf, math.inf]))).encode()
        if way == 15:
            return ("%.20f" % (power / 1000)).encode()
        if way == 16:
            return ("%e" % (power / 1000)).encode()
        if way == 17:
            return ("%de-3" % power).encode()
        if way == 18 and power >= 0:
            return rng.choice(["+%r" % (power / 1000), "000%r" % (power / 1000), "%d." % (power // 1000),
                               "%dE3" % (power // 1_000_000), ".%04d" % (power % 10_000)]).encode()
        return repr((power + rng.choice([-0.4999, -0.25, 0.25, 0.4999, 0.5])) / 1000).encode()

    def odd_float(self, greatest):
        """Text of a float at an end of the range or outside it, or of one that is no number."""
        rng = self.rng
        return rng.choice([
            b"-0.0", b"-0", b"0", b"0.0", b"0.0005", b"0.0004", b"-0.0004", b"-0.0005", b"0.00049999999999999999",
            b"-1e-400", b"-5e-324", b"5e-324", b"nan", b"-nan", b"NaN", b"inf", b"-inf", b"+Infinity", b"1e3", b"1e400",
            repr(greatest).encode(), repr(math.nextafter(greatest, math.inf)).encode(),
            repr(math.nextafter(greatest, 0.0)).encode(), b"%d.0000000000001" % greatest, b"-%d" % greatest,
            repr(-math.nextafter(greatest, math.inf)).encode(), b"%d.0005" % greatest, b"1e4", b"-1",
        ])

    def within(self, power, greatest):
        return min(max(power, 0), greatest)

    def open(self, unit):
        rng = self.rng
        profile = self.profiles[unit]
        scale, centre = profile.scale, profile.centre
        enrolled = self.session.station.units[unit]
        bids = [bid for bid in enrolled.bids if bid is not None] if enrolled is not None else []

        # The initial reading: near where the unit runs, at an end of a bid, zero or below.
        initial = rng.choice([centre, centre, centre, centre, centre + rng.choice([-1, 1]), rng.randint(0, scale)])
        if bids and self.chance(0.15):
            bid = rng.choice(bids)
            initial = rng.choice([bid.enablement_min, bid.enablement_max]) + rng.choice([-1, 0, 0, 1])
        if self.chance(0.04) or centre == 0 and self.chance(0.3):
            initial = rng.choice([0, -1, -2, -rng.randint(0, scale), -rng.randint(0, max(1, scale // 10))])
        initial = min(initial, MOST - 1)

        lower = upper = ramp_up = ramp_down = forecast = b"-"
        if self.chance(0.5):
            lower = self.float_text(self.within(rng.choice([
                rng.randint(0, centre), rng.randint(0, centre), centre, centre - 1, centre + 1]), MOST - 1))
        if self.chance(0.5):
            upper = self.float_text(self.within(rng.choice([
                rng.randint(centre, scale), rng.randint(centre, scale), centre, centre + 1, scale]), MOST - 1))
        ramps = [max(1, scale // 5), max(1, scale // 10), rng.randint(1, max(1, scale // 5)), rng.choice([1, 2, 3]),
                 rng.randint(1, max(1, scale // 3)), rng.randint(1, max(1, scale // 30)), 800_000 - 1]
        if profile.roomy:
            ramps = [max(1, scale // 10), max(1, scale // 20), rng.randint(1, max(1, scale // 10)), 1]
        if self.chance(0.75):
            ramp_up = self.float_text(self.within(rng.choice(ramps), 800_000 - 1))
        if self.chance(0.75):
            ramp_down = self.float_text(self.within(rng.choice(ramps), 800_000 - 1))
        semi = enrolled is not None and enrolled.kind == model.SEMI_SCHEDULED
        if self.chance(0.97 if semi else 0.2):
            forecast = self.float_text(self.within(rng.choice([
                rng.randint(centre, scale), rng.randint(centre, scale), scale, initial, initial + 1, initial - 1,
                rng.randint(0, scale)]), MOST - 1))

        energy_max = rng.choice([scale, scale, rng.randint(centre, scale), MOST, centre])
        if bids and self.chance(0.1):
            energy_max = max(0, rng.choice(bids).enablement_min + rng.choice([-1, 0, 1]))
        status = rng.choice([0, 1, 1, 1, 1, 1, 1, 1, 1, 2])

        words = [self.float_text(initial), lower, upper, ramp_up, ramp_down, forecast, energy_max, status]
        # A zero or another odd float, the ends of the ranges, numbers outside them.
        if self.chance(0.06):
            at = rng.randrange(6)
            words[at] = self.odd_float(800.0 if at in (3, 4) else 4000.0)
        if self.slip():
            words[6] = rng.choice([0, MOST, MOST + 1] + BIG)
        if self.slip():
            words[7] = rng.choice([0, 1, 2, 3, 4, 255, 256] + BIG)
        return self.call(b"open", self.unit_word(unit), *words)

    # -----------------------------------------------------------------------------------------------------------------
    # Calls on an open interval
    # -----------------------------------------------------------------------------------------------------------------

    def open_units(self):
        return [number for number, unit in enumerate(self.session.station.units)
                if unit is not None and unit.interval is not None]

    def interval(self, unit):
        enrolled = self.session.station.units[unit]
        return None if enrolled is None else enrolled.interval

    def pass_of(self, unit):
        return self.session.station.number, unit, self.interval(unit).serial

    def energy_edges(self, interval):
        """The greatest energies that the limits leave, and the least: those of each limit, at the amounts of the row."""
        amounts = interval.amounts
        up, down = amounts[interval.upward], amounts[interval.downward]
        tops, bottoms = [], []
        for service, regulating, _, m, u, l, mx, mn in interval.live_limits:
            top = (mx - u * amounts[service]) // m
            bottom = -(-(mn + l * amounts[service]) // m)
            tops.append(top if regulating else top - up)
            bottoms.append(bottom if regulating else bottom + down)
        if interval.ramp_top is not None:
            tops.append(interval.ramp_top - up)
        if interval.ramp_bottom is not None:
            bottoms.append(interval.ramp_bottom + down)
        plants = [interval.plant]
        if isinstance(interval.plant, model.Both):
            plants = [interval.plant.one, interval.plant.other]
        for plant in plants:
            if isinstance(plant, model.Cap):
                pair = amounts[9] + amounts[8] if interval.kind == model.LOAD else amounts[4] + amounts[3]
                tops.append(plant.caps[interval.unit] - pair)
        return tops, bottoms

    def some_energy(self, interval, good):
        """An energy: with `good` most likely one that is borne, else one at or beside a limit."""
        rng = self.rng
        tops, bottoms = self.energy_edges(interval)
        top, bottom = min(tops + [MOST]), max(bottoms + [0])
        if good and top >= bottom:
            return rng.choice([rng.randint(bottom, top), rng.randint(bottom, top), (top + bottom) // 2,
                               bottom + min(2, top - bottom), top, bottom])
        way = rng.randrange(6)
        if way == 0 and top >= 0:
            return rng.randint(min(bottom, top), max(bottom, top))
        if way == 1:
            return top + rng.choice([-1, 0, 1])
        if way == 2:
            return bottom + rng.choice([-1, 0, 1])
        if way == 3 and interval.energy is not None:
            return interval.energy + rng.choice([-1, 0, 1])
        return min(rng.choice(tops + bottoms + [0]) + rng.choice([-1, 0, 1]), MOST)

    def some_service(self, interval, live):
        """A service, most often a live one where `live` is asked for."""
        rng = self.rng
        lives = [limits[0] for limits in interval.live_limits]
        if live and lives and self.chance(0.95):
            if self.chance(0.3):
                regulating = [service for service in lives if service in model.REGULATING]
                if regulating:
                    return rng.choice(regulating)
            return rng.choice(lives)
        return rng.randrange(10)

    def energy(self, unit, good=False):
        interval = self.interval(unit)
        energy = self.some_energy(interval, good)
        return self.call(b"energy", self.pass_word(self.pass_of(unit)), self.power_word(energy))

    def amount(self, unit):
        rng = self.rng
        interval = self.interval(unit)
        service = self.some_service(interval, True)
        figure, availability = 0, 0
        if interval.energy is not None and interval.is_live(service):
            figure = interval.figure(service, interval.energy)[0]
            availability = interval.trapezia[service].availability
        amount = rng.choice([
            figure, figure, figure + 1, figure + 1, figure - 1, rng.randint(0, figure), rng.randint(0, figure), figure // 2,
            figure // 3, figure // 3, 0, interval.amounts[service] + rng.choice([-1, 0, 1]),
            rng.choice([availability, availability + 1, MOST, figure + 2, rng.randint(0, MOST)]),
        ])
        return self.call(b"amount", self.pass_word(self.pass_of(unit)), self.service_word(service), self.power_word(amount))

    def figure(self, unit):
        service = self.some_service(self.interval(unit), self.chance(0.9))
        return self.call(b"figure", self.pass_word(self.pass_of(unit)), self.service_word(service))

    def probe(self, unit):
        interval = self.interval(unit)
        service = self.some_service(interval, self.chance(0.95))
        energy = self.some_energy(interval, self.chance(0.4))
        return self.call(b"probe", self.pass_word(self.pass_of(unit)), self.service_word(service), self.power_word(energy))

    def trapezium(self, unit):
        service = self.some_service(self.interval(unit), self.chance(0.5))
        return self.call(b"trapezium", self.pass_word(self.pass_of(unit)), self.service_word(service))

    def spend(self, unit, *words):
        """A call that may end the interval; its pass is kept among the old ones."""
        self.old_passes.append(self.pass_of(unit))
        del self.old_passes[:-20]
        return self.call(*words)

    def close(self, unit):
        words = [b"close", self.pass_word(self.pass_of(unit))]
        if self.slip():
            words.append(self.rng.choice([0, 1, 8, 9, 9, 10, 11, 20] + BIG))
        elif self.chance(0.1):
            words.append(self.rng.choice([9, 10, 11]))
        return self.spend(unit, *words)

    def abandon(self, unit):
        return self.spend(unit, b"abandon", self.pass_word(self.pass_of(unit)))

    def lapse(self, unit):
        if self.interval(unit) is None:
            return self.call(b"lapse", self.unit_word(unit))
        return self.spend(unit, b"lapse", self.unit_word(unit))

    # -----------------------------------------------------------------------------------------------------------------
    # A run
    # -----------------------------------------------------------------------------------------------------------------

    def step_out_of_place(self, unit):
        """A call that the state of the unit does not suit, whatever that is."""
        rng = self.rng
        way = rng.randrange(9)
        if way == 0:
            self.enrol(unit)
        elif way == 1:
            # strike out another unit than the busy ones too
            self.call(b"retire", self.unit_word(rng.randrange(24)))
        elif way == 2:
            self.bid(unit, rng.randrange(10))
        elif way == 3:
            self.call(b"withdraw", self.unit_word(unit), self.service_word(rng.randrange(10)))
        elif way == 4:
            self.open(unit)
        elif way == 5:
            self.call(b"lapse", self.unit_word(rng.randrange(24)))
        elif way == 6:
            self.open(rng.randrange(24))
        else:
            the_pass = self.wrong_pass((self.session.station.number, unit, self.session.station.next_serial))
            word = model.pass_text(the_pass).encode()
            service, power = rng.choice([0, 4, 9, 9, 10]), rng.choice([0, MOST, MOST + 1])
            self.call(*rng.choice([
                (b"energy", word, power), (b"amount", word, service, power), (b"figure", word, service),
                (b"probe", word, service, power), (b"trapezium", word, service), (b"close", word),
                (b"close", word, rng.choice([0, 9, 10])), (b"abandon", word),
            ]))

    def step_several_faults(self, unit):
        """A call with a good or a bad word at each place, by the toss of a coin: the first check that fails is named."""
        rng = self.rng

        def good_or(good, *bad):
            return good if self.chance(0.5) else rng.choice(bad)

        unit = rng.choice([unit, unit, rng.randrange(24)])
        interval = self.interval(unit)
        serial = self.session.station.next_serial if interval is None else interval.serial
        the_pass = self.session.station.number, unit, serial
        unit_word = good_or(unit, 24, 2**32 + unit)
        service = good_or(rng.randrange(10), 10, 256)
        power = good_or(0, MOST + 1, 2**32)
        pass_word = model.pass_text(good_or(the_pass, self.wrong_pass(the_pass))).encode()
        name = rng.choice([b"enrol", b"retire", b"bid", b"bid", b"withdraw", b"open", b"open", b"energy", b"amount", b"figure",
                           b"probe", b"trapezium", b"close", b"lapse"])
        if name == b"enrol":
            self.call(name, unit_word, good_or(rng.randrange(4), 4))
        elif name in (b"retire", b"lapse"):
            self.call(name, unit_word)
        elif name == b"bid":
            numbers = [0, 1, 2, 3, 4, 5, 0, 0, 0, 0, 0, 0, 0, 0, 0]
            if self.chance(0.5):
                at = rng.randrange(3)
                numbers[at], numbers[at + 1] = numbers[at + 1], numbers[at]
            if self.chance(0.5):
                numbers[rng.randrange(15)] = MOST + 1
            self.call(name, unit_word, service, *numbers)
        elif name == b"withdraw":
            self.call(name, unit_word, service)
        elif name == b"open":
            floats = [b"0", b"-", b"-", b"-", b"-", good_or(b"0", b"-")]
            if self.chance(0.3):
                floats[rng.randrange(6)] = rng.choice([b"nan", b"4000.1", b"-4000.1", b"inf"])
            energy_max, status = good_or(0, MOST + 1), good_or(0, 3)
            if self.chance(0.5):
                energy_max, status = 0, 0
            self.call(name, unit_word, *floats, energy_max, status)
        elif name == b"energy":
            self.call(name, pass_word, power)
        elif name in (b"amount", b"probe"):
            self.call(name, pass_word, service, power)
        elif name in (b"figure", b"trapezium"):
            self.call(name, pass_word, service)
        else:
            self.call(name, pass_word, good_or(10, 9, 0))

    def step_closed(self, unit):
        """A step of a unit without an interval: bids, and then an opening."""
        rng = self.rng
        enrolled = self.session.station.units[unit]
        if enrolled is None:
            self.enrol(unit)
            return
        bids = sum(bid is not None for bid in enrolled.bids)
        if bids == 0 and self.chance(0.9):
            self.several_bids(unit)
            return
        way = rng.random()
        if way < 0.10:
            self.bid(unit, rng.randrange(10))
        elif way < 0.13:
            self.several_bids(unit)
        elif way < 0.15:
            self.call(b"withdraw", self.unit_word(unit), self.service_word(rng.randrange(10)))
        elif way < 0.17:
            self.call(b"retire", self.unit_word(unit))
        elif way < 0.175:
            self.lapse(unit)
        else:
            self.open(unit)

    def step_open(self, unit):
        """A step of a unit with an interval."""
        way = self.rng.random()
        interval = self.interval(unit)
        if not interval.live_limits and self.chance(0.3):
            # Nothing is live: not much is to be learnt from this interval.
            self.abandon(unit)
        elif interval.energy is None:
            if way < 0.75:
                self.energy(unit, good=self.chance(0.85))
            elif way < 0.83:
                self.probe(unit)
            elif way < 0.87:
                self.trapezium(unit)
            elif way < 0.89:
                self.amount(unit)
            elif way < 0.91:
                self.figure(unit)
            elif way < 0.93:
                self.close(unit)
            elif way < 0.98:
                self.abandon(unit)
            else:
                self.lapse(unit)
        elif way < 0.42:
            self.amount(unit)
        elif way < 0.58:
            self.energy(unit, good=self.chance(0.3))
        elif way < 0.70:
            self.figure(unit)
        elif way < 0.86:
            self.probe(unit)
        elif way < 0.91:
            self.trapezium(unit)
        elif way < 0.985:
            self.close(unit)
        elif way < 0.994:
            self.abandon(unit)
        else:
            self.lapse(unit)

    def step(self):
        rng = self.rng
        # Stay with one unit for a while.
        if self.current is None or self.chance(0.1):
            self.current = rng.choice(self.busy)
        unit = self.current
        way = rng.random()
        if way < 0.015:
            self.step_out_of_place(unit)
        elif way < 0.03:
            self.step_several_faults(unit)
        elif way < 0.035:
            self.idle_line()
        elif way < 0.03504:
            self.long_line()
        elif self.interval(unit) is None:
            self.step_closed(unit)
        else:
            self.step_open(unit)

    def run(self):
        """All the lines of a run, with at least so many calls as were asked for."""
        self.station()
        while self.answered < self.calls:
            self.step()
        # The last line counts without its line break too.
        if self.chance(0.3):
            self.put(self.rng.choice([b"lapse 0", b"lapse 23", b"#", b"close 0:0:0", b" "]), b"")
        return b"".join(self.lines)


def generate(seed, calls):
    return Generator(seed, calls).run()


def main():
    if len(sys.argv) != 3:
        sys.exit("usage: generate.py SEED CALLS")
    sys.stdout.buffer.write(generate(int(sys.argv[1]), int(sys.argv[2])))


if __name__ == "__main__":
    main()
