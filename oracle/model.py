#!/usr/bin/env python3
"""A reference model of the headroom station, written from docs/RULES.md and docs/PROTOCOL.md alone.

It speaks the line protocol: calls on the standard input, one answer line for each on the standard output. It is meant
to be obviously right and not to be clever, and it stands in the order of the rules. It shares no code with the program.

    python3 oracle/model.py < examples/day.calls
"""

import math
import os
import re
import sys

# ---------------------------------------------------------------------------------------------------------------------
# Kinds of unit
# ---------------------------------------------------------------------------------------------------------------------

GENERATOR, SEMI_SCHEDULED, LOAD, DEMAND_RESPONSE = range(4)

KIND_NAMES = {b"generator": 0, b"semi-scheduled": 1, b"load": 2, b"demand-response": 3}

# ---------------------------------------------------------------------------------------------------------------------
# Services
# ---------------------------------------------------------------------------------------------------------------------

SERVICES = range(10)

SERVICE_NAMES = {
    b"RAISE1SEC": 0, b"RAISE6SEC": 1, b"RAISE60SEC": 2, b"RAISE5MIN": 3, b"RAISEREG": 4,
    b"LOWER1SEC": 5, b"LOWER6SEC": 6, b"LOWER60SEC": 7, b"LOWER5MIN": 8, b"LOWERREG": 9,
}

# Raise regulation and lower regulation are the regulating services; the other eight are contingency services.
RAISEREG, LOWERREG = 4, 9
REGULATING = (RAISEREG, LOWERREG)


def upward_service(kind):
    """The regulating service that moves the unit's energy up: a load consumes more when it lowers the frequency."""
    return LOWERREG if kind == LOAD else RAISEREG


def downward_service(kind):
    """The regulating service that moves the unit's energy down."""
    return RAISEREG if kind == LOAD else LOWERREG


# ---------------------------------------------------------------------------------------------------------------------
# Bids
# ---------------------------------------------------------------------------------------------------------------------

MOST = 4_000_000  # the greatest kilowatt number of a bid, an energy maximum, an energy or an amount


class Bid:
    """Five numbers and ten bands, all in kW."""

    __slots__ = ("numbers", "enablement_min", "low", "high", "enablement_max", "availability", "bands")

    def __init__(self, numbers):
        self.numbers = numbers
        self.enablement_min, self.low, self.high, self.enablement_max, self.availability = numbers[:5]
        self.bands = numbers[5:]


# ---------------------------------------------------------------------------------------------------------------------
# Readings
# ---------------------------------------------------------------------------------------------------------------------

# The range in MW of each of the six floats: initial, AGC lower, AGC upper, ramp up, ramp down, forecast.
FLOAT_RANGES = ((-4000.0, 4000.0), (0.0, 4000.0), (0.0, 4000.0), (0.0, 800.0), (0.0, 800.0), (0.0, 4000.0))

STATUS_OFF = 2  # 0 is not told and counts as on, 1 is on


def kilowatts(megawatts):
    """A float in MW as whole kW: one multiplication, rounded once as doubles are, then the nearest whole number.

    A half goes away from zero. The size of the product without its whole part is again a double, so the comparison
    with a half is exact.
    """
    product = megawatts * 1000.0
    size = abs(product)
    whole = math.floor(size)
    if size - whole >= 0.5:
        whole += 1
    return -whole if product < 0.0 else whole


def reading_is_taken(floats, energy_max, status):
    """Whether each float that is present is a number within its range, and the two whole numbers are in theirs."""
    for value, (least, greatest) in zip(floats, FLOAT_RANGES):
        if value is None:
            continue
        if math.isnan(value) or math.isinf(value):
            return False
        if value < least or value > greatest:
            return False
    return energy_max <= MOST and status <= 2


class Reading:
    """A reading that was taken, in whole kW; None stands for an absent float."""

    __slots__ = ("initial", "agc_lower", "agc_upper", "ramp_up", "ramp_down", "forecast", "energy_max", "status")

    def __init__(self, floats, energy_max, status):
        whole = [None if value is None else kilowatts(value) for value in floats]
        self.initial, self.agc_lower, self.agc_upper, self.ramp_up, self.ramp_down, self.forecast = whole
        self.energy_max = energy_max
        self.status = status


# ---------------------------------------------------------------------------------------------------------------------
# Effective trapezium
# ---------------------------------------------------------------------------------------------------------------------


def told(number):
    """Whether an AGC limit or a ramp scales anything: one that is absent or zero does not."""
    return number is not None and number != 0


class Trapezium:
    """The effective trapezium of one service: its bid, scaled by the reading."""

    __slots__ = ("enablement_min", "low", "high", "enablement_max", "availability")

    def __init__(self, kind, service, bid, reading):
        # Enablement minimum: a regulating service cannot go below the AGC lower limit.
        enablement_min = bid.enablement_min
        if service in REGULATING and told(reading.agc_lower):
            enablement_min = max(enablement_min, reading.agc_lower)

        # Enablement maximum: a regulating service cannot go above the AGC upper limit; no service of a semi-scheduled
        # unit can go above the forecast, and a forecast of zero counts.
        enablement_max = bid.enablement_max
        if service in REGULATING and told(reading.agc_upper):
            enablement_max = min(enablement_max, reading.agc_upper)
        if kind == SEMI_SCHEDULED and reading.forecast is not None:
            enablement_max = min(enablement_max, reading.forecast)

        # Maximum availability: a regulating service gives no more than the ramp of its direction reaches in five minutes.
        availability = bid.availability
        if service == upward_service(kind) and told(reading.ramp_up):
            availability = min(availability, 5 * reading.ramp_up)
        if service == downward_service(kind) and told(reading.ramp_down):
            availability = min(availability, 5 * reading.ramp_down)

        # Breakpoints: the slopes of the bid, from the effective enablement limits, to the effective availability; the
        # high one is rounded down and the low one up. A flat bid has no slope.
        if bid.availability == 0:
            high = enablement_max
            low = enablement_min
        else:
            upper_width = bid.enablement_max - bid.high
            lower_width = bid.low - bid.enablement_min
            # floor of enablement_max - upper_width * availability / bid.availability
            high = (enablement_max * bid.availability - upper_width * availability) // bid.availability
            # ceiling of enablement_min + lower_width * availability / bid.availability
            low = -((-enablement_min * bid.availability - lower_width * availability) // bid.availability)

        self.enablement_min = enablement_min
        self.low = low
        self.high = high
        self.enablement_max = enablement_max
        self.availability = availability


# ---------------------------------------------------------------------------------------------------------------------
# Live services
# ---------------------------------------------------------------------------------------------------------------------


def ground_not_live(kind, service, bid, trapezium, reading):
    """The lowest ground on which the service is not live, or 0 where it is live."""
    # 11: there is no bid.
    if bid is None:
        return 11
    # 12: nothing is available.
    if trapezium.availability == 0:
        return 12
    # 13: no band is above zero.
    if not any(band > 0 for band in bid.bands):
        return 13
    # 14: the energy that can be had lies below the enablement minimum.
    available_energy = reading.energy_max
    if kind == SEMI_SCHEDULED:
        available_energy = min(available_energy, reading.forecast)
    if available_energy < trapezium.enablement_min:
        return 14
    # 15: the initial reading, raised to 0, lies outside the enablement limits.
    initial = max(reading.initial, 0)
    if initial < trapezium.enablement_min or initial > trapezium.enablement_max:
        return 15
    # 16: a regulating service while the AGC is off.
    if service in REGULATING and reading.status == STATUS_OFF:
        return 16
    return 0


# ---------------------------------------------------------------------------------------------------------------------
# Plant limits
# ---------------------------------------------------------------------------------------------------------------------


class Bare:
    """Allows every row."""

    def allows(self, unit, kind, energy, amounts):
        return True


class Cap:
    """The energy with the two services that hold it up longest is at most the cap of the unit; 0 for an unknown unit."""

    def __init__(self, caps):
        self.caps = caps

    def allows(self, unit, kind, energy, amounts):
        cap = self.caps[unit] if unit < 24 else 0
        if kind == LOAD:
            return energy + amounts[9] + amounts[8] <= cap
        return energy + amounts[4] + amounts[3] <= cap


class Share:
    """The five raise amounts are at most one number together, the five lower amounts at most another."""

    def __init__(self, raise_share, lower_share):
        self.raise_share = raise_share
        self.lower_share = lower_share

    def allows(self, unit, kind, energy, amounts):
        return sum(amounts[0:5]) <= self.raise_share and sum(amounts[5:10]) <= self.lower_share


class Both:
    """What two plant limits both allow."""

    def __init__(self, one, other):
        self.one = one
        self.other = other

    def allows(self, unit, kind, energy, amounts):
        return self.one.allows(unit, kind, energy, amounts) and self.other.allows(unit, kind, energy, amounts)


# ---------------------------------------------------------------------------------------------------------------------
# Rows, limits and figures
# ---------------------------------------------------------------------------------------------------------------------

PLANT = 10  # what is named as `by` where the plant limit breaks


class Interval:
    """An open interval of a unit: what its kind, bids and reading fix at its opening, and the row that is set in it."""

    def __init__(self, unit, kind, bids, reading, plant, serial):
        self.unit = unit
        self.kind = kind
        self.plant = plant
        self.serial = serial
        self.reading = reading
        self.energy = None
        self.amounts = [0] * 10

        self.upward = upward_service(kind)
        self.downward = downward_service(kind)

        self.trapezia = [None if bid is None else Trapezium(kind, service, bid, reading)
                         for service, bid in enumerate(bids)]
        self.grounds = [ground_not_live(kind, service, bids[service], self.trapezia[service], reading)
                        for service in SERVICES]

        # What the limits 1 to 5 need of each live service, in the order of the services.
        self.live_limits = []
        for service in SERVICES:
            if self.grounds[service] == 0:
                bid = bids[service]
                trapezium = self.trapezia[service]
                m = bid.availability
                self.live_limits.append((
                    service,
                    service in REGULATING,
                    trapezium.availability,         # V
                    m,                              # M
                    bid.enablement_max - bid.high,  # u
                    bid.low - bid.enablement_min,   # l
                    m * trapezium.enablement_max,   # M X
                    m * trapezium.enablement_min,   # M N
                ))

        # Joint ramping is in force where the service of that direction is live and the ramp is told and not zero. It is
        # reckoned from the initial reading as it is, below 0 too.
        self.ramp_top = None
        if self.grounds[self.upward] == 0 and told(reading.ramp_up):
            self.ramp_top = reading.initial + 5 * reading.ramp_up
        self.ramp_bottom = None
        if self.grounds[self.downward] == 0 and told(reading.ramp_down):
            self.ramp_bottom = reading.initial - 5 * reading.ramp_down

    def is_live(self, service):
        return self.grounds[service] == 0

    def first_broken(self, energy, amounts):
        """The first limit that the row breaks, as (ground, by), or None where the row is borne."""
        up = amounts[self.upward]
        down = amounts[self.downward]
        for service, regulating, v, m, u, l, mx, mn in self.live_limits:
            amount = amounts[service]
            # 1: no more than the maximum availability.
            if amount > v:
                return 1, service
            if regulating:
                # 2: the regulating service stays under its upper slope.
                if m * energy + u * amount > mx:
                    return 2, service
                # 3: and above its lower slope.
                if mn > m * energy - l * amount:
                    return 3, service
            else:
                # 4: the contingency service with the energy moved all the way up stays under its upper slope.
                if m * (energy + up) + u * amount > mx:
                    return 4, service
                # 5: and with the energy moved all the way down above its lower slope.
                if mn > m * (energy - down) - l * amount:
                    return 5, service
        # 6: the unit can ramp up to its energy and the upward service.
        if self.ramp_top is not None and energy + up > self.ramp_top:
            return 6, self.upward
        # 7: and down to its energy less the downward service.
        if self.ramp_bottom is not None and self.ramp_bottom > energy - down:
            return 7, self.downward
        # 8: the plant limit allows the row.
        if not self.plant.allows(self.unit, self.kind, energy, amounts):
            return 8, PLANT
        return None

    def figure(self, service, energy):
        """The figure of a live service at that energy beside the row's other amounts, as (figure, ground, by).

        None where not even 0 is borne. Lowering an amount never breaks a limit, so halving finds the greatest.
        """
        row = list(self.amounts)
        row[service] = 0
        if self.first_broken(energy, row) is not None:
            return None
        borne, beyond = 0, MOST + 1  # `borne` is borne; `beyond` is not, or is more than an amount can be
        while beyond - borne > 1:
            middle = (borne + beyond) // 2
            row[service] = middle
            if self.first_broken(energy, row) is None:
                borne = middle
            else:
                beyond = middle
        # The limit that one kilowatt more breaks first. There always is one, since no availability is above 4,000,000.
        row[service] = borne + 1
        ground, by = self.first_broken(energy, row)
        return borne, ground, by

    def record(self, service, energy):
        """Figure, ground and by of any service: one that is not live has 0, its ground and itself."""
        if self.grounds[service] != 0:
            return 0, self.grounds[service], service
        return self.figure(service, energy)


# ---------------------------------------------------------------------------------------------------------------------
# The station
# ---------------------------------------------------------------------------------------------------------------------

UNITS = 24
LAST_SERIAL = 2**64 - 1  # never given


class Refused(Exception):
    """A call that is refused, with the number of the check and, of 31, the limit that breaks."""

    def __init__(self, number, ground=None, by=None):
        super().__init__(number)
        self.number = number
        self.ground = ground
        self.by = by


class Unit:
    """An enrolled unit."""

    __slots__ = ("kind", "bids", "interval")

    def __init__(self, kind):
        self.kind = kind
        self.bids = [None] * 10
        self.interval = None


class Station:
    def __init__(self, number, first_serial, plant):
        self.number = number
        self.next_serial = first_serial
        self.plant = plant
        self.units = [None] * UNITS

    # The checks, each by its number.

    def check_1_unit(self, unit):
        if unit > 23:
            raise Refused(1)

    def check_2_kind(self, kind):
        if kind > 3:
            raise Refused(2)

    def check_3_service(self, service):
        if service > 9:
            raise Refused(3)

    def check_4_bid_range(self, numbers):
        if any(number > MOST for number in numbers):
            raise Refused(4)

    def check_5_bid_order(self, numbers):
        if not numbers[0] <= numbers[1] <= numbers[2] <= numbers[3]:
            raise Refused(5)

    def check_6_reading(self, floats, energy_max, status):
        if not reading_is_taken(floats, energy_max, status):
            raise Refused(6)

    def check_7_power(self, power):
        if power > MOST:
            raise Refused(7)

    def check_8_table(self, places):
        if places < 10:
            raise Refused(8)

    def check_21_not_enrolled_yet(self, unit):
        if self.units[unit] is not None:
            raise Refused(21)

    def check_22_enrolled(self, unit):
        if self.units[unit] is None:
            raise Refused(22)

    def check_23_no_interval(self, unit):
        if self.units[unit].interval is not None:
            raise Refused(23)

    def check_24_forecast(self, unit, floats):
        if self.units[unit].kind == SEMI_SCHEDULED and floats[5] is None:
            raise Refused(24)

    def check_25_serial_left(self):
        if self.next_serial == LAST_SERIAL:
            raise Refused(25)

    def check_26_bid(self, unit, service):
        if self.units[unit].bids[service] is None:
            raise Refused(26)

    def check_27_interval(self, unit):
        if self.units[unit].interval is None:
            raise Refused(27)

    def check_28_pass(self, the_pass):
        """The open interval of the pass."""
        number, unit, serial = the_pass
        if number != self.number or unit >= UNITS or self.units[unit] is None:
            raise Refused(28)
        interval = self.units[unit].interval
        if interval is None or interval.serial != serial:
            raise Refused(28)
        return interval

    def check_29_energy(self, interval):
        if interval.energy is None:
            raise Refused(29)

    def check_30_live(self, interval, service):
        if not interval.is_live(service):
            raise Refused(30)

    def check_31_borne(self, interval, energy, amounts):
        broken = interval.first_broken(energy, amounts)
        if broken is not None:
            raise Refused(31, broken[0], broken[1])

    # The calls, each with its checks in order.

    def enrol(self, unit, kind):
        self.check_1_unit(unit)
        self.check_2_kind(kind)
        self.check_21_not_enrolled_yet(unit)
        self.units[unit] = Unit(kind)

    def retire(self, unit):
        self.check_1_unit(unit)
        self.check_22_enrolled(unit)
        self.check_23_no_interval(unit)
        self.units[unit] = None

    def bid(self, unit, service, numbers):
        self.check_1_unit(unit)
        self.check_3_service(service)
        self.check_4_bid_range(numbers)
        self.check_5_bid_order(numbers)
        self.check_22_enrolled(unit)
        self.check_23_no_interval(unit)
        self.units[unit].bids[service] = Bid(numbers)

    def withdraw(self, unit, service):
        self.check_1_unit(unit)
        self.check_3_service(service)
        self.check_22_enrolled(unit)
        self.check_23_no_interval(unit)
        self.check_26_bid(unit, service)
        self.units[unit].bids[service] = None

    def open(self, unit, floats, energy_max, status):
        self.check_1_unit(unit)
        self.check_6_reading(floats, energy_max, status)
        self.check_22_enrolled(unit)
        self.check_23_no_interval(unit)
        self.check_24_forecast(unit, floats)
        self.check_25_serial_left()
        enrolled = self.units[unit]
        reading = Reading(floats, energy_max, status)
        serial = self.next_serial
        enrolled.interval = Interval(unit, enrolled.kind, enrolled.bids, reading, self.plant, serial)
        self.next_serial += 1
        return self.number, unit, serial

    def energy(self, the_pass, energy):
        self.check_7_power(energy)
        interval = self.check_28_pass(the_pass)
        self.check_31_borne(interval, energy, interval.amounts)
        interval.energy = energy

    def amount(self, the_pass, service, amount):
        self.check_3_service(service)
        self.check_7_power(amount)
        interval = self.check_28_pass(the_pass)
        self.check_29_energy(interval)
        self.check_30_live(interval, service)
        row = list(interval.amounts)
        row[service] = amount
        self.check_31_borne(interval, interval.energy, row)
        interval.amounts = row

    def figure(self, the_pass, service):
        self.check_3_service(service)
        interval = self.check_28_pass(the_pass)
        self.check_29_energy(interval)
        return interval.record(service, interval.energy)

    def probe(self, the_pass, service, energy):
        self.check_3_service(service)
        self.check_7_power(energy)
        interval = self.check_28_pass(the_pass)
        if not interval.is_live(service):
            return None
        return interval.record(service, energy)

    def trapezium(self, the_pass, service):
        self.check_3_service(service)
        interval = self.check_28_pass(the_pass)
        return interval.trapezia[service]

    def close(self, the_pass, places):
        self.check_8_table(places)
        interval = self.check_28_pass(the_pass)
        self.check_29_energy(interval)
        records = [interval.record(service, interval.energy) for service in SERVICES]
        self.units[interval.unit].interval = None
        return records

    def abandon(self, the_pass):
        interval = self.check_28_pass(the_pass)
        self.units[interval.unit].interval = None

    def lapse(self, unit):
        self.check_1_unit(unit)
        self.check_22_enrolled(unit)
        self.check_27_interval(unit)
        self.units[unit].interval = None


# ---------------------------------------------------------------------------------------------------------------------
# The line protocol: words
# ---------------------------------------------------------------------------------------------------------------------


class NoCall(Exception):
    """A line that is no call."""


DIGITS = re.compile(rb"[0-9]+")

# Decimal text of a float: a sign or none, and then digits with or without a point and an exponent, or one of three names
# in any letters.
FLOAT = re.compile(rb"[+-]?(?:(?:[0-9]+\.?[0-9]*|\.[0-9]+)(?:[eE][+-]?[0-9]+)?|inf|infinity|nan)", re.IGNORECASE)


def whole_number(word):
    """Decimal digits alone, below 2^64; zeros may stand in front."""
    if not DIGITS.fullmatch(word):
        raise NoCall("not a whole number")
    digits = word.lstrip(b"0")
    if len(digits) > 20:
        raise NoCall("a number too large for 64 bits")
    number = int(digits or b"0")
    if number >= 2**64:
        raise NoCall("a number too large for 64 bits")
    return number


def number_of_32_bits(word):
    number = whole_number(word)
    if number >= 2**32:
        raise NoCall("a number too large for 32 bits")
    return number


def kind_word(word):
    return KIND_NAMES[word] if word in KIND_NAMES else whole_number(word)


def service_word(word):
    return SERVICE_NAMES[word] if word in SERVICE_NAMES else whole_number(word)


def pass_word(word):
    """Three whole numbers with colons between."""
    parts = word.split(b":")
    if len(parts) != 3:
        raise NoCall("not a pass")
    return whole_number(parts[0]), whole_number(parts[1]), whole_number(parts[2])


def float_word(word):
    if not FLOAT.fullmatch(word):
        raise NoCall("not a float")
    return float(word)


def absent_or_float_word(word):
    return None if word == b"-" else float_word(word)


def plant_words(words):
    """The plant limit that the words tell, all of them."""
    if not words:
        raise NoCall("no plant")
    name, rest = words[0], words[1:]
    if name == b"bare" and len(rest) == 0:
        return Bare()
    if name == b"cap" and len(rest) == 24:
        return Cap([number_of_32_bits(word) for word in rest])
    if name == b"share" and len(rest) == 2:
        return Share(number_of_32_bits(rest[0]), number_of_32_bits(rest[1]))
    if name == b"both" and len(rest) == 28 and rest[0] == b"cap" and rest[25] == b"share":
        return Both(plant_words(rest[:25]), plant_words(rest[25:]))
    raise NoCall("not a plant")


# ---------------------------------------------------------------------------------------------------------------------
# The line protocol: calls and answers
# ---------------------------------------------------------------------------------------------------------------------

LONGEST = 65_536


def words_of(line):
    """The words of a line, without its line break. A comment goes from `#` to the end; blanks and tabs separate words."""
    text = line.split(b"#", 1)[0]
    if len(text) > LONGEST and len(re.sub(rb"[ \t]+", b" ", text)) > LONGEST:
        raise NoCall("a line too long")
    return [word for word in text.replace(b"\t", b" ").split(b" ") if word]


def pass_text(the_pass):
    return "%d:%d:%d" % the_pass


class Session:
    """One run of the program: no station at first, then one for good."""

    def __init__(self):
        self.station = None

    def answer(self, line):
        """The answer to one line, both without line break; None for a line with no word."""
        try:
            words = words_of(line)
            if not words:
                return None
            return self.call(words)
        except NoCall as reason:
            return "error %s" % reason

    def call(self, words):
        name = words[0]
        arguments = words[1:]
        if name == b"station":
            return self.call_station(arguments)
        if name not in CALLS:
            raise NoCall("an unknown call")
        least, most, call = CALLS[name]
        if not least <= len(arguments) <= most:
            raise NoCall("too few or too many words")
        return call(self, arguments)

    def call_station(self, arguments):
        if len(arguments) < 3:
            raise NoCall("too few words")
        number = number_of_32_bits(arguments[0])
        first_serial = whole_number(arguments[1])
        plant = plant_words(arguments[2:])
        if self.station is not None:
            raise NoCall("a second station")
        self.station = Station(number, first_serial, plant)
        return "ok"

    def run(self, call, *arguments):
        """Makes the call of the station, or says by which number it is refused: (result, None) or (None, refusal)."""
        if self.station is None:
            raise NoCall("no station yet")
        try:
            return call(self.station, *arguments), None
        except Refused as refusal:
            return None, refusal

    def plain(self, call, *arguments):
        """A call that has no more to say than that it was taken."""
        _, refusal = self.run(call, *arguments)
        if refusal is None:
            return "ok"
        if refusal.number == 31:
            return "declined 31 ground %d by %d" % (refusal.ground, refusal.by)
        return "declined %d" % refusal.number

    def call_enrol(self, words):
        return self.plain(Station.enrol, whole_number(words[0]), kind_word(words[1]))

    def call_retire(self, words):
        return self.plain(Station.retire, whole_number(words[0]))

    def call_bid(self, words):
        unit, service = whole_number(words[0]), service_word(words[1])
        numbers = [whole_number(word) for word in words[2:]]
        return self.plain(Station.bid, unit, service, numbers)

    def call_withdraw(self, words):
        return self.plain(Station.withdraw, whole_number(words[0]), service_word(words[1]))

    def call_open(self, words):
        unit = whole_number(words[0])
        # The initial reading may not be absent, the other five floats may.
        floats = [float_word(words[1])] + [absent_or_float_word(word) for word in words[2:7]]
        energy_max, status = whole_number(words[7]), whole_number(words[8])
        the_pass, refusal = self.run(Station.open, unit, floats, energy_max, status)
        if refusal is not None:
            return "declined %d" % refusal.number
        return "ok pass " + pass_text(the_pass)

    def call_energy(self, words):
        return self.plain(Station.energy, pass_word(words[0]), whole_number(words[1]))

    def call_amount(self, words):
        return self.plain(Station.amount, pass_word(words[0]), service_word(words[1]), whole_number(words[2]))

    def call_figure(self, words):
        record, refusal = self.run(Station.figure, pass_word(words[0]), service_word(words[1]))
        if refusal is not None:
            return "declined %d" % refusal.number
        return "ok figure %d ground %d by %d" % record

    def call_probe(self, words):
        the_pass, service, energy = pass_word(words[0]), service_word(words[1]), whole_number(words[2])
        record, refusal = self.run(Station.probe, the_pass, service, energy)
        if refusal is not None:
            return "declined %d" % refusal.number
        if record is None:
            return "ok none"
        return "ok figure %d ground %d by %d" % record

    def call_trapezium(self, words):
        trapezium, refusal = self.run(Station.trapezium, pass_word(words[0]), service_word(words[1]))
        if refusal is not None:
            return "declined %d" % refusal.number
        if trapezium is None:
            return "ok none"
        return "ok trapezium %d %d %d %d %d" % (trapezium.enablement_min, trapezium.low, trapezium.high,
                                                trapezium.enablement_max, trapezium.availability)

    def call_close(self, words):
        the_pass = pass_word(words[0])
        places = whole_number(words[1]) if len(words) == 2 else 10
        records, refusal = self.run(Station.close, the_pass, places)
        if refusal is not None:
            return "declined %d pass %s" % (refusal.number, pass_text(the_pass))
        return "ok figures " + " ".join("%d/%d/%d" % record for record in records)

    def call_abandon(self, words):
        return self.plain(Station.abandon, pass_word(words[0]))

    def call_lapse(self, words):
        return self.plain(Station.lapse, whole_number(words[0]))


# Each call with the least and the greatest number of words after its name.
CALLS = {
    b"enrol": (2, 2, Session.call_enrol),
    b"retire": (1, 1, Session.call_retire),
    b"bid": (17, 17, Session.call_bid),
    b"withdraw": (2, 2, Session.call_withdraw),
    b"open": (9, 9, Session.call_open),
    b"energy": (2, 2, Session.call_energy),
    b"amount": (3, 3, Session.call_amount),
    b"figure": (2, 2, Session.call_figure),
    b"probe": (3, 3, Session.call_probe),
    b"trapezium": (2, 2, Session.call_trapezium),
    b"close": (1, 2, Session.call_close),
    b"abandon": (1, 1, Session.call_abandon),
    b"lapse": (1, 1, Session.call_lapse),
}


def without_return(line):
    """A line that was ended by a line break, without the carriage return that may stand before the break."""
    return line[:-1] if line.endswith(b"\r") else line


def lines_of(data):
    """The lines of a whole input, without their line breaks. The last one counts without a line break too."""
    pieces = data.split(b"\n")
    lines = [without_return(piece) for piece in pieces[:-1]]
    if pieces[-1]:
        lines.append(pieces[-1])
    return lines


def main():
    session = Session()
    rest = b""

    def say(lines):
        answers = [session.answer(line) for line in lines]
        text = "".join(answer + "\n" for answer in answers if answer is not None)
        sys.stdout.write(text)
        sys.stdout.flush()

    # Whatever has been read is answered before more is waited for.
    while True:
        data = os.read(0, 1 << 16)
        if not data:
            break
        whole, line_break, after = (rest + data).rpartition(b"\n")
        if line_break:
            say(lines_of(whole + line_break))
        rest = after
    if rest:
        say(lines_of(rest))


if __name__ == "__main__":
    main()
