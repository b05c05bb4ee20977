#!/usr/bin/env python3
"""Makes a realistic RINEX 3.05 observation file and writes it to standard output or a named file.

Satellites move on circular orbits over a receiver on the turning Earth: so they rise and set, ranges and
phases are smooth, Doppler shifts fit them, and signal strengths follow the elevation.  Signals are lost
near the horizon and now and then above it, phases slip, and whole epochs are missing now and then.

The file is standard: each line ends with LF alone, no line of an epoch has blanks at its end, and each
number is written in the one way in which it is printed (right justified, at least one digit before the
point, no other leading zero, no sign at zero).

Examples:
    generate.py --megabytes 100 -o big.rnx
    generate.py --epochs 120 --systems GREC --interval 1 --clock > small.rnx
"""
import argparse
import datetime
import math
import random
import sys

LIGHT = 299792458.0
EARTH_RADIUS = 6371000.0
EARTH_TURN = 7.2921151467e-5
TICKS = 10**7                      # of a second: the epoch line has seven decimals
MISSING = " " * 16
TYPES_IN_A_LINE = 13

# Bands in MHz, the attributes of their signals, and whether codes carry the strength indicator.
SYSTEMS = {
    "G": dict(orbits=[(31, 26560e3, 55.0, 6)],
              bands=[("1C", 1575.42), ("2W", 1227.60), ("2X", 1227.60), ("5X", 1176.45)]),
    "R": dict(orbits=[(24, 25508e3, 64.8, 3)],
              bands=[("1C", 1602.0), ("1P", 1602.0), ("2C", 1246.0), ("2P", 1246.0)]),
    "E": dict(orbits=[(30, 29600e3, 56.0, 3)],
              bands=[("1X", 1575.42), ("5X", 1176.45), ("7X", 1207.14), ("8X", 1191.795)]),
    "C": dict(orbits=[(5, 42164e3, 1.0, 5), (5, 42164e3, 55.0, 5), (30, 27906e3, 55.0, 3)],
              bands=[("2I", 1561.098), ("7I", 1207.14), ("6I", 1268.52), ("1X", 1575.42), ("5X", 1176.45)]),
    "J": dict(orbits=[(4, 42164e3, 43.0, 4)],
              bands=[("1C", 1575.42), ("2X", 1227.60), ("5X", 1176.45)]),
    "S": dict(orbits=[(6, 42164e3, 0.0, 6)],
              bands=[("1C", 1575.42), ("5I", 1176.45)]),
    "I": dict(orbits=[(7, 42164e3, 27.0, 7)],
              bands=[("5A", 1176.45)]),
}
SLOT_CHANNELS = [1, -4, 5, 6, 1, -4, 5, 6, -2, -7, 0, -1, -2, -7, 0, -1, 4, -3, 3, 2, 4, -3, 3, 2]
FIRST_NUMBER = {"S": 20}
SATELLITE_LIMIT = 100
KINDS = "CLDS"                     # code, phase, Doppler, strength
RECEIVER = (math.radians(47.0), math.radians(8.0))  # latitude and longitude
HORIZON = math.sin(math.radians(5.0))
START = datetime.datetime(2024, 1, 1)  # the first epoch, GPS time


class Signal:
    """One tracked signal of one satellite: its wavelength, its phase's whole cycles, and where it is lost."""

    def __init__(self, wavelength, ionosphere, loss, rng):
        self.wavelength = wavelength
        self.ionosphere = ionosphere
        self.loss = loss
        self.bias = rng.uniform(-2.0, 2.0)
        self.cycles = rng.randrange(-20000, 20000)
        self.lost_for = 0


class Satellite:
    """A satellite on a circular orbit."""

    def __init__(self, name, radius, inclination, node, phase, signals):
        self.name = name
        self.radius = radius
        self.motion = math.sqrt(3.986004418e14 / radius**3)
        self.inclination = math.radians(inclination)
        self.node = node
        self.phase = phase
        self.signals = signals
        self.lost_for = 0

    def range_to(self, seconds):
        """The distance in metres, and the sine of the elevation."""
        latitude, longitude = RECEIVER
        angle = self.phase + self.motion * seconds
        turn = longitude + EARTH_TURN * seconds - self.node
        along, across = math.cos(angle), math.sin(angle)
        east = across * math.cos(self.inclination)
        north = across * math.sin(self.inclination)
        cosine = (math.cos(latitude) * (along * math.cos(turn) + east * math.sin(turn))
                  + math.sin(latitude) * north)
        distance = math.sqrt(EARTH_RADIUS**2 + self.radius**2 - 2 * EARTH_RADIUS * self.radius * cosine)
        return distance, (self.radius * cosine - EARTH_RADIUS) / distance


def frequency(letter, index, band, megahertz):
    """The carrier in Hz; a GLONASS satellite has a channel of its own."""
    if letter != "R":
        return megahertz * 1e6
    step = 0.5625e6 if band[0] == "1" else 0.4375e6
    return megahertz * 1e6 + step * SLOT_CHANNELS[index % len(SLOT_CHANNELS)]


def constellation(letter, bands, count, rng):
    """The satellites of one system, at most `count` where it is given."""
    satellites = []
    for members, radius, inclination, planes in SYSTEMS[letter]["orbits"]:
        for k in range(members):
            index = len(satellites)
            node = 2 * math.pi * (k % planes) / planes + rng.uniform(-0.05, 0.05)
            phase = 2 * math.pi * k / members * 2.7 + rng.uniform(-0.1, 0.1)
            signals = []
            for number, (band, megahertz) in enumerate(bands):
                hertz = frequency(letter, index, band, megahertz)
                lacks = number > 1 and rng.random() < 0.25
                loss = 2.0 if lacks else 0.1 + 0.05 * number + rng.uniform(0.0, 0.06)
                signals.append(Signal(LIGHT / hertz, (1575.42e6 / hertz)**2, loss, rng))
            name = "%s%02d" % (letter, index + FIRST_NUMBER.get(letter, 1))
            satellites.append(Satellite(name, radius, inclination, node, phase, signals))
    if count is not None:
        satellites = sorted(rng.sample(satellites, min(count, len(satellites))), key=lambda s: s.name)
    return satellites


class ReceiverClock:
    """A clock that drifts and wanders, and steps back by a millisecond where it is half of one off."""

    def __init__(self, rng):
        self.rng = rng
        self.offset = rng.uniform(-2e-4, 2e-4)
        self.drift = rng.uniform(-3e-8, 3e-8)

    def move(self, seconds):
        self.drift += self.rng.uniform(-1e-12, 1e-12) * math.sqrt(seconds)
        self.offset += self.drift * seconds
        if self.offset > 5e-4:
            self.offset -= 1e-3
        elif self.offset < -5e-4:
            self.offset += 1e-3


def cells_of(signal, distance, rate, sine, clock_metres, rng):
    """The cells of one signal, 16 columns for each kind of observation."""
    strength = 29.0 + 22.0 * sine - 4.0 * signal.loss + rng.uniform(-0.6, 0.6)
    if signal.lost_for > 0:
        signal.lost_for -= 1
        if signal.lost_for == 0:
            signal.cycles += rng.randrange(-5000, 5000)
        return MISSING * len(KINDS)
    if sine < signal.loss:
        return MISSING * len(KINDS)
    chance = rng.random()
    if chance < 0.0015:
        signal.lost_for = rng.randrange(1, 12)
        return MISSING * len(KINDS)
    slip = " "
    if chance > 0.9985:
        signal.cycles += rng.randrange(-200, 200)
        slip = "1"
    slant = 1.0 / (sine + 0.08)
    metres = distance + clock_metres + 2.3 * slant
    delay = 3.0 * signal.ionosphere * slant
    level = min(9, max(1, int(strength / 6.0)))
    text = []
    for kind in KINDS:
        if kind == "C":
            text.append("%14.3f %d" % (metres + delay + signal.bias + rng.uniform(-0.4, 0.4), level))
        elif kind == "L":
            if 0.002 < chance < 0.004:
                text.append(MISSING)
            else:
                phase = (metres - delay) / signal.wavelength + signal.cycles + rng.uniform(-0.008, 0.008)
                text.append("%14.3f%s%d" % (phase, slip, level))
        elif kind == "D":
            shift = round(-rate / signal.wavelength + rng.uniform(-0.05, 0.05), 3) + 0.0
            text.append("%14.3f  " % shift)
        else:
            text.append("%14.3f  " % (round(strength * 20.0) / 20.0))
    return "".join(text)


def satellite_line(satellite, distance, rate, sine, clock_metres, rng):
    """The line of one satellite, None where nothing of it was received."""
    if satellite.lost_for > 0:
        satellite.lost_for -= 1
        return None
    if rng.random() < 0.0008:
        satellite.lost_for = rng.randrange(1, 25)
    text = "".join([cells_of(signal, distance, rate, sine, clock_metres, rng)
                    for signal in satellite.signals])
    text = text.rstrip(" ")
    return satellite.name + text if text else None


def header_line(content, label):
    return content.ljust(60) + label + "\n"


def header(letters, types, interval):
    """The header of the file."""
    kind = "M" if len(letters) > 1 else letters
    yield header_line("%9s%11s%-20s%-20s" % ("3.05", "", "OBSERVATION DATA", kind), "RINEX VERSION / TYPE")
    yield header_line("%-20s%-20s%-20s" % ("generate.py", "rnxcmp", "20240101 000000 UTC"), "PGM / RUN BY / DATE")
    yield header_line("Made by a model of orbits and signals, not received.", "COMMENT")
    yield header_line("MODL00XXX", "MARKER NAME")
    yield header_line("GEODETIC", "MARKER TYPE")
    yield header_line("%-20s%-40s" % ("rnxcmp", "rnxcmp"), "OBSERVER / AGENCY")
    yield header_line("%-20s%-20s%-20s" % ("1", "MODEL RECEIVER", "1.0"), "REC # / TYPE / VERS")
    yield header_line("%-20s%-20s" % ("1", "MODEL ANTENNA   NONE"), "ANT # / TYPE")
    latitude, longitude = RECEIVER
    place = (math.cos(latitude) * math.cos(longitude), math.cos(latitude) * math.sin(longitude), math.sin(latitude))
    yield header_line("%14.4f%14.4f%14.4f" % tuple(EARTH_RADIUS * x for x in place), "APPROX POSITION XYZ")
    yield header_line("%14.4f%14.4f%14.4f" % (0.0, 0.0, 0.0), "ANTENNA: DELTA H/E/N")
    for letter in letters:
        names = types[letter]
        for first in range(0, len(names), TYPES_IN_A_LINE):
            begin = "%s  %3d" % (letter, len(names)) if first == 0 else " " * 6
            codes = "".join(" " + name for name in names[first:first + TYPES_IN_A_LINE])
            yield header_line(begin + codes, "SYS / # / OBS TYPES")
    yield header_line("DBHZ", "SIGNAL STRENGTH UNIT")
    yield header_line("%10.3f" % (interval / TICKS), "INTERVAL")
    yield header_line("%6d%6d%6d%6d%6d%13.7f     GPS" % (START.year, START.month, START.day, START.hour,
                                                       START.minute, START.second), "TIME OF FIRST OBS")
    for letter in letters:
        for name in types[letter]:
            if name[0] == "L":
                yield header_line("%s %s %8.5f" % (letter, name, 0.0), "SYS / PHASE SHIFT")
    if "R" in letters:
        slots = ["R%02d %2d " % (k + 1, channel) for k, channel in enumerate(SLOT_CHANNELS)]
        for first in range(0, len(slots), 8):
            begin = "%3d " % len(slots) if first == 0 else " " * 4
            yield header_line(begin + "".join(slots[first:first + 8]), "GLONASS SLOT / FRQ #")
        yield header_line("", "GLONASS COD/PHS/BIS")
    yield header_line("%6d" % 18, "LEAP SECONDS")
    yield header_line("", "END OF HEADER")


def epoch_line(ticks, count, clock):
    """The epoch line: 41 columns without the blanks at their end, or 56 where the clock offset is given."""
    whole, part = divmod(ticks, TICKS)
    moment = START + datetime.timedelta(seconds=whole)
    line = "> %04d %02d %02d %02d %02d %2d.%07d  0%3d" % (
        moment.year, moment.month, moment.day, moment.hour, moment.minute, moment.second, part, count)
    if clock is None:
        return line + "\n"
    return "%-41s%15.12f\n" % (line, round(clock, 12) + 0.0)


def epochs(args, satellites, interval, rng):
    """The text of one epoch after another, without end."""
    clock = ReceiverClock(rng)
    places = random.Random(args.random)  # apart, so that the lines stay what they are without it
    with_clock = 0
    ticks = 0
    while True:
        seconds = ticks / TICKS
        clock.move(interval / TICKS)
        rows = []
        for satellite in satellites:
            distance, sine = satellite.range_to(seconds)
            if sine < HORIZON or len(rows) == SATELLITE_LIMIT:
                continue
            later, _ = satellite.range_to(seconds + 0.5)
            rate = 2.0 * (later - distance) + clock.drift * LIGHT
            line = satellite_line(satellite, distance, rate, sine, clock.offset * LIGHT, rng)
            if line is not None:
                rows.append(line)
        rows = [row for row in rows if places.random() >= args.left_out]
        if args.shuffled:
            places.shuffle(rows)
        has_clock = args.clock and (args.clock_epochs is None or with_clock < args.clock_epochs)
        with_clock += has_clock
        given = clock.offset if has_clock else None
        yield epoch_line(ticks, len(rows), given) + "".join(row + "\n" for row in rows)
        ticks += interval
        if rng.random() < args.gaps:
            ticks += interval * rng.randrange(1, 40)


def arguments():
    parser = argparse.ArgumentParser(description=__doc__, formatter_class=argparse.RawDescriptionHelpFormatter)
    size = parser.add_mutually_exclusive_group(required=True)
    size.add_argument("--megabytes", type=float, help="make at least so many millions of bytes, in whole epochs")
    size.add_argument("--epochs", type=int, help="make so many epochs")
    parser.add_argument("--random", type=int, default=1, help="the start of the random numbers (1)")
    parser.add_argument("--systems", default="GREC", help="letters of GRECJSI (GREC)")
    parser.add_argument("--interval", type=float, default=30.0, help="seconds between epochs (30)")
    parser.add_argument("--satellites", type=int, help="at most so many satellites of each system")
    parser.add_argument("--bands", type=int, help="at most so many signals of each system")
    parser.add_argument("--gaps", type=float, default=0.0005, help="chance of a gap after an epoch (0.0005)")
    parser.add_argument("--left-out", type=float, default=0.0, help="chance of a satellite's line to be left out (0)")
    parser.add_argument("--shuffled", action="store_true", help="another order of the satellites in each epoch")
    parser.add_argument("--clock", action="store_true", help="receiver clock offsets in the epoch lines")
    parser.add_argument("--clock-epochs", type=int, help="those of the first so many epochs alone")
    parser.add_argument("-o", "--output", help="the file to write (standard output)")
    args = parser.parse_args()
    if not args.systems or set(args.systems) - set(SYSTEMS) or len(set(args.systems)) != len(args.systems):
        parser.error("--systems: letters of GRECJSI, each once")
    if round(args.interval * TICKS) < 1:
        parser.error("--interval: above zero")
    return args


def write(args, out):
    rng = random.Random(args.random)
    interval = round(args.interval * TICKS)
    satellites, types = [], {}
    for letter in args.systems:
        bands = SYSTEMS[letter]["bands"][:args.bands]
        types[letter] = [kind + band for band, _ in bands for kind in KINDS]
        satellites += constellation(letter, bands, args.satellites, rng)
    limit = None if args.megabytes is None else int(args.megabytes * 1e6)
    text = "".join(header(args.systems, types, interval))
    written, chunk, held = len(text), [text], len(text)
    for made, epoch in enumerate(epochs(args, satellites, interval, rng)):
        if (limit is not None and written >= limit) or (args.epochs is not None and made >= args.epochs):
            break
        chunk.append(epoch)
        written += len(epoch)
        held += len(epoch)
        if held > 1 << 20:
            out.write("".join(chunk).encode("ascii"))
            chunk, held = [], 0
    out.write("".join(chunk).encode("ascii"))
    out.flush()


def main():
    args = arguments()
    try:
        if args.output:
            with open(args.output, "wb") as out:
                write(args, out)
        else:
            write(args, sys.stdout.buffer)
    except BrokenPipeError:
        sys.stderr.close()


if __name__ == "__main__":
    main()
