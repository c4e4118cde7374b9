# The report of a bundle, computed from its text alone with fractions, as docs/FORMATS.md and docs/DEFINITIONS.md say it:
#
#     python3 figures.py < NAME.bundle > expected/NAME.solved.report
#
# It shares no line with the program. It makes the two ends of each case anew from its field and its flux, and stops where they
# aren't those that the bundle claims, or the flux isn't balanced. Else it asks a bundle without a fault. examples/run compares the
# program's report with what this wrote, and doesn't need this.
import csv
import math
import sys
from collections import namedtuple
from fractions import Fraction

Box = namedtuple("Box", "environment value low high")  # of a solid no environment, and its conductivity; of air its resistance
Part = namedtuple("Part", "rsi rse areas layers")
Item = namedtuple("Item", "kind first second planar lines")
Case = namedtuple("Case", "names axes field flux low high verdict")


class Detail:
    def __init__(self):
        self.dimension, self.environments, self.conductivities = 0, [], {}
        self.boxes, self.parts, self.items = [], {}, {}

    def box(self, environment, value, sides):
        sides = [Fraction(side) for side in sides] + ([] if self.dimension == 3 else [Fraction(0), Fraction(1000)])
        self.boxes.append(Box(environment, value, sides[0::2], sides[1::2]))

    def add(self, record):
        word, rest = record[0], record[1:]
        if word == "detail":
            self.dimension = int(rest[1])
        elif word == "env":
            self.environments.append(rest[0])
        elif word == "mat":
            self.conductivities[rest[0]] = Fraction(rest[1])
        elif word == "solid":
            self.box(None, self.conductivities[rest[0]], rest[1:])
        elif word == "air":
            self.box(rest[0], Fraction(rest[1]), rest[2:])
        elif word == "part":
            areas = [Fraction(area) for area in rest[3:]] or [Fraction(1)]
            self.parts[rest[0]] = Part(Fraction(rest[1]), Fraction(rest[2]), areas, [])
        elif word == "layer":
            self.parts[rest[0]].layers.append((Fraction(rest[1]) / 1000, rest[2:]))
        elif word in ("psi", "chi"):
            self.items[word, rest[0]] = Item(word, rest[1], rest[2], [], [])
        elif word == "length":
            self.items["psi", rest[0]].planar.append((rest[1], Fraction(rest[2]) / 1000))
        elif word == "area":
            self.items["chi", rest[0]].planar.append((rest[1], Fraction(rest[2])))
        elif word == "line":
            low, high, length = (Fraction(number) for number in rest[1:])
            self.items["chi", rest[0]].lines.append((low, high, length / 1000))
        else:
            raise ValueError(f"no record of a detail: {word}")


def read_case(first, records):
    axes = []
    for axis in "xyz":
        record = next(records)
        assert record[0] == axis
        axes.append([Fraction(line) for line in record[1:]])
    nx, ny, nz = (len(axis) - 1 for axis in axes)
    rows = [next(records) for _ in range((ny + 1) * (nz + 1))]
    assert all(row[0] == "t" and len(row) == nx + 2 for row in rows)
    field = {(i, j, k): int(rows[k * (ny + 1) + j][i + 1]) for i in range(nx + 1) for j in range(ny + 1) for k in range(nz + 1)}
    flux = {}
    for k in range(nz + 1):
        # behind the last layer only its upper faces
        for word, axis, count in [("fz", 2, ny), ("fx", 0, ny), ("fy", 1, ny + 1)][:3 if k < nz else 1]:
            for j in range(count):
                row = next(records)
                assert row[0] == word and len(row) == nx + 1 + (axis == 0)
                flux.update({(axis, i, j, k): int(value) for i, value in enumerate(row[1:])})
    record = next(records)
    assert record[0] == "interval"
    verdict = next(records)
    assert verdict[0] == "verdict"
    return Case(first[1:], axes, field, flux, Fraction(int(record[1]), 10**15), Fraction(int(record[2]), 10**15), verdict[1])


def read_bundle(text):
    records = iter(record for record in csv.reader(text) if record and not record[0].startswith("#"))
    assert next(records) == ["bundle", "1"]
    detail, cases = Detail(), []
    record = next(records)
    while record[0] not in ("case", "end"):
        detail.add(record)
        record = next(records)
    while record[0] == "case":
        cases.append(read_case(record, records))
        record = next(records)
    assert record == ["end"]
    return detail, cases


# ISO 6946:2017, 6.7: U of layers side by side lies between two limits of the resistance, and is taken by their mean.
def transmittance(detail, part):
    total = sum(part.areas)
    surfaces = part.rsi + part.rse
    resistances = [surfaces + sum(d / detail.conductivities[names[s]] for d, names in part.layers) for s in range(len(part.areas))]
    upper = 1 / sum(area / total / resistance for area, resistance in zip(part.areas, resistances))
    lower = surfaces
    for d, names in part.layers:
        lower += 1 / sum(area / total * detail.conductivities[name] / d for area, name in zip(part.areas, names))
    assert upper <= lower * Fraction(3, 2), "the limits of a resistance lie too far apart"
    return 2 / (upper + lower)


# The heat flow with just these environments at 1: the interval of its case, or of the case of all others.
def interval(detail, cases, names):
    others = [name for name in detail.environments if name not in names]
    if not others:
        return 0, 0
    (case,) = [case for case in cases if case.names in (names, others)]
    return case.low, case.high


def coupling(detail, cases, first, second):
    both = [name for name in detail.environments if name in (first, second)]
    (low_1, high_1), (low_2, high_2), (low_12, high_12) = (interval(detail, cases, names) for names in ([first], [second], both))
    return (low_1 + low_2 - high_12) / 2, (high_1 + high_2 - low_12) / 2


def item_interval(detail, cases, item):
    low, high = coupling(detail, cases, item.first, item.second)
    planar = sum(transmittance(detail, detail.parts[part]) * amount for part, amount in item.planar)
    most = planar + sum(high * length for _, high, length in item.lines)
    least = planar + sum(low * length for low, _, length in item.lines)
    return low - most, high - least


# for each cell the box that holds its middle, as a number
def occupants(detail, axes):
    found = {}
    counts = [len(axis) - 1 for axis in axes]
    for number, box in enumerate(detail.boxes):
        ranges = []
        for axis, low, high in zip(axes, box.low, box.high):
            ranges.append([i for i in range(len(axis) - 1) if low <= (axis[i] + axis[i + 1]) / 2 < high])
        for i in ranges[0]:
            for j in ranges[1]:
                for k in ranges[2]:
                    found.setdefault((i, j, k), number)
    assert len(found) == math.prod(counts)
    return found


def step(place, axis):
    return tuple(i + (a == axis) for a, i in enumerate(place))


# the corners of the face across an axis at its low end, as two pairs of opposite ones
def corners(place, axis):
    one, other = (a for a in range(3) if a != axis)
    return place, step(step(place, one), other), step(place, one), step(place, other)


# all faces between a solid cell and one of an environment: their axis, place, solid box, air box, and whether the low one is air
def surfaces(detail, cells):
    for cell, number in cells.items():
        for axis in range(3):
            beyond = step(cell, axis)
            if beyond in cells:
                low, high = detail.boxes[number], detail.boxes[cells[beyond]]
                if (low.environment is None) != (high.environment is None):
                    low_is_air = low.environment is not None
                    yield axis, beyond, low if low_is_air else high, low_is_air


# 36 times the mean square of the bilinear function with these corner values, two pairs of opposite ones
def spread(a, b, c, d):
    return 4 * (a * a + b * b + c * c + d * d + (a + b) * (c + d)) + 2 * (a * b + c * d)


# The two ends of a case in fW/K. Lengths in m, temperatures and flows in units of the bundle.
def ends_of(detail, case, cells):
    widths = [[(high - low) / 1000 for low, high in zip(axis, axis[1:])] for axis in case.axes]
    upper, source, loss = 0, 0, 0
    for cell, number in cells.items():
        box = detail.boxes[number]
        if box.environment is not None:
            continue
        outflow = 0
        for axis in range(3):
            a, b, c = (widths[n][cell[n]] for n in [axis] + [n for n in range(3) if n != axis])
            differences = [case.field[step(node, axis)] - case.field[node] for node in corners(cell, axis)]
            upper += math.ceil(box.value * b * c / a * spread(*differences) / 36 / 10)  # 10^15 · (10^-8)^2
            low, high = case.flux[(axis, *cell)], case.flux[(axis, *step(cell, axis))]
            loss += math.ceil(a / (b * c * box.value) * Fraction(low * low + low * high + high * high, 3) / 1000)  # 10^15 · (10^-9)^2
            outflow += high - low
            assert low == 0 or cell[axis] > 0
            assert high == 0 or cell[axis] + 1 < len(widths[axis])
        assert outflow == 0
    for axis, place, air, low_is_air in surfaces(detail, cells):
        b, c = (widths[n][place[n]] for n in range(3) if n != axis)
        outside = 10**8 if air.environment in case.names else 0
        upper += math.ceil(b * c / air.value * spread(*(case.field[node] - outside for node in corners(place, axis))) / 36 / 10)
        flow = case.flux[(axis, *place)]
        loss += math.ceil(air.value * flow * flow / (b * c) / 1000)
        if air.environment in case.names:
            source += 2 * 10**6 * (flow if low_is_air else -flow)
    return source - loss, upper


# the node values at the corners of all surfaces, by environment
def surface_values(detail, case, cells):
    values = {name: set() for name in detail.environments}
    for axis, place, air, _ in surfaces(detail, cells):
        values[air.environment].update(case.field[node] for node in corners(place, axis))
    return values


def decimal(number, places):
    whole, part = divmod(abs(number), 10**places)
    return f"{'-' if number < 0 else ''}{whole}.{part:0{places}}"


def ends(low, high):
    return f"{decimal(math.floor(low * 10**6), 6)},{decimal(math.ceil(high * 10**6), 6)}"


def report(detail, cases):
    cells = [occupants(detail, case.axes) for case in cases]
    for case, places in zip(cases, cells):
        assert ends_of(detail, case, places) == (case.low * 10**15, case.high * 10**15)
    yield "report,1"
    for case in cases:
        yield f"case,{'+'.join(case.names)},{ends(case.low, case.high)},{case.verdict}"
    for i, first in enumerate(detail.environments):
        for second in detail.environments[i + 1:]:
            yield f"L{detail.dimension}D,{first},{second},{ends(*coupling(detail, cases, first, second))}"
    for name, part in detail.parts.items():
        u = transmittance(detail, part)
        yield f"U,{name},{ends(u, u)}"
    for kind in ("psi", "chi"):
        for (word, name), item in detail.items.items():
            if word == kind:
                yield f"{kind},{name},{ends(*item_interval(detail, cases, item))}"
    for case, places in zip(cases, cells):
        for name, found in surface_values(detail, case, places).items():
            least, greatest = (decimal(end(found), 8) for end in (min, max)) if found else ("none", "none")
            yield f"factor,{'+'.join(case.names)},{name},{least},{greatest},grid value no bound"
    yield "end"


if __name__ == "__main__":
    sys.stdout.write("".join(line + "\n" for line in report(*read_bundle(sys.stdin))))
