#!/usr/bin/env python3
"""Writes ice-hockey.hpgl and curling.hpgl beside itself.

One plotter unit is one millimetre on the ice (0.025 mm at 1:40), and (0,0) is the middle of the sheet. Each line of
a drawing is one thing on the ice; RINKS.md names them in order, with their measures.

No instruction draws an arc, so arcs are written as chords; CI draws a circle as chords by itself. All chords of a
curve have the same angle, the largest that keeps them within one millimetre of the curve.
"""

from math import acos, cos, degrees, floor, radians, sin
from pathlib import Path

BLACK, RED, BLUE = 1, 2, 3
BOTH = (-1, 1)
CORNERS = [(i, j) for i in BOTH for j in BOTH]
CIRCLE, HALF, QUARTER = 3600, 1800, 900  # tenths of a degree, as CI counts them


def chord_angle(radius, whole):
    """The largest angle that divides the whole and keeps a chord within one millimetre of a curve."""
    most = 10 * degrees(2 * acos(1 - 1 / radius))
    return max(tenths for tenths in range(5, whole) if whole % tenths == 0 and tenths <= most)


def arc(x, y, radius, angles):
    """The points of an arc about (x, y), each the nearest whole."""
    turns = [radians(tenths / 10) for tenths in angles]
    return [(floor(x + radius * cos(t) + 0.5), floor(y + radius * sin(t) + 0.5)) for t in turns]


def circle(radius):
    """A circle about the place of the pen."""
    return f"CI{radius},{chord_angle(radius, CIRCLE) / 10:g};"


def go(x, y):
    return f"PU{x:g},{y:g};"


def paint(points):
    return "PD" + ",".join(f"{x:g},{y:g}" for x, y in points) + ";"


def line(start, *points):
    return go(*start) + paint(points)


def boards():
    """60 m by 30 m with corners of 8.5 m, against the clock from the lower left: a side, then the corner after it."""
    step = chord_angle(8500, QUARTER)
    sides = [(21500, -15000), (30000, 6500), (-21500, 15000), (-30000, -6500)]
    centres = [(21500, -6500), (21500, 6500), (-21500, 6500), (-21500, -6500)]
    for corner, (end, centre) in enumerate(zip(sides, centres)):
        start = QUARTER * (corner - 1)
        yield line((-21500, -15000), end) if corner == 0 else paint([end])
        yield paint(arc(*centre, 8500, range(start + step, start + QUARTER + 1, step)))


def band(x):
    """The two edges of a line 30 cm wide across the ice."""
    return "".join(line((x + edge, -15000), (x + edge, 15000)) for edge in (-150, 150))


def crease(end):
    """A goal crease: sides 1.22 m from the middle, closed by an arc of 1.83 m about the middle of the goal line."""
    goal, meet, mark = 26000 * end, 24636 * end, 24780 * end
    step = chord_angle(1830, CIRCLE)
    front = arc(goal, 0, 1830, [HALF * (end > 0) - end * step * k for k in range(11, -12, -1)])
    outline = line((goal, 1220), (meet, 1220), *front, (meet, -1220), (goal, -1220))
    return outline + "".join(line((mark, 1220 * j), (mark, 1090 * j)) for j in BOTH)


def face_off(x, y):
    """An end-zone circle with its spot, its four L marks, its four hash marks."""
    yield go(x, y) + circle(4500) + circle(300)
    yield "".join(
        line((x + 1800 * i, y + 225 * j), (x + 600 * i, y + 225 * j), (x + 600 * i, y + 1125 * j)) for i, j in CORNERS
    )
    yield "".join(line((x + 850 * i, y + 4419 * j), (x + 850 * i, y + 5019 * j)) for i, j in CORNERS)


def ice_hockey():
    yield "IN;"
    yield f"SP{BLACK};"
    yield from boards()
    yield f"SP{RED};"
    yield band(0)
    for end in BOTH:
        yield line((26000 * end, -13711), (26000 * end, 13711))
        yield crease(end)
    for i, j in CORNERS:
        yield from face_off(20000 * i, 7000 * j)
    for i, j in CORNERS:
        yield go(5640 * i, 7000 * j) + circle(300)
    yield line(*arc(0, -15000, 3000, range(0, HALF + 1, chord_angle(3000, HALF))))
    yield f"SP{BLUE};"
    yield band(-7140)
    yield band(7140)
    yield go(0, 0) + circle(4500) + circle(150)
    yield "PU;SP0;"


def across(x, half=2500):
    """A line across the curling sheet."""
    return line((x, -half), (x, half))


def curling():
    yield "IN;"
    yield f"SP{BLACK};"
    yield go(-22860, -2500) + "EA22860,2500;"
    yield line((-21033, 0), (21033, 0))
    for end in BOTH:
        yield across(17375 * end)
        yield across(19204 * end)
        yield across(10974 * end) + across(10872.4 * end)
        yield across(21033 * end, 228.6)
        yield "".join(go(21033 * end, 76.2 * j) + f"EA{21236.2 * end},{152.4 * j};" for j in BOTH)
        yield "".join(line((9653.2 * end, 2500 * j), (9653.2 * end, 2347.6 * j)) for j in BOTH)
    yield f"SP{BLUE};"
    for end in BOTH:
        yield go(17375 * end, 0) + circle(1829) + circle(1219)
    yield f"SP{RED};"
    for end in BOTH:
        yield go(17375 * end, 0) + circle(610) + circle(152.4)
    yield "PU;SP0;"


def write(name, lines):
    Path(__file__).with_name(name).write_text("".join(text + "\n" for text in lines))


if __name__ == "__main__":
    write("ice-hockey.hpgl", ice_hockey())
    write("curling.hpgl", curling())
