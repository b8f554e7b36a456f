#!/usr/bin/env python3
"""Writes a queue of three records to standard output: the form of a queue, by example.

    python3 demo/write_queue.py > target/written.queue
    ./skogmund list target/written.queue

prints

    slot year month day hour minute second issue template
    7 2024 3 7 0 0 0 40 0
    9 2024 3 7 12 0 0 0 0
    kept 2 passed 1 refused 0
"""
import sys

MISSING = 2 ** 32 - 1  # all bits one, in a field of 4 octets that may be missing


def number(n, octets):
    """A number of a section, big-endian. Where a field is signed, a negative number has the top bit set over its size."""
    return (n if n >= 0 else -n + (1 << 8 * octets - 1)).to_bytes(octets, "big")


def fields(*pairs):
    """Fields one after the other, each as (value, octets)."""
    return b"".join(number(n, octets) for n, octets in pairs)


def section(its_number, rest):
    """A section begins with its own length in 4 octets and its number in one."""
    return number(5 + len(rest), 4) + number(its_number, 1) + rest


def section_1(year, month, day, hour):
    """The reference time, without a template: 21 octets."""
    return section(1, fields(
        (88, 2), (0, 2), (30, 1), (0, 1), (1, 1),                     # 6: centre, sub-centre, two table versions, significance
        (year, 2), (month, 1), (day, 1), (hour, 1), (0, 1), (0, 1),   # 13: the reference time, to the second
        (0, 1), (1, 1)))                                              # 20: status, type of data


def section_3(ni, nj, step=250000):
    """A grid by template 3.0, without a list, its points so many millionths of a degree apart: 72 octets."""
    return section(3, fields(
        (0, 1), (ni * nj, 4), (0, 1), (0, 1), (0, 2),                 # 6: source, number of points, no list, template 0
        (6, 1), (255, 1), (MISSING, 4),                               # 15: the earth, and its radius: scale factor, value
        (255, 1), (MISSING, 4), (255, 1), (MISSING, 4),               # 21: its two axes, in the same way
        (ni, 4), (nj, 4), (0, 4), (MISSING, 4),                       # 31: Ni, Nj, basic angle, its subdivisions
        (67750000, 4), (20000000, 4), (48, 1),                        # 47: La1 and Lo1, in millionths of a degree, resolution
        (67750000 - step * (nj - 1), 4), (20000000 + step * (ni - 1), 4),  # 56: La2, Lo2
        (step, 4), (step, 4),                                         # 64: Di, Dj
        (0, 1)))                                                      # 72: scanning mode


def section_4(category, parameter, hours, surface, height, template=0, interval=b""):
    """A forecast by template 4.0, without coordinate values: 34 octets. 4.8 has an interval behind them."""
    return section(4, fields(
        (0, 2), (template, 2), (category, 1), (parameter, 1), (2, 1),  # 6: NV, template, category, parameter, process
        (0, 1), (1, 1), (0, 2), (0, 1), (1, 1), (hours, 4),           # 13: models, cut-off hours and minutes, unit, forecast time
        (surface, 1), (0, 1), (height, 4),                            # 23: first surface: type, scale factor, value
        (255, 1), (255, 1), (MISSING, 4)) + interval)                 # 29: no second surface


def section_5(values, bits, r=0x45228000, e=-1):
    """How section 7 has the values, by template 5.0, where a packed x stands for (R + x * 2 ** E) / 10 ** D: 21 octets. R is given by its IEEE
    bits, which here are those of 2600.0."""
    return section(5, fields(
        (len(values), 4), (0, 2),                                     # 6: how many values, template 0
        (r, 4), (e, 2), (1, 2), (bits, 1), (0, 1)))                   # 12: R, E, D, bits per value, type


def section_7(values, bits):
    """The packed values, most significant bit first, filled up with zeros to a whole octet."""
    packed = 0
    for value in values:
        packed = packed << bits | value
    spare = -len(values) * bits % 8
    return section(7, number(packed << spare, (len(values) * bits + spare) // 8))


def groups_of_seven(n):
    """A number of a queue: groups of seven bits, the least first, the top bit set on all octets but the last, and no more octets than it
    takes. 300 is AC 02."""
    if n < 128:
        return bytes([n])
    return bytes([n % 128 + 128]) + groups_of_seven(n // 128)


def record(slot, issue, *sections):
    """A record: slot (0 to 63), issue + 1 (0 where no issue is named), the body's length, and the body: sections 1, 3, 4, 5 and 7 back to back,
    without sections 0, 2, 6 and 8 of a message."""
    body = b"".join(sections)
    return groups_of_seven(slot) + groups_of_seven(0 if issue is None else issue + 1) + groups_of_seven(len(body)) + body


def temperature(slot, issue, day, hour):
    """A record of the temperature at 2 m, 6 hours after a run in March 2024, at 4 x 3 points."""
    values = [113, 115, 118, 121, 110, 112, 116, 119, 104, 108, 113, 117]
    return record(slot, issue, section_1(2024, 3, day, hour), section_3(4, 3), section_4(0, 0, 6, 103, 2), section_5(values, 9), section_7(values, 9))


if __name__ == "__main__":
    # A queue is its records one after the other, at most 65,536 octets. Here the second is passed, since its run is older, whatever its issue; the
    # third names no issue.
    sys.stdout.buffer.write(temperature(7, 40, 7, 0) + temperature(7, 41, 5, 12) + temperature(9, None, 7, 12))
