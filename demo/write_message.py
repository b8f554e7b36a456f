#!/usr/bin/env python3
"""Writes a message of three fields to standard output: the form of a message, by example.

    python3 demo/write_message.py > target/written.grib2
    ./skogmund message target/written.grib2

demo/rain.grib2 is this message. The sections are those of write_queue.py.
"""
import sys

sys.dont_write_bytecode = True  # the import leaves nothing beside the demos
from write_queue import fields, number, section, section_1, section_3, section_4, section_5, section_7


def section_0(length):
    """How a message begins: GRIB, two octets for later use, discipline 0 (the weather), edition 2, the whole length: 16 octets."""
    return b"GRIB" + fields((0, 2), (0, 1), (2, 1), (length, 8))


def section_2(text):
    """For local use: whatever the sender likes, and passed over."""
    return section(2, text)


def section_6():
    """That there is no bit map: 6 octets."""
    return section(6, number(255, 1))


def values(packed, bits, *packing):
    """Sections 5, 6 and 7."""
    return section_5(packed, bits, *packing) + section_6() + section_7(packed, bits)


def six_hours_to(year, month, day, hour):
    """What template 4.8 has behind octet 34 where something is summed up over six hours: 24 octets."""
    return fields(
        (year, 2), (month, 1), (day, 1), (hour, 1), (0, 1), (0, 1),   # 35: the end of the interval
        (1, 1), (0, 4),                                               # 42: one time range, none of its values missing
        (1, 1), (2, 1), (1, 1), (6, 4), (255, 1), (0, 4))             # 47: a sum, how it was made, 6 hours, without an increment


def rain(begin, tenths):
    """Sections 4 to 7: the rain of six hours of 7 March, from so many hours after the run on, in tenths of a millimetre."""
    return section_4(1, 8, begin, 1, 0, 8, six_hours_to(2024, 3, 7, begin + 6)) + values(tenths, 8, 0, 0)


def temperature(halves):
    """Sections 4 to 7: the temperature at 2 m, 12 hours after the run."""
    return section_4(0, 0, 12, 103, 2) + values(halves, 9)


def message(*sections):
    """Section 0 in front, and 7777 behind."""
    body = b"".join(sections) + b"7777"
    return section_0(16 + len(body)) + body


if __name__ == "__main__":
    # The second field has the grid of the first: after section 7 comes a section 4. The third comes with a grid of its own, and so with a
    # section 3. All three have the one section 1.
    sys.stdout.buffer.write(message(
        section_1(2024, 3, 7, 0), section_2(b"pit 4"),
        section_3(4, 3), rain(0, [0, 0, 2, 5, 0, 3, 11, 24, 4, 9, 31, 58]), rain(6, [12, 27, 40, 63, 8, 19, 22, 35, 0, 2, 6, 10]),
        section_3(2, 2, 500000), temperature([121, 126, 117, 123])))
