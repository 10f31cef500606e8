"""A cold store's month of June 2021: makes a book, settles it, and writes its three files.

docs/BOOK.md has the book's layout, docs/LIBRARY.md the command that runs this.

The store has two delivery points behind one access point. The first is settled by transfer, so it stands in TOE01 and TOE02; the second
has a pass-through contract, so it stands in TOE03. On Thursday 10 June, from 14:00 to 15:00, the FSP turns both down.
"""

import ctypes
import os
import struct
import sys

LIBRARY = os.path.join(os.path.dirname(__file__), "../target/staticlib/libtoe.so")

GRAINS_PER_WATT = 30_240
# Long enough for any book.
ROWS_LARGEST = 256_000
FILE_LARGEST = 4_856_366

LEAD_DAYS = 1
DAYS = LEAD_DAYS + 30
SUPPLIER, FSP = 3, 7
TRANSFER, PASS_THROUGH = 0, 1

# Day 0 is Monday 31 May, so day 10 is 10 June; quarter-hour 56 starts at 14:00.
ACTIVATED_DAY = 10
ACTIVATED = range(56, 60)

# The kilowatts that the first point takes on a day, 400 on the others; the second takes half of them. Tuesday 8 June is maintenance,
# the lowest of the five latest working days before 10 June.
KILOWATTS = {4: 420, 7: 410, 8: 300, 9: 410, 10: 410}

# Delivery EAN, situation, requested watts, watts while activated, watts a kilowatt of the list above.
POINTS = [
    (541400000000000011, TRANSFER, 100_000, 310_000, 1000),
    (541400000000000012, PASS_THROUGH, 50_000, 145_000, 500),
]


def make_book():
    # Working days are category 0, with the 4 greatest of the 5 latest as reference days; weekends are category 1, with 2 of 3.
    calendar = bytes(int(day % 7 >= 5) for day in range(DAYS))
    choices = bytes([4, 5, 2, 3, 2, 3, 2, 3])
    register = readings = engagements = b""
    for index, (delivery_ean, situation, requested, activated, each) in enumerate(POINTS):
        access_ean, excluded_days, largest_up, largest_down = 541400000000000001, 0, 500_000, 500_000
        source_party, fsp_party, off_take, high_x_of_y = 1, 2, 0, 1
        register += struct.pack("<QQQQQIIHHBBB9x", delivery_ean, access_ean, SUPPLIER, FSP, excluded_days, largest_up, largest_down,
                                source_party, fsp_party, situation, off_take, high_x_of_y)
        for day in range(DAYS):
            for quarter in range(96):
                is_activated = day == ACTIVATED_DAY and quarter in ACTIVATED
                readings += struct.pack("<i", activated if is_activated else each * KILOWATTS.get(day, 400))
        up, notice = 0, 0  # up: less is taken from the grid; notice, which method 0 alone asks for
        engagements += struct.pack("<HBBBBBxI4x", index, ACTIVATED_DAY, ACTIVATED.start, len(ACTIVATED), up, notice, requested)
    sections = [calendar, choices, register, readings, engagements]
    book = struct.pack("<HHBBHH6x", 1, 2021, 6, LEAD_DAYS, len(POINTS), len(POINTS))
    start = 56
    for section in sections:
        book += struct.pack("<II", start, len(section))
        start += len(section)
    return book + b"".join(sections)


def load():
    """The library, with the types of its calls: without restype an answer would be cut to a C int, and a refusal would look accepted."""
    toe = ctypes.CDLL(LIBRARY)
    size, number = ctypes.c_size_t, ctypes.c_uint64
    text, numbers = ctypes.c_char_p, ctypes.POINTER(ctypes.c_int64)
    toe.toe_settle.restype = number
    toe.toe_settle.argtypes = [text, size, numbers, size]
    toe.toe_file.restype = number
    toe.toe_file.argtypes = [text, size, ctypes.c_uint8, number, text, size, text, size, numbers, size, ctypes.c_char_p, size]
    return toe


def count(answer):
    """Below 2^63 an answer is a count; else it is 2^63 + number * 2^32 + item."""
    if answer >= 1 << 63:
        sys.exit(f"refused {answer >> 32 & 0x7fffffff} {answer & 0xffffffff}")
    return answer


def main():
    toe, book = load(), make_book()
    rows = (ctypes.c_int64 * ROWS_LARGEST)()
    file = ctypes.create_string_buffer(FILE_LARGEST)
    print("baseline, delivered, source, FSP and injection correction, in kilowatts")
    for row in range(count(toe.toe_settle(book, len(book), rows, len(rows)))):
        print(*(f"{grains / (1000 * GRAINS_PER_WATT):.3f}" for grains in rows[5 * row:5 * row + 5]))
    identity, moment = b"COLD-STORE-1", b"2021-08-02T09:00:00.000+02:00"
    for kind, receiver in [(1, FSP), (2, SUPPLIER), (3, SUPPLIER)]:
        length = count(toe.toe_file(book, len(book), kind, receiver, identity, len(identity), moment, len(moment), rows, len(rows),
                                    file, len(file)))
        print(f"TOE0{kind}\n{file.raw[:length].decode()}")


main()
