"""Lines that are moments, transaction IDs or neither, and how they are judged, by Python's own calendar:

    moments.py lines      one case a line
    moments.py answers    for each line `moment INSTANT` or `malformed`, a space, and `id` or `malformed`

INSTANT counts milliseconds from the day before 1 January of year 1, the offset taken off.
"""

import datetime
import re
import sys

FORM = re.compile(rb"(\d{4})-(\d{2})-(\d{2})T(\d{2}):(\d{2}):(\d{2})\.(\d{3})\+(\d{2}):00\Z")
ID = re.compile(rb"[0-9A-Za-z-]{1,36}\Z")
GOOD = b"2021-08-02T09:00:00.000+02:00"


def moment(line):
    found = FORM.match(line)
    if not found:
        return b"malformed"
    year, month, day, hour, minute, second, milli, offset = (int(part) for part in found.groups())
    if not 2018 <= year <= 2099 or offset not in (1, 2):
        return b"malformed"
    try:
        at = datetime.datetime(year, month, day, hour, minute, second, milli * 1000)
    except ValueError:
        return b"malformed"
    passed = at - datetime.datetime(1, 1, 1) + datetime.timedelta(days=1) - datetime.timedelta(hours=offset)
    return b"moment %d" % (passed // datetime.timedelta(milliseconds=1))


def cases():
    yield GOOD
    for place in range(len(GOOD)):
        for byte in b"/0129:;-TtZ+. ":
            yield GOOD[:place] + bytes([byte]) + GOOD[place + 1 :]
    for year in (0, 1, 1900, 2000, 2017, 2018, 2019, 2020, 2024, 2096, 2099, 2100, 2400, 9999):
        for month in range(14):
            for day in (0, 1, 28, 29, 30, 31, 32):
                yield b"%04d-%02d-%02dT00:00:00.000+01:00" % (year, month, day)
    for time in (b"00:00:00.000", b"23:59:59.999", b"24:00:00.000", b"23:60:00.000", b"23:59:60.000", b"12:30:45.678"):
        for offset in (b"+00:00", b"+01:00", b"+02:00", b"+03:00", b"-01:00", b"-02:00", b"+01:30", b"+0100", b"Z", b""):
            yield b"2024-02-29T" + time + offset
    yield from (GOOD[:28], GOOD[1:], GOOD + b"0", b"0" + GOOD, GOOD + b"\r", b" " + GOOD, GOOD.lower(), b"")
    yield from (bytes([byte]) for byte in range(256) if byte != 10)
    yield from (b"T-1", b"-", b"a" * 35, b"Z" * 36, b"9" * 37, b"T 1", b"T_1", b"x" * 35 + b".", b"T-1\r")


lines = list(cases())
if sys.argv[1:] == ["lines"]:
    answers = lines
elif sys.argv[1:] == ["answers"]:
    answers = [moment(line) + (b" id" if ID.match(line) else b" malformed") for line in lines]
else:
    sys.exit(__doc__)
sys.stdout.buffer.write(b"".join(line + b"\n" for line in answers))
