"""One line for every month of 2018 to 2099, from the time zone data of Europe/Brussels:

YYYY-MM LENGTH WEEKDAY_OF_FIRST LAST_SUNDAY OFFSET_OF_FIRST NEXT_YYYY-NEXT_MM OFFSET_OF_NEXT_FIRST CHANGES

WEEKDAY is 0 for Sunday to 6 for Saturday; OFFSET is the hours east of UTC at 00:00 local; CHANGES is the
day of the month on which the offset changes, or 0. Compare with `cargo run --release -- months`.
"""

import datetime
import zoneinfo

BRUSSELS = zoneinfo.ZoneInfo("Europe/Brussels")
DAY = datetime.timedelta(days=1)


def offset(date):
    midnight = datetime.datetime(date.year, date.month, date.day, tzinfo=BRUSSELS)
    return int(midnight.utcoffset().total_seconds()) // 3600


def month_line(year, month):
    first = datetime.date(year, month, 1)
    days = [first]
    while (days[-1] + DAY).month == month:
        days.append(days[-1] + DAY)
    following = days[-1] + DAY
    sundays = [day.day for day in days if day.isoweekday() == 7]
    changes = [day.day for day in days if offset(day) != offset(day + DAY)]
    assert len(changes) <= 1
    return (
        f"{year}-{month:02} {len(days)} {first.isoweekday() % 7} {sundays[-1]} {offset(first)}"
        f" {following.year}-{following.month:02} {offset(following)} {changes[0] if changes else 0}"
    )


for year in range(2018, 2100):
    for month in range(1, 13):
        print(month_line(year, month))
