/* A cold store's month of June 2021: makes a book, settles it, and writes its three files.
 * docs/BOOK.md has the book's layout, docs/LIBRARY.md the command that runs this.
 *
 * The store has two delivery points behind one access point. The first is settled by transfer, so it stands in TOE01 and TOE02; the
 * second has a pass-through contract, so it stands in TOE03. On Thursday 10 June, from 14:00 to 15:00, the FSP turns both down. */
#include "toe.h"

#include <stdio.h>
#include <string.h>

enum { LEAD_DAYS = 1, DAYS = LEAD_DAYS + 30, POINTS = 2, ENGAGEMENTS = 2 };

/* Where the five sections start. */
enum {
    CALENDAR = 56,
    CHOICES = CALENDAR + DAYS,
    REGISTER = CHOICES + 8,
    READINGS = REGISTER + 64 * POINTS,
    ENGAGED = READINGS + 384 * DAYS * POINTS,
    END = ENGAGED + 16 * ENGAGEMENTS
};

#define SUPPLIER 3
#define FSP 7

/* Day 0 is Monday 31 May, so day 10 is 10 June; quarter-hour 56 starts at 14:00. */
enum { ACTIVATED_DAY = 10, ACTIVATED_FIRST = 56, ACTIVATED_COUNT = 4 };

static uint8_t book[END];

/* Puts a number of so many bytes at a place of the book, least byte first. */
static void put(size_t place, int bytes, uint64_t number)
{
    for (int i = 0; i < bytes; i++)
        book[place + i] = (uint8_t)(number >> (8 * i));
}

static void put_header(void)
{
    const size_t starts[6] = {CALENDAR, CHOICES, REGISTER, READINGS, ENGAGED, END};
    put(0, 2, 1);    /* version */
    put(2, 2, 2021); /* year */
    put(4, 1, 6);    /* month */
    put(5, 1, LEAD_DAYS);
    put(6, 2, POINTS);
    put(8, 2, ENGAGEMENTS);
    for (int k = 0; k < 5; k++) {
        put(16 + 8 * k, 4, starts[k]);
        put(20 + 8 * k, 4, starts[k + 1] - starts[k]);
    }
}

/* Working days are category 0, with the 4 greatest of the 5 latest as reference days; weekends are category 1, with 2 of 3. */
static void put_calendar(void)
{
    const uint8_t choices[8] = {4, 5, 2, 3, 2, 3, 2, 3};
    for (int day = 0; day < DAYS; day++)
        put(CALENDAR + day, 1, day % 7 >= 5);
    memcpy(book + CHOICES, choices, 8);
}

static void put_point(int point, uint64_t delivery_ean, int situation)
{
    size_t row = REGISTER + 64 * point;
    put(row + 0, 8, delivery_ean);
    put(row + 8, 8, UINT64_C(541400000000000001)); /* access point EAN */
    put(row + 16, 8, SUPPLIER);
    put(row + 24, 8, FSP);
    put(row + 32, 8, 0);         /* no day is excluded */
    put(row + 40, 4, 500000);    /* largest upward watts */
    put(row + 44, 4, 500000);    /* largest downward watts */
    put(row + 48, 2, 1);         /* source balance party */
    put(row + 50, 2, 2);         /* FSP balance party */
    put(row + 52, 1, situation); /* 0 transfer, 1 pass-through */
    put(row + 53, 1, 0);         /* off-take */
    put(row + 54, 1, 1);         /* High X of Y */
}

/* The kilowatts that the first point takes on a day; the second takes half of them. */
static int kilowatts(int day)
{
    switch (day) {
    case 4: return 420;  /* Friday 4 June */
    case 7: return 410;  /* Monday 7 June */
    case 8: return 300;  /* Tuesday 8 June: maintenance, the lowest of the five */
    case 9: return 410;  /* Wednesday 9 June */
    case 10: return 410; /* Thursday 10 June, but for the hour */
    default: return 400; /* Thursday 3 June among them */
    }
}

static void put_reading(int point, int day, int quarter, int32_t watts)
{
    put(READINGS + 384 * (DAYS * point + day) + 4 * quarter, 4, (uint32_t)watts);
}

/* Turned down, the first point takes 310 kW and the second 145. */
static void put_readings(void)
{
    for (int day = 0; day < DAYS; day++)
        for (int quarter = 0; quarter < 96; quarter++) {
            put_reading(0, day, quarter, 1000 * kilowatts(day));
            put_reading(1, day, quarter, 500 * kilowatts(day));
        }
    for (int quarter = ACTIVATED_FIRST; quarter < ACTIVATED_FIRST + ACTIVATED_COUNT; quarter++) {
        put_reading(0, ACTIVATED_DAY, quarter, 310000);
        put_reading(1, ACTIVATED_DAY, quarter, 145000);
    }
}

static void put_engagement(int index, int point, uint32_t requested_watts)
{
    size_t row = ENGAGED + 16 * index;
    put(row + 0, 2, point);
    put(row + 2, 1, ACTIVATED_DAY);
    put(row + 3, 1, ACTIVATED_FIRST);
    put(row + 4, 1, ACTIVATED_COUNT);
    put(row + 5, 1, 0); /* up: less is taken from the grid */
    put(row + 6, 1, 0); /* notice, which method 0 alone asks for */
    put(row + 8, 4, requested_watts);
}

/* Long enough for any book. */
static int64_t rows[TOE_ROWS_LARGEST];
static uint8_t file[TOE_FILE_LARGEST];

static int refused(const char *call, uint64_t answer)
{
    fprintf(stderr, "%s: refused %u %u\n", call, TOE_NUMBER(answer), TOE_ITEM(answer));
    return 1;
}

int main(void)
{
    put_header();
    put_calendar();
    put_point(0, UINT64_C(541400000000000011), 0);
    put_point(1, UINT64_C(541400000000000012), 1);
    put_readings();
    put_engagement(0, 0, 100000);
    put_engagement(1, 1, 50000);

    uint64_t count = toe_settle(book, END, rows, TOE_ROWS_LARGEST);
    if (count >= TOE_REFUSED)
        return refused("toe_settle", count);
    printf("baseline, delivered, source, FSP and injection correction, in kilowatts\n");
    for (uint64_t row = 0; row < count; row++)
        for (int column = 0; column < 5; column++)
            printf("%.3f%s", rows[5 * row + column] / (1000.0 * TOE_GRAINS_PER_WATT), column < 4 ? " " : "\n");

    const char *id = "COLD-STORE-1", *moment = "2021-08-02T09:00:00.000+02:00";
    for (uint8_t kind = 1; kind <= 3; kind++) {
        uint64_t length = toe_file(book, END, kind, kind == 1 ? FSP : SUPPLIER, (const uint8_t *)id, strlen(id),
                                   (const uint8_t *)moment, strlen(moment), rows, TOE_ROWS_LARGEST, file, TOE_FILE_LARGEST);
        if (length >= TOE_REFUSED)
            return refused("toe_file", length);
        printf("TOE0%d\n%.*s\n", kind, (int)length, (const char *)file);
    }
    return 0;
}
