/* The calls of a month's transfer of energy (document 01), as target/staticlib/libtoe_c.a has them. docs/BOOK.md has the
 * book's layout and what each refusal means; docs/LIBRARY.md has how to link, what pointers and stack are asked for, and
 * examples. The calls may run in several threads at once.
 *
 * Every function is proved to answer, and to leave every lent buffer, as document 01 defines it for all inputs. It
 * reads and writes the lent memory alone, keeps nothing, and needs no start. Memory that is written must not
 * overlap other lent memory; a buffer of length 0 needs an aligned pointer that is not null.
 *
 * An answer below TOE_REFUSED is a count (of toe_write: where fewer bytes than 2^63 are lent). Any other is a refusal:
 * TOE_NUMBER and TOE_ITEM are its number and its item in document 01, "What is sent back". A refusal changes no
 * buffer; an acceptance changes only the places of its answer.
 */
#ifndef TOE_H
#define TOE_H

#include <stddef.h>
#include <stdint.h>

#ifdef __cplusplus
extern "C" {
#endif

/* Settlement rows and sheets are in grains: 30,240 to a watt, so that every mean is a whole number of them. */
#define TOE_GRAINS_PER_WATT 30240

/* Long enough for any book: numbers of settlement rows, numbers of a sheet, bytes of a file. */
#define TOE_ROWS_LARGEST 256000
#define TOE_SHEET_LARGEST 2980
#define TOE_FILE_LARGEST 4856366

/* An answer has 64 bits: where it is cut to 32, a refusal looks like a count. */
#define TOE_REFUSED (UINT64_C(1) << 63)
#define TOE_NUMBER(answer) ((unsigned)(((answer) >> 32) & 0x7fffffff))
#define TOE_ITEM(answer) ((uint32_t)(answer))

/* Kinds of file: for an FSP by supplier, for a supplier by FSP, for a supplier by access point. */
#define TOE_FOR_FSP 1
#define TOE_FOR_SUPPLIER 2
#define TOE_FOR_SUPPLIER_BY_ACCESS_POINT 3

/* Supply and delivery directions of a file's rows, as in a book's register and engagements. */
#define TOE_OFF_TAKE 0
#define TOE_INJECTION 1
#define TOE_DELIVERY_UP 0
#define TOE_DELIVERY_DOWN 1

/* Settles a book: the number of rows. Each engagement quarter-hour gives five numbers, in grains: baseline,
 * delivered volume, source, FSP and injection correction, the last 0 in a book of version 1. `rows_length` counts numbers.
 * Refusals 1, 2, 4 to 9, 10 item 0. */
uint64_t toe_settle(const uint8_t *book, size_t book_length, int64_t *rows, size_t rows_length);

/* Fills a balance party's sheet, in grains: a number for each quarter-hour of the month; how many. `sums_length` counts numbers.
 * Refusals 1, 2, 4 to 9, 11, 10 item 0. */
uint64_t toe_sheet(const uint8_t *book, size_t book_length, uint16_t party, int64_t *sums, size_t sums_length);

/* Writes a receiver's file of a book, and fills the book's settlement rows: the number of bytes. Kind 1 to 3; the
 * receiver is an FSP for kind 1, else a supplier. `moment` is as 2021-08-02T09:00:00.000+02:00, `id` 1 to 36 letters, digits and
 * hyphens; neither needs a zero byte behind it. Lengths count numbers and bytes. It needs 1.0 MB of stack, the other calls under 10 KB.
 * Refusals 1, 2, 4 to 9, 12 for the kind, 11, 12 for ID or moment, 10 item 0 for the rows, 10 item 1 for the file. */
uint64_t toe_file(const uint8_t *book, size_t book_length, uint8_t kind, uint64_t receiver, const uint8_t *id,
                  size_t id_length, const uint8_t *moment, size_t moment_length, int64_t *rows, size_t rows_length,
                  uint8_t *file, size_t file_length);

/* Reads a file: the number of rows. A row is six numbers: partner, supply, delivery direction, position, watts, 0. `rows_length` counts
 * numbers: six for every 75 bytes of the file are enough.
 * `facts` gets kind, receiver, year, month, start and length of the ID, start and length of the moment.
 * Refusals 13, 10 item 0, 10 item 1 where `facts_length` is less than 8. */
uint64_t toe_read(const uint8_t *file, size_t file_length, uint64_t *rows, size_t rows_length, uint64_t *facts,
                  size_t facts_length);

/* Writes a file from such rows: the number of bytes. `rows_length` counts numbers. A file without rows has year 0 and month 0.
 * Refusals 12 for the kind, 13, 12 for ID or moment, 10 item 1. */
uint64_t toe_write(uint8_t kind, uint64_t receiver, uint64_t year, uint64_t month, const uint64_t *rows,
                   size_t rows_length, const uint8_t *id, size_t id_length, const uint8_t *moment,
                   size_t moment_length, uint8_t *file, size_t file_length);

#ifdef __cplusplus
}
#endif

#endif
