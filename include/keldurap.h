/* Keldurap: estimated-time sheets for railways. The functions of libkeldurap.a, which `rt lib` in crates/keldurap makes. Link with libm too (-lm).
 * Whatever floating-point mode the caller is in (rounding, flushing of small numbers to zero, exceptions that trap), each function computes in the default mode,
 * in which it is proved, and gives the caller its mode and its exception flags back, also on a refusal. */
#ifndef KELDURAP_H
#define KELDURAP_H

#include <fenv.h>
#include <stddef.h>
#include <stdint.h>

#ifdef __cplusplus
extern "C" {
#endif

/* The most of each that a book may have, and the largest book in bytes: 44 + 24 links + 16 origins + 4 destinations + 12 legs + 24 samples. */
#define KELDURAP_LINKS_MAX 65535
#define KELDURAP_ORIGINS_MAX 1000
#define KELDURAP_DESTINATIONS_MAX 1000
#define KELDURAP_LEGS_MAX 65535
#define KELDURAP_SAMPLES_MAX 1000000
#define KELDURAP_BOOK_MAX 26379304

/* A table's place is 4 doubles and 6 numbers; places past the most are never used. */
#define KELDURAP_PLACES_MAX 65535
#define KELDURAP_PLACE_FLOATS 4
#define KELDURAP_PLACE_NUMBERS 6

/* A unit of work space is 64 bytes: 3 reals, 8 cells and 2 marks. Row 3 asks for 576 units, and one for each link, origin, destination, leg and table place,
 * so the most that it can ask for is 199,181 units (12,747,584 bytes). */
#define KELDURAP_UNIT_REALS 3
#define KELDURAP_UNIT_CELLS 8
#define KELDURAP_UNIT_MARKS 2
#define KELDURAP_UNITS_MIN 576
#define KELDURAP_UNITS_MAX 199181

/* The longest listing of a sheet of so many nodes (at most 65,535), in bytes: a head of 65 and lines of 106. */
#define KELDURAP_LISTING_MAX(nodes) (65 + 106 * (size_t)(nodes))

/* Why keldurap_list_sheet gives no listing: out is too short, or the table's slices have fewer nodes than the report says. No refusal has these numbers. */
#define KELDURAP_LISTING_SHORT 101
#define KELDURAP_TABLE_UNFILLED 102

/* The report of a sheet: its nodes, those of them that were added for events (origins' nodes included), splits, joins and finished runs. All are 0 on a refusal. */
struct keldurap_report {
    size_t nodes;
    size_t added;
    size_t splits;
    size_t joined;
    size_t finished;
};

/* A count of a book: the u32 at an offset, 0 where the bytes end before it does. */
static inline uint32_t keldurap_count_at(const uint8_t *book, size_t book_len, uint64_t at)
{
    if (book_len < 4 || book_len - 4 < at)
        return 0;
    return (uint32_t)book[at] | (uint32_t)book[at + 1] << 8 | (uint32_t)book[at + 2] << 16 | (uint32_t)book[at + 3] << 24;
}

/* The units of work space to lend for a book and a table of so many places: as many as row 3 asks for, and never more than KELDURAP_UNITS_MAX.
 * A count past the bytes' end is taken as 0 and one above its limit as its limit: such books get 1, 2 or 3 whatever is lent. */
static inline size_t keldurap_units(const uint8_t *book, size_t book_len, size_t places)
{
    static const uint32_t widths[4] = {24, 16, 4, 12};
    static const uint32_t limits[4] = {KELDURAP_LINKS_MAX, KELDURAP_ORIGINS_MAX, KELDURAP_DESTINATIONS_MAX, KELDURAP_LEGS_MAX};
    size_t units = KELDURAP_UNITS_MIN + (places < KELDURAP_PLACES_MAX ? places : KELDURAP_PLACES_MAX);
    uint64_t at = 24;
    for (int i = 0; i < 4; i++) {
        uint32_t count = keldurap_count_at(book, book_len, at);
        units += count < limits[i] ? count : limits[i];
        at += 4 + (uint64_t)count * widths[i];
    }
    return units;
}

/* The archive's own functions. They compute in the caller's floating-point mode, of which nothing is proved but in the default one, and are not for users:
 * those call the functions below, which have the same names without `raw_`. */
double keldurap_raw_root(double x);
uint32_t keldurap_raw_check_book(const uint8_t *book, size_t book_len, size_t places, double *reals, size_t reals_len, uint32_t *cells, size_t cells_len, uint32_t *marks, size_t marks_len);
uint32_t keldurap_raw_make_events(double train_length, const uint8_t *samples, size_t samples_len, const double *offsets, size_t offsets_len, const uint32_t *links, size_t links_len, double *floats, size_t floats_len, uint32_t *numbers, size_t numbers_len, uint32_t *count);
uint32_t keldurap_raw_update_times(double *floats, size_t floats_len, uint32_t *numbers, size_t numbers_len, double departure, double *reals, size_t reals_len, uint32_t *cells, size_t cells_len, uint32_t *marks, size_t marks_len, uint32_t *nodes);
uint32_t keldurap_raw_grow_network(const uint8_t *book, size_t book_len, double *floats, size_t floats_len, uint32_t *numbers, size_t numbers_len, double *reals, size_t reals_len, uint32_t *cells, size_t cells_len, uint32_t *marks, size_t marks_len, struct keldurap_report *report);
uint32_t keldurap_raw_make_est_times(const uint8_t *book, size_t book_len, double *floats, size_t floats_len, uint32_t *numbers, size_t numbers_len, double *reals, size_t reals_len, uint32_t *cells, size_t cells_len, uint32_t *marks, size_t marks_len, struct keldurap_report *report);
uint32_t keldurap_raw_list_sheet(const double *floats, size_t floats_len, const uint32_t *numbers, size_t numbers_len, const struct keldurap_report *report, uint8_t *out, size_t out_len, size_t *length);

/* Every function below is called between these two. The first sets the default mode, and gives the caller's mode and flags. */
static inline fenv_t keldurap_enter(void)
{
    fenv_t caller;
    fegetenv(&caller);
    fesetenv(FE_DFL_ENV);
    return caller;
}

/* The second sets the caller's mode and flags again, and hands an answer on. */
static inline uint32_t keldurap_leave(fenv_t caller, uint32_t answer)
{
    fesetenv(&caller);
    return answer;
}

/* The square root of x, rounded to nearest, a tie to even (IEEE 754 binary64), for every x. */
static inline double keldurap_root(double x)
{
    fenv_t caller = keldurap_enter();
    double answer = keldurap_raw_root(x);
    fesetenv(&caller);
    return answer;
}

/* The number that a book gets by rows 1 to 8 of docs/REFUSALS.md, and 0 where none holds.
 * book: its bytes. places: the nodes that the table to be lent has places for.
 * Work space, lent in units of 64 bytes: 3 reals, 8 cells and 2 marks each, as many units as all three slices fill; row 3 asks for
 * 36,864 + 64 * (links + origins + destinations + legs + places up to 65,535) bytes. Whatever it held, it is zero afterwards.
 * The four slices must not overlap. A slice of no elements may have any pointer that is not null. */
static inline uint32_t keldurap_check_book(const uint8_t *book, size_t book_len, size_t places, double *reals, size_t reals_len, uint32_t *cells, size_t cells_len, uint32_t *marks, size_t marks_len)
{
    fenv_t caller = keldurap_enter();
    return keldurap_leave(caller, keldurap_raw_check_book(book, book_len, places, reals, reals_len, cells, cells_len, marks, marks_len));
}

/* The events of one leg: where a train's front (Arrive) and end (Clear) pass the points of its path, and when and how fast.
 * samples: 24 bytes each, as a book has them: time, offset, speed as little-endian f64. offsets and links: the path's points, as many as both have;
 * a point names the link that starts there. The list is lent in two slices, 3 doubles (time, offset, speed) and 2 numbers (link; kind, 0 Arrive or 1 Clear)
 * to an event, as many places as both have. Gives 0 or the number of a refusal, 3, 4, 7, 11 or 12 of docs/REFUSALS.md, and in count how many events there are.
 * The rest of the list is zero; on a refusal the whole list and count are. What bytes and slices have past the last whole sample, point or place is not looked at.
 * The slices and count must not overlap. A slice of no elements may have any pointer that is not null. */
static inline uint32_t keldurap_make_events(double train_length, const uint8_t *samples, size_t samples_len, const double *offsets, size_t offsets_len, const uint32_t *links, size_t links_len, double *floats, size_t floats_len, uint32_t *numbers, size_t numbers_len, uint32_t *count)
{
    fenv_t caller = keldurap_enter();
    return keldurap_leave(caller, keldurap_raw_make_events(train_length, samples, samples_len, offsets, offsets_len, links, links_len, floats, floats_len, numbers, numbers_len, count));
}

/* Checks a node table and times it, forward and backward, from a departure. The table is lent in two slices, 4 doubles (time, time to next, distance to next,
 * speed) and 6 numbers (next, its alternative, previous, its alternative; link; kind, 0 Arrive, 1 Clear or 2 Fake) to a node, as many nodes as both slices fill.
 * Each node's time is checked and then overwritten. Gives 0 or the number of a refusal, 3, 4, 5, 14, 15 or 16 of docs/REFUSALS.md, and in nodes how many there are.
 * Work space as above; row 3 asks for 36,864 + 64 * nodes bytes. Whatever it held, it is zero afterwards. What the table's slices hold past the nodes is zero
 * afterwards; on a refusal both slices and nodes are. The slices and nodes must not overlap. A slice of no elements may have any pointer that is not null. */
static inline uint32_t keldurap_update_times(double *floats, size_t floats_len, uint32_t *numbers, size_t numbers_len, double departure, double *reals, size_t reals_len, uint32_t *cells, size_t cells_len, uint32_t *marks, size_t marks_len, uint32_t *nodes)
{
    fenv_t caller = keldurap_enter();
    return keldurap_leave(caller, keldurap_raw_update_times(floats, floats_len, numbers, numbers_len, departure, reals, reals_len, cells, cells_len, marks, marks_len, nodes));
}

/* The network of a book before its times are known, for tests: which nodes there are, how they are linked, and how long it is from each to the next.
 * Gives 0 or the number of a refusal, 1 to 13 of docs/REFUSALS.md, and the report. Table: 4 floats (time, which is 0 here,
 * time to next, distance to next, speed) and 6 numbers (next, next alternative, previous, previous alternative, link, kind) to a node, as many places as both slices fill, at most 65,535.
 * Whatever table and work space held, the table has the nodes and zeros behind them, or on a refusal zeros alone, and so has the report; the work space is zero.
 * The slices and the report must not overlap. A slice of no elements may have any pointer that is not null. */
static inline uint32_t keldurap_grow_network(const uint8_t *book, size_t book_len, double *floats, size_t floats_len, uint32_t *numbers, size_t numbers_len, double *reals, size_t reals_len, uint32_t *cells, size_t cells_len, uint32_t *marks, size_t marks_len, struct keldurap_report *report)
{
    fenv_t caller = keldurap_enter();
    return keldurap_leave(caller, keldurap_raw_grow_network(book, book_len, floats, floats_len, numbers, numbers_len, reals, reals_len, cells, cells_len, marks, marks_len, report));
}

/* The sheet of a book: every route in one network with its splits and joins, timed forward and backward. Gives 0, or the number of a refusal, 1 to 16 of docs/REFUSALS.md.
 * book: its bytes, at most KELDURAP_BOOK_MAX of them in a book that is accepted: 1 to 65,535 links and legs, 1 to 1,000 origins and destinations, 1 to 1,000,000 samples.
 * Table: 4 floats (time, time to next, distance to next, speed) and 6 numbers (next, next alternative, previous, previous alternative; link; kind, 0 Arrive, 1 Clear or 2 Fake)
 * to a node, as many places as both slices fill, at most 65,535. Work space in units of 64 bytes as above; row 3 asks for 36,864 + 64 * (links + origins + destinations + legs + places)
 * bytes, which are keldurap_units(book, book_len, places) units.
 * Whatever table and work space held, the table has the sheet and zeros behind it, or on a refusal zeros alone, and so has the report; the work space is zero.
 * The slices and the report must not overlap. A slice of no elements may have any pointer that is not null. */
static inline uint32_t keldurap_make_est_times(const uint8_t *book, size_t book_len, double *floats, size_t floats_len, uint32_t *numbers, size_t numbers_len, double *reals, size_t reals_len, uint32_t *cells, size_t cells_len, uint32_t *marks, size_t marks_len, struct keldurap_report *report)
{
    fenv_t caller = keldurap_enter();
    return keldurap_leave(caller, keldurap_raw_make_est_times(book, book_len, floats, floats_len, numbers, numbers_len, reals, reals_len, cells, cells_len, marks, marks_len, report));
}

/* The listing of a sheet in ASCII: `nodes N added N splits N joined N finished N`, then a line for each node: its number, kind (A, C, F), link, next, next alternative, previous, previous
 * alternative in decimal; time, time to next, distance to next and speed, each the 16 hexadecimal digits of its bits without closing zeros, one digit kept. A blank between fields, a newline
 * behind each line. Table and report are those that keldurap_make_est_times gave. Gives 0: the listing stands in out, zeros behind it, and length is how many bytes it has (no byte closes it);
 * else KELDURAP_LISTING_SHORT or KELDURAP_TABLE_UNFILLED: all of out is zero, and length is.
 * A sheet's head has at most 65 bytes and a line at most 106, so KELDURAP_LISTING_MAX(nodes) bytes are always enough, 6,946,775 for 65,535 nodes. (Of other tables and reports, whose numbers may
 * have any size: 140, and 126 and the digits of the node's number.) The slices, the report and length must not overlap. A slice of no elements may have any pointer that is not null. */
static inline uint32_t keldurap_list_sheet(const double *floats, size_t floats_len, const uint32_t *numbers, size_t numbers_len, const struct keldurap_report *report, uint8_t *out, size_t out_len, size_t *length)
{
    fenv_t caller = keldurap_enter();
    return keldurap_leave(caller, keldurap_raw_list_sheet(floats, floats_len, numbers, numbers_len, report, out, out_len, length));
}

#ifdef __cplusplus
}
#endif

#endif
