/* test_modes BOOK...: every function of keldurap.h gives the same bits whatever floating-point mode the caller is in, and gives the caller its mode and
 * flags back, on accepted and on refused calls. BOOK.book with a BOOK.sheet beside it has that sheet. The archive's own functions are called in the same
 * modes, to see that each mode is one in which answers can differ. Built a second time with -ffast-math, which starts a program in a mode of its own.
 * For x86-64 and the GNU C library. Exit status: 0, or 1 and a line on standard error that says what differs. */
#define _GNU_SOURCE
#include "keldurap.h"

#include <stdio.h>
#include <stdlib.h>
#include <string.h>
#include <sys/wait.h>
#include <unistd.h>
#include <xmmintrin.h>

enum { PLACES = 192, UNITS = 2048, EVENTS = 8, LONGEST = 1 << 16, FLUSH_RESULTS = 0x8000, FLUSH_OPERANDS = 0x40 };

/* The smallest number above 0. */
#define SMALLEST 4.9406564584124654e-324

/* The functions under the users' names, and the archive's own. */
struct library {
    __typeof__(keldurap_raw_root) *root;
    __typeof__(keldurap_raw_check_book) *check_book;
    __typeof__(keldurap_raw_make_events) *make_events;
    __typeof__(keldurap_raw_update_times) *update_times;
    __typeof__(keldurap_raw_grow_network) *grow_network;
    __typeof__(keldurap_raw_make_est_times) *make_est_times;
    __typeof__(keldurap_raw_list_sheet) *list_sheet;
};
static const struct library users = {keldurap_root, keldurap_check_book, keldurap_make_events, keldurap_update_times,
    keldurap_grow_network, keldurap_make_est_times, keldurap_list_sheet};
static const struct library raw = {keldurap_raw_root, keldurap_raw_check_book, keldurap_raw_make_events, keldurap_raw_update_times,
    keldurap_raw_grow_network, keldurap_raw_make_est_times, keldurap_raw_list_sheet};

/* The mode that a thread is in, and its flags. */
struct mode {
    unsigned control;
    int rounding, flags, traps;
};

/* All bits that a library has answered with, one call after the other, and whether each call left mode and flags as they were. */
struct answers {
    const struct library *library;
    struct mode mode;
    int kept;
    size_t length;
    uint8_t bytes[1 << 21];
};

struct book {
    const char *name;
    size_t length, sheet_length;
    uint8_t bytes[LONGEST], sheet[LONGEST];
};

static double floats[KELDURAP_PLACE_FLOATS * PLACES], reals[KELDURAP_UNIT_REALS * UNITS];
static uint32_t numbers[KELDURAP_PLACE_NUMBERS * PLACES], cells[KELDURAP_UNIT_CELLS * UNITS], marks[KELDURAP_UNIT_MARKS * UNITS];
#define TABLE floats, sizeof floats / sizeof *floats, numbers, sizeof numbers / sizeof *numbers
#define WORK reals, sizeof reals / sizeof *reals, cells, sizeof cells / sizeof *cells, marks, sizeof marks / sizeof *marks

static void fail(const char *what, const char *why)
{
    fprintf(stderr, "test_modes: %s: %s\n", what, why);
    exit(1);
}

static struct mode mode_now(void)
{
    struct mode mode = {_mm_getcsr(), fegetround(), fetestexcept(FE_ALL_EXCEPT), fegetexcept()};
    return mode;
}

/* Adds what a call has answered with. */
static void put(struct answers *to, const void *bytes, size_t length)
{
    if (sizeof to->bytes - to->length < length)
        fail("answers", "too many");
    memcpy(to->bytes + to->length, bytes, length);
    to->length += length;
}

/* After each call: its number, and whether the mode is the caller's. */
static void called(struct answers *to, uint32_t number)
{
    struct mode mode = mode_now();
    to->kept = to->kept && memcmp(&mode, &to->mode, sizeof mode) == 0;
    put(to, &number, sizeof number);
}

/* Whatever is lent holds other values before a call. */
static void refill(void)
{
    memset(floats, 0xa5, sizeof floats);
    memset(numbers, 0xa5, sizeof numbers);
    memset(reals, 0xa5, sizeof reals);
    memset(cells, 0xa5, sizeof cells);
    memset(marks, 0xa5, sizeof marks);
}

static void put_table(struct answers *to)
{
    put(to, floats, sizeof floats);
    put(to, numbers, sizeof numbers);
}

/* Roots by their bits: of the smallest number above 0 and four times it, of 2, of another subnormal, 0.1, the largest, -1, an infinity. The first three are known. */
static void roots(struct answers *to)
{
    static const uint64_t of[] = {1, 4, 0x4000000000000000, 0x000123456789abcd, 0x3fb999999999999a, 0x7fefffffffffffff, 0xbff0000000000000, 0x7ff0000000000000};
    static const uint64_t known[] = {0x1e60000000000000, 0x1e70000000000000, 0x3ff6a09e667f3bcd};
    for (size_t i = 0; i < sizeof of / sizeof *of; i++) {
        double x;
        memcpy(&x, &of[i], sizeof x);
        x = to->library->root(x);
        called(to, 0);
        put(to, &x, sizeof x);
        if (to->library == &users && i < 3 && memcmp(&x, &known[i], sizeof x) != 0)
            fail("root", "not the known one");
    }
}

/* The events of a leg of two samples along two points and the end of the path. */
static void events(struct answers *to, const double samples[6])
{
    static const double offsets[3] = {0, 12.3, 112.7};
    static const uint32_t links[3] = {1, 2, 0};
    double list[3 * EVENTS];
    uint32_t of[2 * EVENTS], count;
    memset(list, 0xa5, sizeof list);
    memset(of, 0xa5, sizeof of);
    uint32_t number = to->library->make_events(7.1, (const uint8_t *)samples, 48, offsets, 3, links, 3, list, 3 * EVENTS, of, 2 * EVENTS, &count);
    called(to, number);
    put(to, list, sizeof list);
    put(to, of, sizeof of);
    put(to, &count, sizeof count);
}

/* A leg with events whose every operation is rounded; one whose first step takes the shortest time there is, so that the times rise; one whose don't. */
static void event_lists(struct answers *to)
{
    static const double rounded[6] = {0, 10.1, 0.7, 7.3, 34.9, 5.9};
    static const double shortest[6] = {0, 10, 0, SMALLEST, 10, 0};
    static const double falling[6] = {4, 10, 0, 3, 18, 4};
    events(to, rounded);
    events(to, shortest);
    events(to, falling);
}

static uint8_t listing[LONGEST];

/* The listing of the table, and how long it is. */
static size_t list(struct answers *to, const struct keldurap_report *report)
{
    size_t length;
    called(to, to->library->list_sheet(TABLE, report, listing, sizeof listing, &length));
    put(to, listing, length);
    return length;
}

/* A chain of five nodes, so many seconds apart and timed from a departure, then listed; `last` is the last one's next. */
static void node_table(struct answers *to, double step, double departure, uint32_t last)
{
    uint32_t nodes;
    refill();
    memset(floats, 0, 5 * KELDURAP_PLACE_FLOATS * sizeof *floats);
    for (uint32_t i = 0; i < 5; i++) {
        const uint32_t node[KELDURAP_PLACE_NUMBERS] = {i < 4 ? i + 1 : last, 0, i > 1 ? i - 1 : 0, 0, 1, i > 1 && i < 4 ? 0 : 2};
        memcpy(numbers + KELDURAP_PLACE_NUMBERS * i, node, sizeof node);
        floats[KELDURAP_PLACE_FLOATS * i + 1] = i > 0 && i < 4 ? step : 0;
    }
    uint32_t number = to->library->update_times(floats, KELDURAP_PLACE_FLOATS * 5, numbers, KELDURAP_PLACE_NUMBERS * 5, departure, WORK, &nodes);
    called(to, number);
    put_table(to);
    put(to, &nodes, sizeof nodes);
    struct keldurap_report report = {nodes, 0, 0, 0, 0};
    list(to, &report);
}

/* A table whose sums are rounded; one whose times are the smallest above 0; one with an index that names nothing. */
static void node_tables(struct answers *to)
{
    node_table(to, 0.1, 0.3, 0);
    node_table(to, SMALLEST, 0, 0);
    node_table(to, 0.1, 0.3, 5);
}

/* A book by each function that takes one, and its listing. */
static void answer_book(struct answers *to, const struct book *book)
{
    struct keldurap_report report;
    size_t length;
    refill();
    called(to, to->library->check_book(book->bytes, book->length, PLACES, WORK));
    refill();
    called(to, to->library->grow_network(book->bytes, book->length, TABLE, WORK, &report));
    put_table(to);
    put(to, &report, sizeof report);
    refill();
    uint32_t number = to->library->make_est_times(book->bytes, book->length, TABLE, WORK, &report);
    called(to, number);
    put_table(to);
    put(to, &report, sizeof report);
    called(to, to->library->list_sheet(TABLE, &report, listing, 9, &length));
    called(to, to->library->list_sheet(floats, 0, numbers, 0, &report, listing, sizeof listing, &length));
    length = list(to, &report);
    int is_stored = book->sheet_length == 0 || (number == 0 && length == book->sheet_length && memcmp(listing, book->sheet, length) == 0);
    if (to->library == &users && !is_stored)
        fail(book->name, "not the stored sheet");
}

/* All answers of a library in the mode that the thread is in. */
static void answer(struct answers *to, const struct library *library, const struct book *books, size_t count)
{
    to->library = library;
    to->mode = mode_now();
    to->kept = 1;
    to->length = 0;
    roots(to);
    event_lists(to);
    node_tables(to);
    for (size_t i = 0; i < count; i++)
        answer_book(to, &books[i]);
}

/* A mode to call from: a rounding, bits of the control register, exceptions that trap, flags that are raised; and whether answers can differ in it. */
struct caller {
    const char *name;
    int rounding;
    unsigned control;
    int traps, flags, differs;
};
static const struct caller callers[] = {
    {"nearest", FE_TONEAREST, 0, 0, 0, 0},
    {"nearest, flags raised", FE_TONEAREST, 0, 0, FE_DIVBYZERO | FE_OVERFLOW, 0},
    {"upward", FE_UPWARD, 0, 0, 0, 1},
    {"downward", FE_DOWNWARD, 0, 0, FE_INVALID, 1},
    {"toward zero", FE_TOWARDZERO, 0, 0, 0, 1},
    {"results flushed to zero", FE_TONEAREST, FLUSH_RESULTS, 0, 0, 1},
    {"operands flushed to zero", FE_TONEAREST, FLUSH_OPERANDS, 0, 0, 1},
    {"both flushed to zero, upward", FE_UPWARD, FLUSH_RESULTS | FLUSH_OPERANDS, 0, FE_INEXACT, 1},
    {"exceptions trap", FE_TONEAREST, 0, FE_ALL_EXCEPT, 0, 0},
    {"exceptions trap, toward zero", FE_TOWARDZERO, 0, FE_INEXACT | FE_INVALID, 0, 1},
};

static void set(const struct caller *caller)
{
    fesetenv(FE_DFL_ENV);
    fesetround(caller->rounding);
    _mm_setcsr(_mm_getcsr() | caller->control);
    feraiseexcept(caller->flags);
    feenableexcept(caller->traps);
}

/* Whether the archive's own functions are ended by a trap in this mode. */
static int is_trapped(const struct caller *caller, struct answers *answers, const struct book *books, size_t count)
{
    int status;
    pid_t child = fork();
    if (child == 0) {
        set(caller);
        answer(answers, &raw, books, count);
        _exit(0);
    }
    return child > 0 && waitpid(child, &status, 0) == child && WIFSIGNALED(status) && WTERMSIG(status) == SIGFPE;
}

static int is_same(const struct answers *a, const struct answers *b)
{
    return a->length == b->length && memcmp(a->bytes, b->bytes, a->length) == 0;
}

/* The users' functions in the mode that the thread is in: the bits of the default mode, and the mode kept. */
static void test_users(const char *name, struct answers *answers, const struct answers *expected, const struct book *books, size_t count)
{
    answer(answers, &users, books, count);
    fesetenv(FE_DFL_ENV);
    if (!is_same(answers, expected))
        fail(name, "other bits than in the default mode");
    if (!answers->kept)
        fail(name, "mode and flags are not the caller's afterwards");
}

/* The archive's own in a mode: it traps, or has other answers where it can, and other flags. */
static void test_raw(const struct caller *caller, struct answers *answers, const struct answers *expected, const struct book *books, size_t count)
{
    if (caller->traps != 0) {
        if (!is_trapped(caller, answers, books, count))
            fail(caller->name, "the archive's own functions don't trap: the test sees nothing");
        return;
    }
    set(caller);
    answer(answers, &raw, books, count);
    fesetenv(FE_DFL_ENV);
    if (is_same(answers, expected) == caller->differs || answers->kept)
        fail(caller->name, "the archive's own functions answer as in the default mode: the test sees nothing");
}

/* As much of a file as a slice has room for; 0 where it can't be read. */
static size_t read_into(const char *name, uint8_t *bytes, size_t room)
{
    FILE *file = fopen(name, "rb");
    if (file == NULL)
        return 0;
    size_t length = fread(bytes, 1, room, file);
    fclose(file);
    return length;
}

static void read_book(struct book *book, const char *name)
{
    char sheet[4096];
    size_t stem = strlen(name) - strlen(".book");
    if (snprintf(sheet, sizeof sheet, "%.*s.sheet", (int)stem, name) >= (int)sizeof sheet || access(name, R_OK) != 0)
        fail(name, "can't be read");
    book->name = name;
    book->length = read_into(name, book->bytes, sizeof book->bytes);
    book->sheet_length = read_into(sheet, book->sheet, sizeof book->sheet);
}

/* The worked book, 256 bytes, with the least time there is between two samples of leg 2: the second one's time stands at byte 208. */
static void hasten(struct book *to, const struct book *books, size_t count)
{
    const double smallest = SMALLEST;
    for (size_t i = 0; i < count; i++)
        if (books[i].length == 256 && books[i].sheet_length > 0)
            *to = books[i];
    if (to->length == 0)
        fail("books", "the worked book is not among them");
    to->sheet_length = 0;
    memcpy(to->bytes + 208, &smallest, sizeof smallest);
}

int main(int count, char **names)
{
    static struct answers expected, answers;
    unsigned started = _mm_getcsr();
    size_t books = (size_t)count;
    struct book *all = calloc(books, sizeof *all);
    if (all == NULL)
        fail("books", "no memory");
    for (size_t i = 0; i + 1 < books; i++)
        read_book(&all[i], names[i + 1]);
    hasten(&all[books - 1], all, books - 1);
    fesetenv(FE_DFL_ENV);
    answer(&expected, &raw, all, books);
    _mm_setcsr(started);
    test_users("as started", &answers, &expected, all, books);
    for (size_t i = 0; i < sizeof callers / sizeof *callers; i++) {
        set(&callers[i]);
        test_users(callers[i].name, &answers, &expected, all, books);
        test_raw(&callers[i], &answers, &expected, all, books);
    }
#ifdef __FAST_MATH__
    if ((started & (FLUSH_RESULTS | FLUSH_OPERANDS)) == 0)
        fail("-ffast-math", "the program is started in the default mode: the test sees nothing");
#endif
    printf("%zu bytes of answers in each of %zu modes\n", expected.length, sizeof callers / sizeof *callers + 1);
    free(all);
    return 0;
}
