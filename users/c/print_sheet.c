/* print_sheet BOOK [PLACES]: prints the listing of a book's sheet, or `refused N`.
 * PLACES is how many nodes the table has places for, 65,535 if it is left out.
 * Exit status: 0 a sheet, 1 a refusal, also where nobody reads it to its end (a closed pipe); 2 wrong words, a file error, no memory, or standard output
 * that is closed or full, with a message that names it. */
#define _POSIX_C_SOURCE 200809L
#include "keldurap.h"

#include <errno.h>
#include <signal.h>
#include <stdio.h>
#include <stdlib.h>
#include <string.h>

enum { SHEET = 0, REFUSAL = 1, ERROR = 2 };

struct book {
    uint8_t *bytes;
    size_t length;
};

/* Everything that is lent for one call. */
struct room {
    double *floats, *reals;
    uint32_t *numbers, *cells, *marks;
    size_t places, units;
};

/* Says what is wrong, and with what. */
static int error(const char *what, const char *why)
{
    fprintf(stderr, "print_sheet: %s: %s\n", what, why);
    return ERROR;
}

/* Memory for a slice, never null for one of no elements. */
static void *slice(size_t count, size_t size)
{
    return malloc(count > 0 ? count * size : 1);
}

/* Reads what is left of a file, one byte more than a book can have at most. */
static int read_file(FILE *file, const char *name, struct book *book)
{
    size_t room = 0;
    do {
        room = room == 0 ? 65536 : 2 * room;
        if (room > KELDURAP_BOOK_MAX)
            room = KELDURAP_BOOK_MAX + 1;
        uint8_t *bytes = realloc(book->bytes, room);
        if (bytes == NULL)
            return error(name, "no memory");
        book->bytes = bytes;
        book->length += fread(bytes + book->length, 1, room - book->length, file);
        if (ferror(file))
            return error(name, strerror(errno));
    } while (book->length == room && room <= KELDURAP_BOOK_MAX);
    if (book->length > KELDURAP_BOOK_MAX)
        return error(name, "longer than any book");
    return 0;
}

static int read_book(const char *name, struct book *book)
{
    FILE *file = fopen(name, "rb");
    if (file == NULL)
        return error(name, strerror(errno));
    int status = read_file(file, name, book);
    fclose(file);
    return status;
}

/* Lends a table of so many places and the work space that row 3 asks for. */
static int lend(struct room *room, const struct book *book, size_t places)
{
    room->places = places;
    room->units = keldurap_units(book->bytes, book->length, places);
    room->floats = slice(places, KELDURAP_PLACE_FLOATS * sizeof *room->floats);
    room->numbers = slice(places, KELDURAP_PLACE_NUMBERS * sizeof *room->numbers);
    room->reals = slice(room->units, KELDURAP_UNIT_REALS * sizeof *room->reals);
    room->cells = slice(room->units, KELDURAP_UNIT_CELLS * sizeof *room->cells);
    room->marks = slice(room->units, KELDURAP_UNIT_MARKS * sizeof *room->marks);
    if (!room->floats || !room->numbers || !room->reals || !room->cells || !room->marks)
        return error("table and work space", "no memory");
    return 0;
}

static void give_back(struct room *room)
{
    free(room->floats);
    free(room->numbers);
    free(room->reals);
    free(room->cells);
    free(room->marks);
}

static uint32_t make(struct room *room, const struct book *book, struct keldurap_report *report)
{
    return keldurap_make_est_times(book->bytes, book->length,
        room->floats, KELDURAP_PLACE_FLOATS * room->places, room->numbers, KELDURAP_PLACE_NUMBERS * room->places,
        room->reals, KELDURAP_UNIT_REALS * room->units, room->cells, KELDURAP_UNIT_CELLS * room->units,
        room->marks, KELDURAP_UNIT_MARKS * room->units,
        report);
}

/* Writes an answer to standard output, and gives its status. A pipe that nobody reads any more is no error: who reads takes as much as he wants. */
static int print(const void *answer, size_t length, int status)
{
    int written = fwrite(answer, 1, length, stdout) == length && fflush(stdout) == 0;
    return written || errno == EPIPE ? status : error("standard output", strerror(errno));
}

/* Prints the listing of a sheet. */
static int print_listing(const struct room *room, const struct keldurap_report *report)
{
    size_t length, size = KELDURAP_LISTING_MAX(report->nodes);
    uint8_t *text = slice(size, 1);
    if (text == NULL)
        return error("listing", "no memory");
    uint32_t answer = keldurap_list_sheet(room->floats, KELDURAP_PLACE_FLOATS * room->places, room->numbers, KELDURAP_PLACE_NUMBERS * room->places,
        report, text, size, &length);
    int status;
    if (answer != 0)
        status = error("listing", answer == KELDURAP_LISTING_SHORT ? "the slice is too short" : "the table has fewer nodes");
    else
        status = print(text, length, SHEET);
    free(text);
    return status;
}

static int print_sheet(struct room *room, const struct book *book)
{
    struct keldurap_report report;
    uint32_t number = make(room, book, &report);
    if (number == 0)
        return print_listing(room, &report);
    char text[32];
    return print(text, (size_t)sprintf(text, "refused %u\n", (unsigned)number), REFUSAL);
}

/* A book's sheet on a table of so many places. */
static int answer(const char *name, size_t places)
{
    struct book book = {NULL, 0};
    struct room room = {NULL, NULL, NULL, NULL, NULL, 0, 0};
    int status = read_book(name, &book);
    if (status == 0)
        status = lend(&room, &book, places);
    if (status == 0)
        status = print_sheet(&room, &book);
    give_back(&room);
    free(book.bytes);
    return status;
}

/* Reads the number of places; 0 if it isn't one from 0 to 65,535. */
static int read_places(const char *word, size_t *places)
{
    if (*word == '\0' || strlen(word) > 5 || strspn(word, "0123456789") != strlen(word))
        return 0;
    *places = strtoul(word, NULL, 10);
    return *places <= KELDURAP_PLACES_MAX;
}

int main(int count, char **words)
{
    size_t places = KELDURAP_PLACES_MAX;
    if (count < 2 || count > 3 || (count == 3 && !read_places(words[2], &places))) {
        fprintf(stderr, "print_sheet BOOK [PLACES]   (PLACES: 0 to 65535)\n");
        return ERROR;
    }
    /* so that writing to a closed pipe is answered by EPIPE and doesn't end the program */
    signal(SIGPIPE, SIG_IGN);
    return answer(words[1], places);
}
