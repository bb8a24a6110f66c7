/* Reads a page from a file, prints its record, and writes its samples as pictures that any viewer opens.
 *
 * The record's last nine lines tell where the bytes of the file went: how many, and their share in per cent. They add up to the file; a refused page has none.
 * Of a refused page three lines say why: the field that decided, by its name in docs/FIELDS.md, the value found there and the value or range expected.
 *
 * One component becomes a PGM, three of one size and precision a PPM; of any other page each component becomes a PGM of its own, PICTURE.0 and so on.
 * Samples of more than 8 bits take two bytes, the high one first. A comment line for each component has its distance.
 *
 * With --damaged slices that are damaged are lost, and the rest of the page is read. Each component then has a mask beside its samples, a PGM of 8 bits that is
 * white where they are lost and black elsewhere: PICTURE.lost, or of several components PICTURE.0.lost and so on.
 *
 * With --distances each sample has a distance of its own. They are told of in a line for each component, and stand beside its samples as a PGM of 16 bits:
 * PICTURE.distance, or of several components PICTURE.0.distance and so on.
 *
 * With --why it only says why a page is refused, as the program `why` does, or of one that is read where each component is coarsest: the lowest band that has the
 * largest truncation, and the first precinct with it there. With --damaged or --distances too it speaks of that reading, and then of refused pages alone.
 *
 * The status is 0 where the page is read, 3 where it is read and samples are lost, 1 where it is refused, 2 where it could not be tried or written. */
#include <errno.h>
#include <stdio.h>
#include <stdlib.h>
#include <string.h>
#include "../include/pitchladle.h"

enum { READ = 0, REFUSED = 1, FAILED = 2, LOST = 3 };

static const char *const meanings[] = {
    "the page is read",
    "the stream ends before a header field or marker segment does",
    "a marker is unknown, repeated, missing or misplaced, or bytes follow the end marker",
    "a field has a reserved or forbidden value, or contradicts an earlier field",
    "the standard allows it, this reader does not have it",
    "a lent buffer is too short",
    "a length does not fit",
    "a bitplane count is not from 0 to 31",
    "a prediction or a raw flag is chosen where it may not be",
};

static int failed(const char *what)
{
    fprintf(stderr, "%s: %s\n", what, strerror(errno));
    return FAILED;
}

/* A buffer that is never empty: the library wants a pointer even for no cells. */
static void *room_for(uint64_t cells, size_t cell)
{
    return cells >= PTRDIFF_MAX / cell ? NULL : calloc(cells + 1, cell);
}

/* All bytes of the file, or a null pointer. */
static uint8_t *contents(const char *name, size_t *size)
{
    FILE *file = fopen(name, "rb");
    uint8_t *bytes = NULL;
    size_t held = 0, room = 0;
    if (!file)
        return NULL;
    while (!feof(file) && !ferror(file)) {
        if (held == room) {
            uint8_t *more = realloc(bytes, room = 2 * room + 65536);
            if (!more)
                break;
            bytes = more;
        }
        held += fread(bytes + held, 1, room - held, file);
    }
    if (!feof(file)) {
        free(bytes);
        bytes = NULL;
    }
    fclose(file);
    *size = held;
    return bytes;
}

/* What is asked for beside the samples. */
struct options {
    int damaged, distances, why;
};

/* What a page is read into, cell by cell of its samples. Marks and distances are null pointers where they are not asked for. */
struct buffers {
    uint64_t cells;
    uint16_t *samples;
    int64_t *work;
    uint8_t *marks;
    uint16_t *distances;
};

static struct buffers buffers_for(uint64_t cells, struct options asked)
{
    struct buffers b = {cells, room_for(cells, sizeof *b.samples), room_for(2 * cells, sizeof *b.work), NULL, NULL};
    if (asked.damaged)
        b.marks = room_for(cells, sizeof *b.marks);
    if (asked.distances)
        b.distances = room_for(cells, sizeof *b.distances);
    return b;
}

static int all_there(const struct buffers *b, struct options asked)
{
    return b->samples && b->work && (b->marks || !asked.damaged) && (b->distances || !asked.distances);
}

static void give_back(struct buffers *b)
{
    free(b->samples);
    free(b->work);
    free(b->marks);
    free(b->distances);
}

static uint64_t area_of(const struct pitchladle_component *c)
{
    return c->width * c->height;
}

/* How many of the first `count` samples are marked. */
static uint64_t lost_among(const uint8_t *marks, uint64_t count)
{
    uint64_t lost = 0;
    for (uint64_t i = 0; i < count; i++)
        lost += marks[i];
    return lost;
}

static void print_lost(const struct buffers *b, uint64_t i, uint64_t first, uint64_t area)
{
    printf("component %llu lost %llu of %llu\n", (unsigned long long)i, (unsigned long long)lost_among(b->marks + first, area), (unsigned long long)area);
}

/* The largest distance among the samples that are not lost, and how many of them have 0. */
static void print_distances(const struct buffers *b, uint64_t i, uint64_t first, uint64_t area)
{
    uint64_t largest = 0, exact = 0;
    for (uint64_t at = first; at < first + area; at++) {
        if (b->marks && b->marks[at])
            continue;
        if (b->distances[at] > largest)
            largest = b->distances[at];
        exact += b->distances[at] == 0;
    }
    printf("component %llu largest %llu exact %llu of %llu\n", (unsigned long long)i, (unsigned long long)largest, (unsigned long long)exact,
           (unsigned long long)area);
}

/* `first` is the cell at which a component begins. */
static void print_components(const struct pitchladle_page *page, const struct buffers *b)
{
    uint64_t first = 0;
    for (uint64_t i = 0; i < page->components; i++) {
        const struct pitchladle_component *c = &page->component[i];
        printf("component %llu width %llu height %llu precision %llu distance %llu\n", (unsigned long long)i, (unsigned long long)c->width,
               (unsigned long long)c->height, (unsigned long long)c->precision, (unsigned long long)c->distance);
        if (b->marks)
            print_lost(b, i, first, area_of(c));
        if (b->distances)
            print_distances(b, i, first, area_of(c));
        first += area_of(c);
    }
}

/* Of a stream of `length` bytes so many went to what is named. The share is rounded half up, by whole numbers: no float moves it. */
static void print_share(const char *name, uint64_t bytes, uint64_t length)
{
    uint64_t hundredths = (20000 * bytes + length) / (2 * length);
    printf("bytes %s %llu %llu.%02llu %%\n", name, (unsigned long long)bytes, (unsigned long long)(hundredths / 100), (unsigned long long)(hundredths % 100));
}

static void print_bytes(const struct pitchladle_bytes *b, uint64_t length)
{
    print_share("markers", b->markers, length);
    print_share("precincts", b->precincts, length);
    print_share("packets", b->packets, length);
    print_share("significance", b->significance, length);
    print_share("counts", b->counts, length);
    print_share("data", b->data, length);
    print_share("signs", b->signs, length);
    print_share("filler", b->filler, length);
    print_share("spoilt", b->spoilt, length);
}

/* A value that was found or is expected: codes are printed in hexadecimal. */
static void print_value(const struct pitchladle_reason *reason, const char *before, uint64_t value)
{
    printf(reason->codes ? "%s0x%04llx" : "%s%llu", before, (unsigned long long)value);
}

/* The value or range that would have been allowed. */
static void print_expected(const struct pitchladle_reason *reason)
{
    int open = reason->most == PITCHLADLE_NO_MOST;
    print_value(reason, open ? "expected at least " : "expected ", reason->least);
    if (!open && reason->least != reason->most)
        print_value(reason, " to ", reason->most);
    putchar('\n');
}

/* What was found, and what was expected. Rule 1 counts bytes and rule 5 cells: what is there, and what is needed. */
static void print_numbers(const struct pitchladle_reason *reason)
{
    const char *counted = reason->answer == 1 ? "bytes left " : reason->answer == 5 ? "cells lent " : NULL;
    print_value(reason, counted ? counted : "found ", reason->found);
    putchar('\n');
    if (counted)
        printf("%s needed %llu\n", reason->answer == 1 ? "bytes" : "cells", (unsigned long long)reason->least);
    else
        print_expected(reason);
}

static void print_answer(uint64_t answer, uint64_t place)
{
    printf("answer %llu at %llu\n", (unsigned long long)answer, (unsigned long long)place);
}

/* Why the page is refused by the reading that is asked for, where n cells of each plane and 2 n work cells are lent; `sentence` where the answer's meaning is to
 * stand below it. Of a page that is read nothing but the answer. */
static int print_reason(const uint8_t *stream, size_t size, struct options asked, int64_t *work, uint64_t n, int sentence)
{
    struct pitchladle_reason reason;
    char name[PITCHLADLE_NAME_BYTES];
    uint64_t mode = (asked.damaged ? PITCHLADLE_DAMAGED : 0) + (asked.distances ? PITCHLADLE_PLACES : 0);
    pitchladle_why(stream, size, mode, n, work, 2 * n, n, n, &reason, name);
    print_answer(reason.answer, reason.place);
    if (reason.answer == 0)
        return READ;
    if (sentence)
        printf("refused: %s\n", reason.answer < 9 ? meanings[reason.answer] : "?");
    printf("field %s\n", name);
    print_numbers(&reason);
    return REFUSED;
}

/* Where each component of a page that is read is coarsest. */
static void print_coarsest(const uint8_t *stream, size_t size, int64_t *work, uint64_t n)
{
    struct pitchladle_coarsest coarsest;
    pitchladle_coarsest(stream, size, n, work, 2 * n, &coarsest);
    for (uint64_t i = 0; i < coarsest.components; i++) {
        const struct pitchladle_coarse *c = &coarsest.component[i];
        printf("component %llu band %llu precinct %llu truncation %llu\n", (unsigned long long)i, (unsigned long long)c->band, (unsigned long long)c->precinct,
               (unsigned long long)c->truncation);
    }
}

static void print_record(const struct pitchladle_page *page, const struct buffers *b)
{
    print_components(page, b);
    printf("caption %s\n", page->caption ? "yes" : "no");
    print_bytes(&page->bytes, page->place);
}

static int closed(FILE *file, const char *name)
{
    int bad = ferror(file);
    return fclose(file) != 0 || bad ? failed(name) : READ;
}

/* A plane of a page, cell by cell: the samples, or what stands beside them. */
struct plane {
    const char *ending; /* of its files' names */
    uint64_t white;     /* the largest that a cell can be; 0: as the component's precision says */
    int comments;       /* whether comment lines have the distances */
    uint64_t (*cell)(const struct buffers *b, uint64_t at);
};

static uint64_t sample_at(const struct buffers *b, uint64_t at)
{
    return b->samples[at];
}

static uint64_t mask_at(const struct buffers *b, uint64_t at)
{
    return b->marks[at] ? 255 : 0;
}

static uint64_t distance_at(const struct buffers *b, uint64_t at)
{
    return b->distances[at];
}

static const struct plane sample_plane = {"", 0, 1, sample_at};
static const struct plane lost_plane = {".lost", 255, 0, mask_at};
static const struct plane distance_plane = {".distance", 65535, 0, distance_at};

static void put_cell(FILE *file, uint64_t cell, uint64_t white)
{
    if (white > 255)
        putc(cell >> 8, file);
    putc(cell & 255, file);
}

/* `count` components of one size and precision, from component i on, whose cells begin at `first`. */
static int write_file(const char *name, const struct plane *p, const struct pitchladle_page *page, uint64_t i, uint64_t count, const struct buffers *b,
                      uint64_t first)
{
    const struct pitchladle_component *c = &page->component[i];
    uint64_t area = area_of(c), white = p->white ? p->white : (1ULL << c->precision) - 1;
    FILE *file = fopen(name, "wb");
    if (!file)
        return failed(name);
    fprintf(file, count == 3 ? "P6\n" : "P5\n");
    for (uint64_t k = 0; p->comments && k < count; k++)
        fprintf(file, "# component %llu distance %llu\n", (unsigned long long)(i + k), (unsigned long long)c[k].distance);
    fprintf(file, "%llu %llu\n%llu\n", (unsigned long long)c->width, (unsigned long long)c->height, (unsigned long long)white);
    for (uint64_t at = 0; at < area; at++)
        for (uint64_t k = 0; k < count; k++)
            put_cell(file, p->cell(b, first + k * area + at), white);
    return closed(file, name);
}

static int alike(const struct pitchladle_component *a, const struct pitchladle_component *b)
{
    return a->width == b->width && a->height == b->height && a->precision == b->precision;
}

/* The name of one file of several, NAME.I and the ending; of a single one NAME and the ending. A null pointer where there is no memory. */
static char *name_of(const char *name, int several, uint64_t i, const char *ending)
{
    char *own = malloc(strlen(name) + strlen(ending) + 3);
    if (own && several)
        sprintf(own, "%s.%d%s", name, (int)i, ending);
    else if (own)
        sprintf(own, "%s%s", name, ending);
    return own;
}

/* Each component of a plane, in a file of its own. */
static int write_plane(const char *name, const struct plane *p, const struct pitchladle_page *page, const struct buffers *b)
{
    uint64_t first = 0;
    int status = READ;
    for (uint64_t i = 0; i < page->components && status == READ; i++) {
        char *own = name_of(name, page->components > 1, i, p->ending);
        if (!own)
            return failed(name);
        status = write_file(own, p, page, i, 1, b, first);
        first += area_of(&page->component[i]);
        free(own);
    }
    return status;
}

static int write_samples(const char *name, const struct pitchladle_page *page, const struct buffers *b)
{
    const struct pitchladle_component *c = page->component;
    if (page->components == 3 && alike(&c[0], &c[1]) && alike(&c[0], &c[2]))
        return write_file(name, &sample_plane, page, 0, 3, b, 0);
    return write_plane(name, &sample_plane, page, b);
}

/* The samples, and beside them what was asked for. */
static int write_pictures(const char *name, const struct pitchladle_page *page, const struct buffers *b)
{
    int status = write_samples(name, page, b);
    if (b->marks && status == READ)
        status = write_plane(name, &lost_plane, page, b);
    if (b->distances && status == READ)
        status = write_plane(name, &distance_plane, page, b);
    return status;
}

/* The record, and where a picture is wanted the files; of a refused page why it is. */
static int show(const struct pitchladle_page *page, const struct buffers *b, const uint8_t *stream, size_t size, const char *picture, struct options asked)
{
    int status = READ;
    if (page->answer != 0)
        return print_reason(stream, size, asked, b->work, b->cells, 1);
    print_answer(page->answer, page->place);
    print_record(page, b);
    if (picture)
        status = write_pictures(picture, page, b);
    if (status == READ && b->marks && lost_among(b->marks, b->cells) > 0)
        return LOST;
    return status;
}

static void read_into(const struct buffers *b, const uint8_t *stream, size_t size, struct pitchladle_page *page)
{
    uint64_t n = b->cells;
    if (b->marks && b->distances)
        pitchladle_read_damaged_places(stream, size, b->samples, n, b->work, 2 * n, b->marks, n, b->distances, n, page);
    else if (b->marks)
        pitchladle_read_damaged(stream, size, b->samples, n, b->work, 2 * n, b->marks, n, page);
    else if (b->distances)
        pitchladle_read_places(stream, size, b->samples, n, b->work, 2 * n, b->distances, n, page);
    else
        pitchladle_read(stream, size, b->samples, n, b->work, 2 * n, page);
}

static int read_page(const char *name, const uint8_t *stream, size_t size, const char *picture, struct options asked)
{
    struct pitchladle_page page;
    struct buffers b = buffers_for(pitchladle_needs(stream, size), asked);
    int status = FAILED;
    if (all_there(&b, asked)) {
        read_into(&b, stream, size, &page);
        status = show(&page, &b, stream, size, picture, asked);
    } else {
        int bytes = 18 + asked.damaged + 2 * asked.distances;
        fprintf(stderr, "%s: no memory for %llu samples, at %d bytes each\n", name, (unsigned long long)b.cells, bytes);
    }
    give_back(&b);
    return status;
}

/* Nothing but why the page is refused, or where it is coarsest. No cell of a plane is needed for it. */
static int explain(const char *name, const uint8_t *stream, size_t size, struct options asked)
{
    uint64_t n = pitchladle_needs(stream, size);
    int64_t *work = room_for(2 * n, sizeof *work);
    int status = FAILED;
    if (work) {
        status = print_reason(stream, size, asked, work, n, 0);
        if (status == READ && !asked.damaged && !asked.distances)
            print_coarsest(stream, size, work, n);
    } else {
        fprintf(stderr, "%s: no memory for %llu samples, at 16 bytes each\n", name, (unsigned long long)n);
    }
    free(work);
    return status;
}

static int usage(const char *program)
{
    fprintf(stderr,
            "usage: %s [--damaged] [--distances] FILE [PICTURE]\n"
            "       %s --why [--damaged] [--distances] FILE\n"
            "reads the page in FILE, prints its record and where its bytes went, and writes its samples to PICTURE; with --damaged behind damaged slices too,\n"
            "and PICTURE.lost is white where samples are lost; with --distances PICTURE.distance has a distance for each sample\n"
            "with --why: only prints why it is refused, or of a page that is read where each component is coarsest\n",
            program, program);
    return FAILED;
}

static int is_option(const char *word)
{
    return strncmp(word, "--", 2) == 0;
}

/* Whether the word is an option, which is then asked for. */
static int ask(struct options *asked, const char *word)
{
    if (strcmp(word, "--damaged") == 0)
        return asked->damaged = 1;
    if (strcmp(word, "--distances") == 0)
        return asked->distances = 1;
    if (strcmp(word, "--why") == 0)
        return asked->why = 1;
    return 0;
}

int main(int count, char **words)
{
    struct options asked = {0, 0, 0};
    int first = 1;
    while (first < count && ask(&asked, words[first]))
        first++;
    char **names = words + first;
    int given = count - first;
    if (given < 1 || given > 2 || (given == 2 && asked.why) || is_option(names[0]) || (given == 2 && is_option(names[1])))
        return usage(words[0]);
    size_t size;
    uint8_t *stream = contents(names[0], &size);
    if (!stream)
        return failed(names[0]);
    int status = asked.why ? explain(names[0], stream, size, asked) : read_page(names[0], stream, size, given == 2 ? names[1] : NULL, asked);
    free(stream);
    return status;
}
