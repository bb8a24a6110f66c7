/* Pitchladle: reads pages that are stored as JPEG XS (ISO/IEC 21122-1:2024), and says how far a sample may be off.
 *
 * What a function promises here is proved, for every stream and whatever the lent buffers hold: crates/pitchladle, crates/reader and crates/reasons have the
 * statements. It keeps no state, asks for no memory, and writes to nothing but the buffers that it is lent.
 *
 * What the caller must see to, and nothing else does:
 *   - a pointer is valid for as many cells as the count behind it says, `page`, `reason` and `coarsest` for one struct, `name` for PITCHLADLE_NAME_BYTES bytes, and aligned for
 *     its type; it is not null, even where the count is 0;
 *   - the buffers of one call do not overlap; during the call no other thread writes to any of them, or reads those that the call writes to: samples, work cells,
 *     marks, distances, record, reason, name and what is coarsest;
 *   - the program is one for x86-64, linked with libpitchladle.a. */
#ifndef PITCHLADLE_H
#define PITCHLADLE_H

#include <stddef.h>
#include <stdint.h>

#ifdef __cplusplus
extern "C" {
#endif

/* The answer, and with it its place: the offset in the stream of the field that decided.
 *   0  the page is read; the place is the stream's length
 *   1  the stream ends before a header field or marker segment does
 *   2  a marker is unknown, repeated, missing or misplaced, or bytes follow the end marker
 *   3  a field has a reserved or forbidden value, or contradicts an earlier field
 *   4  the standard allows it, and this reader does not have it
 *   5  a lent buffer is too short
 *   6  a length does not fit: the stream's, a precinct's, a packet's or a subpacket's
 *   7  a bitplane count is not from 0 to 31
 *   8  a prediction or a raw flag is chosen where it may not be
 * pitchladle_read_damaged and pitchladle_read_damaged_places answer 0 to 6. */

/* One component of a page: its size in samples, the bits of a sample (8 to 16), and the distance. No sample of the component is further than its distance
 * from the one that the page's whole-number coefficients gave before they were quantised, if that was done as D.4 or D.5 of the standard say and each coefficient
 * was below 2^max(M, T) in size, as the bitplane counts M of D.6 make them (T is the truncation position). A distance of 0 says that quantisation moved no sample
 * of such coefficients; on pages with fractional bits (Bw 20) the rounding to whole coefficients before it is not counted. */
struct pitchladle_component {
    uint64_t width, height, precision, distance;
};

/* Where the bytes of the stream went, counted by what they hold. Each byte of the stream is counted once: of a page that is read the nine add up to the stream's
 * length, which `place` is then. Of a page that is refused all nine are 0.
 * `significance`, `counts`, `data` and `signs` carry the picture; what pads one of them to a whole byte is counted with it. `filler` is room that is paid for and
 * holds nothing: the samples would be the same without it. `markers`, `precincts` and `packets` are what it takes to find the way to the rest. */
struct pitchladle_bytes {
    uint64_t markers;      /* the marker at the stream's beginning, the segments up to the first slice with their markers (extension segments, and captions in
                              them, too), the slice headers, and the end marker */
    uint64_t precincts;    /* precinct headers */
    uint64_t packets;      /* packet headers */
    uint64_t significance; /* significance subpackets: which groups of coefficients have any bits at all */
    uint64_t counts;       /* bitplane count subpackets: how many bits each group has */
    uint64_t data;         /* data subpackets: the bits of the coefficients, and their signs too where the page has no sign subpackets */
    uint64_t signs;        /* sign subpackets, where the page has them */
    uint64_t filler;       /* behind what a count, data or sign subpacket holds, bytes that its length declares and that hold nothing */
    uint64_t spoilt;       /* the precincts of slices that are lost, whole, with their headers: nothing of them is in the numbers above, but their slice headers
                              are in `markers`. Only pitchladle_read_damaged and pitchladle_read_damaged_places lose slices; else 0 */
};

/* The page record. Of a page that is refused all is 0 but answer and place. A bench caption is an extension segment of type 0x8B01 before the first slice header,
 * if only an empty one; the record tells that one is there, and nothing of what it says. */
struct pitchladle_page {
    uint64_t answer, place;
    uint64_t components;                      /* 1 to 4 */
    uint64_t caption;                         /* 1 where a bench caption is there, else 0 */
    struct pitchladle_component component[4]; /* 0 from `components` on */
    struct pitchladle_bytes bytes;
};

/* Reads a page. With N as pitchladle_needs says, it takes N sample cells and 2 N work cells; more may be lent, and with fewer the answer is 5.
 *   The record is written whole.
 *   Samples stand component by component, row by row, from the first cell on. Where the page is refused no sample cell is changed, and where it is
 *   read none behind the N is.
 *   The work cells may hold anything. Where the stream is refused before its first slice, or a buffer is too short, none is changed; else the first
 *   2 N are 0 afterwards, so that nothing of one page is left for the next, and the others are as they were. */
void pitchladle_read(const uint8_t *stream, size_t stream_bytes, uint16_t *samples, size_t sample_cells, int64_t *work, size_t work_cells,
                     struct pitchladle_page *page);

/* Reads a page in spite of damage inside its slices, and marks the samples that are lost. With N as pitchladle_needs says, it takes N sample cells, 2 N work cells
 * and N marks, and looks at their counts in this order; more may be lent, and with fewer of any the answer is 5.
 *   A slice is lost where its precincts break a rule of 3, 6, 7 or 8: the whole slice, with what stands before the break. All its coefficients count as 0, and
 *   reading goes on behind it, where the lengths that its precincts declare lead.
 *   What still refuses the page: all that refuses it before the first slice, a slice header or an end marker that is not as it must be (1 to 4), bytes behind the
 *   end marker (2), and a precinct's length that is cut (1) or leads past the stream (6), if only in a slice that is lost already.
 *   Marks stand in the order of the samples: 1 where a sample depends on a lost coefficient, directly or through the filters or the colour transform, 0 elsewhere.
 *   A sample marked 0 is the same whatever the lost coefficients were. One marked 1 is what the page gives with 0 in their place: it is never filled in from its
 *   neighbours or sharpened.
 *   Damage that breaks no rule is not covered: the slice is then read as it stands, and no sample is marked for it.
 *   The distances speak of the samples marked 0 alone, and come from the slices that are not lost; where all are lost they are 0.
 *   A page that pitchladle_read reads has the same record and samples here, and its N marks are 0.
 *   The record is written whole. Where the page is refused no sample cell and no mark is changed, and where it is read none behind the N is. The work cells are left
 *   as pitchladle_read leaves them. Marks and work cells may hold anything before. */
void pitchladle_read_damaged(const uint8_t *stream, size_t stream_bytes, uint16_t *samples, size_t sample_cells, int64_t *work, size_t work_cells,
                             uint8_t *marks, size_t mark_bytes, struct pitchladle_page *page);

/* Reads a page as pitchladle_read does, and gives each sample a distance of its own. With N as pitchladle_needs says, it takes N distances beside the N sample cells
 * and 2 N work cells, and looks at their count last; more may be lent, and with fewer the answer is 5.
 *   Distances stand in the order of the samples. Each is what the distance in the record is, but for its own sample alone: that sample is no further than this from
 *   the one that the coefficients gave before they were quantised, on the terms that stand above with struct pitchladle_component. None is more than the distance of
 *   its component, and where nothing was cut off (every T is 0) all are 0.
 *   With N distances lent, record, samples and work cells are what pitchladle_read leaves. Where the page is refused no distance is changed, and where it is read
 *   none behind the N is. The distances may hold anything before. */
void pitchladle_read_places(const uint8_t *stream, size_t stream_bytes, uint16_t *samples, size_t sample_cells, int64_t *work, size_t work_cells,
                            uint16_t *distances, size_t distance_cells, struct pitchladle_page *page);

/* Reads a page as pitchladle_read_damaged does, and gives each sample a distance of its own. With N as pitchladle_needs says, it takes N distances beside the N
 * sample cells, 2 N work cells and N marks, and looks at their count last; more may be lent, and with fewer the answer is 5.
 *   The distance of a sample that is marked 0 is as pitchladle_read_places says: for that sample alone, never more than the component's, and 0 where nothing was cut
 *   off in the slices that are not lost. A sample that is marked 1 has 2^precision - 1 for its distance, which says nothing about it.
 *   With N distances lent, record, samples, work cells and marks are what pitchladle_read_damaged leaves. Where the page is refused no distance is changed, and
 *   where it is read none behind the N is. The distances may hold anything before. */
void pitchladle_read_damaged_places(const uint8_t *stream, size_t stream_bytes, uint16_t *samples, size_t sample_cells, int64_t *work, size_t work_cells,
                                    uint8_t *marks, size_t mark_bytes, uint16_t *distances, size_t distance_cells, struct pitchladle_page *page);

/* Why a page is refused. The rule of this answer is broken at `place`: what is found there, read or counted in the stream, is less than `least` or more than `most`;
 * and no rule that is checked before it is broken. Of a page that is read all is 0 but `place`, which is the stream's length.
 *   With answer 1 `found` is how many bytes the stream still has at the place, and `least` how many are needed there. With answer 5 they are the cells lent and
 *   needed of the first buffer that is too short: samples, work, marks, distances. Both have no most. */
struct pitchladle_reason {
    uint64_t answer, place;
    uint64_t found, least, most; /* PITCHLADLE_NO_MOST: any value from `least` on would do */
    uint64_t codes;              /* 1 where these three are codes, of a marker or a type, which are best printed in hexadecimal, else 0 */
};

#define PITCHLADLE_NO_MOST UINT64_MAX

/* The name of the field that decided, of a fixed list, in ASCII with a zero behind it: docs/FIELDS.md has the list, with a sentence for each. */
#define PITCHLADLE_NAME_BYTES 40

/* What pitchladle_why explains: pitchladle_read is mode 0, pitchladle_read_damaged PITCHLADLE_DAMAGED, pitchladle_read_places PITCHLADLE_PLACES, and
 * pitchladle_read_damaged_places the sum of both. Other bits of a mode are not looked at. */
enum { PITCHLADLE_DAMAGED = 1, PITCHLADLE_PLACES = 2 };

/* Says why the call of this mode refuses the stream with buffers of these counts. Samples, marks and distances are not lent for it, only their counts are told: a
 * count that the mode does not have is not looked at. Answer and place are the same as in the record of that call, and the work cells are left as that call
 * leaves them. `name` takes PITCHLADLE_NAME_BYTES bytes, all 0 where the page is read. */
void pitchladle_why(const uint8_t *stream, size_t stream_bytes, uint64_t mode, size_t sample_cells, int64_t *work, size_t work_cells, size_t mark_bytes,
                    size_t distance_cells, struct pitchladle_reason *reason, char *name);

/* Where a component is coarsest, before any colour transform: the lowest band, by the standard's number, that holds the component's largest truncation position T
 * among the precincts with a coefficient of it, the first such precinct, counted in the order of the stream through all slices, and that T. 0 says that nothing was
 * cut off. */
struct pitchladle_coarse {
    uint64_t band, precinct, truncation;
};

struct pitchladle_coarsest {
    uint64_t components;                   /* 1 to 4; 0 where the page is refused, and then all is 0 */
    struct pitchladle_coarse component[4]; /* in the order of the component table; 0 from `components` on */
};

/* Says where a page that pitchladle_read reads is coarsest. Samples are not lent for it, only their count is told; the work cells are left as pitchladle_read leaves
 * them. */
void pitchladle_coarsest(const uint8_t *stream, size_t stream_bytes, size_t sample_cells, int64_t *work, size_t work_cells, struct pitchladle_coarsest *coarsest);

/* How many samples the page has: the sum of width times height over its components, at most 2^30. 0 where the stream is refused before its first
 * slice; any other page may still be refused later. */
uint64_t pitchladle_needs(const uint8_t *stream, size_t stream_bytes);

#ifdef __cplusplus
}
#endif

#endif
