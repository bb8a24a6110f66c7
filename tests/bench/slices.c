/* The functions of include/pitchladle.h by those that native.sh compiles, which take a slice as the address of a pair. */
#include "../../include/pitchladle.h"

struct slice {
    const void *start;
    size_t count;
};

uint64_t rattle_needs(struct slice *stream);
void rattle_read(struct slice *stream, struct slice *samples, struct slice *work, struct pitchladle_page *page);
void rattle_read_damaged(struct slice *stream, struct slice *samples, struct slice *work, struct slice *marks, struct pitchladle_page *page);
void rattle_read_places(struct slice *stream, struct slice *samples, struct slice *work, struct slice *distances, struct pitchladle_page *page);
void rattle_read_damaged_places(struct slice *stream, struct slice *samples, struct slice *work, struct slice *marks, struct slice *distances,
                                struct pitchladle_page *page);
void rattle_why(struct slice *stream, uint64_t mode, size_t sample_cells, struct slice *work, size_t mark_bytes, size_t distance_cells,
                struct pitchladle_reason *reason, char *name);
void rattle_coarsest(struct slice *stream, size_t sample_cells, struct slice *work, struct pitchladle_coarsest *coarsest);

uint64_t pitchladle_needs(const uint8_t *stream, size_t stream_bytes)
{
    struct slice a = {stream, stream_bytes};
    return rattle_needs(&a);
}

void pitchladle_read(const uint8_t *stream, size_t stream_bytes, uint16_t *samples, size_t sample_cells, int64_t *work, size_t work_cells,
                     struct pitchladle_page *page)
{
    struct slice a = {stream, stream_bytes}, b = {samples, sample_cells}, c = {work, work_cells};
    rattle_read(&a, &b, &c, page);
}

void pitchladle_read_damaged(const uint8_t *stream, size_t stream_bytes, uint16_t *samples, size_t sample_cells, int64_t *work, size_t work_cells,
                             uint8_t *marks, size_t mark_bytes, struct pitchladle_page *page)
{
    struct slice a = {stream, stream_bytes}, b = {samples, sample_cells}, c = {work, work_cells}, d = {marks, mark_bytes};
    rattle_read_damaged(&a, &b, &c, &d, page);
}

void pitchladle_read_places(const uint8_t *stream, size_t stream_bytes, uint16_t *samples, size_t sample_cells, int64_t *work, size_t work_cells,
                            uint16_t *distances, size_t distance_cells, struct pitchladle_page *page)
{
    struct slice a = {stream, stream_bytes}, b = {samples, sample_cells}, c = {work, work_cells}, d = {distances, distance_cells};
    rattle_read_places(&a, &b, &c, &d, page);
}

void pitchladle_read_damaged_places(const uint8_t *stream, size_t stream_bytes, uint16_t *samples, size_t sample_cells, int64_t *work, size_t work_cells,
                                    uint8_t *marks, size_t mark_bytes, uint16_t *distances, size_t distance_cells, struct pitchladle_page *page)
{
    struct slice a = {stream, stream_bytes}, b = {samples, sample_cells}, c = {work, work_cells}, d = {marks, mark_bytes}, e = {distances, distance_cells};
    rattle_read_damaged_places(&a, &b, &c, &d, &e, page);
}

void pitchladle_why(const uint8_t *stream, size_t stream_bytes, uint64_t mode, size_t sample_cells, int64_t *work, size_t work_cells, size_t mark_bytes,
                    size_t distance_cells, struct pitchladle_reason *reason, char *name)
{
    struct slice a = {stream, stream_bytes}, b = {work, work_cells};
    rattle_why(&a, mode, sample_cells, &b, mark_bytes, distance_cells, reason, name);
}

void pitchladle_coarsest(const uint8_t *stream, size_t stream_bytes, size_t sample_cells, int64_t *work, size_t work_cells, struct pitchladle_coarsest *coarsest)
{
    struct slice a = {stream, stream_bytes}, b = {work, work_cells};
    rattle_coarsest(&a, sample_cells, &b, coarsest);
}
