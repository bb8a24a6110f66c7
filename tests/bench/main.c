/* Times the library and the independent decoder on the same pages in one run, and prints how many times the decoder's time the library takes.
 *
 * Usage: bench READINGS FILE... Each page is read READINGS times by either, in turn, and the shortest time of each counts: processor time of this
 * program. The library's buffers are lent, and not cleared between readings. The decoder makes its own in each reading; the memory stays with the
 * program, so that neither waits for new pages of it after the first reading. */
#include "bench.h"

static bool timed(const char *name, int readings)
{
    size_t size;
    uint8_t *stream = contents(name, &size);
    if (!stream)
        return false;
    size_t cells = pitchladle_needs(stream, size);
    uint16_t *samples = calloc(cells + 1, sizeof *samples);
    int64_t *work = calloc(2 * cells + 1, sizeof *work);
    if (!samples || !work)
        return false;
    double ours = 1e300, rival = 1e300;
    bool same = true;
    for (int i = 0; i < readings && same; i++) {
        struct pitchladle_page record;
        double start = now();
        pitchladle_read(stream, size, samples, cells, work, 2 * cells, &record);
        double middle = now();
        void *page = rival_read(stream, size);
        double end = now();
        ours = least(ours, middle - start);
        rival = least(rival, end - middle);
        same = record.answer == 0 && page && rival_agrees(page, samples, cells);
        if (page)
            rival_free(page);
    }
    if (same)
        printf("| %s | %.1f | %.2f | %.1f | %.1f |\n", name, cells / 1e6, ours / rival, ours / cells, rival / cells);
    free(stream);
    free(samples);
    free(work);
    return same;
}

int main(int count, char **words)
{
    int readings = count > 2 ? atoi(words[1]) : 0;
    if (readings < 1) {
        fprintf(stderr, "usage: bench READINGS FILE...\n");
        return 2;
    }
    keep_memory();
    printf("| page | million samples | ratio | library, ns a sample | decoder, ns a sample |\n|---|---|---|---|---|\n");
    for (int i = 2; i < count; i++) {
        if (!timed(words[i], readings)) {
            fprintf(stderr, "%s: not read, or samples differ\n", words[i]);
            return 1;
        }
        fflush(stdout);
    }
    return 0;
}
