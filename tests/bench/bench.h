/* What the programs that time readers share. */
#include <malloc.h>
#include <stdbool.h>
#include <stdio.h>
#include <stdlib.h>
#include <time.h>
#include "../../include/pitchladle.h"

/* rival.rs */
void *rival_read(const uint8_t *stream, size_t bytes);
bool rival_agrees(const void *page, const uint16_t *samples, size_t cells);
void rival_free(void *page);

/* Memory that is given back stays with the program. */
static inline void keep_memory(void)
{
    mallopt(M_MMAP_MAX, 0);
    mallopt(M_TRIM_THRESHOLD, -1);
}

/* Processor time of this program, in ns. */
static inline double now(void)
{
    struct timespec t;
    clock_gettime(CLOCK_PROCESS_CPUTIME_ID, &t);
    return t.tv_sec * 1e9 + t.tv_nsec;
}

static inline double least(double a, double b)
{
    return a < b ? a : b;
}

static inline uint8_t *contents(const char *name, size_t *size)
{
    FILE *file = fopen(name, "rb");
    if (!file || fseek(file, 0, SEEK_END) != 0)
        return NULL;
    *size = ftell(file);
    uint8_t *bytes = malloc(*size + 1);
    rewind(file);
    if (bytes && fread(bytes, 1, *size, file) != *size)
        bytes = NULL;
    fclose(file);
    return bytes;
}
