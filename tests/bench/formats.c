/* Times readers of several formats on one page, each from memory to memory, and prints a table.
 *
 * Usage: formats READINGS PAGE.jxs PAGE.j2k PAGE.jxl PAGE.jpg, the same page of three components of 8 bits in each. Each reader reads it READINGS times, all in
 * turn, and its shortest time counts: processor time of this program, of all its threads if there were several. A reader leaves samples in the form that it has: 16
 * bits component by component, 32 bits so, or 8 bits pixel by pixel. They are compared with the library's after each reading, which is not timed: those of a lossless
 * format must be the same. */
#include <jxl/decode.h>
#include <openjpeg.h>
#include <string.h>
#include <turbojpeg.h>
#include "bench.h"

/* What the library left, and the page's size. */
static uint16_t *samples;
static int64_t *work;
static size_t cells, width, height;

/* What the others leave: a page of the independent decoder, an image of OpenJPEG's, or interleaved bytes. */
static void *page;
static opj_image_t *image;
static uint8_t *bytes;

static bool read_ours(const uint8_t *file, size_t size)
{
    struct pitchladle_page record;
    pitchladle_read(file, size, samples, cells, work, 2 * cells, &record);
    width = record.component[0].width;
    height = record.component[0].height;
    return record.answer == 0 && record.components == 3 && cells == 3 * width * height;
}

static int ours_off(void)
{
    return 0;
}

static bool read_rival(const uint8_t *file, size_t size)
{
    page = rival_read(file, size);
    return page;
}

static int rival_off(void)
{
    bool same = rival_agrees(page, samples, cells);
    rival_free(page);
    return same ? 0 : UINT16_MAX;
}

/* A file in memory, as OpenJPEG wants it. */
struct source {
    const uint8_t *bytes;
    size_t size, at;
};

static OPJ_SIZE_T take(void *to, OPJ_SIZE_T count, void *from)
{
    struct source *source = from;
    size_t left = source->size - source->at;
    if (left == 0)
        return -1;
    count = count < left ? count : left;
    memcpy(to, source->bytes + source->at, count);
    source->at += count;
    return count;
}

static OPJ_BOOL seek(OPJ_OFF_T to, void *from)
{
    struct source *source = from;
    if (to < 0 || (size_t)to > source->size)
        return OPJ_FALSE;
    source->at = to;
    return OPJ_TRUE;
}

static OPJ_OFF_T skip(OPJ_OFF_T count, void *from)
{
    struct source *source = from;
    return seek(source->at + count, from) ? count : -1;
}

static bool read_openjpeg(const uint8_t *file, size_t size)
{
    struct source source = {file, size, 0};
    opj_stream_t *stream = opj_stream_default_create(OPJ_TRUE);
    opj_stream_set_user_data(stream, &source, NULL);
    opj_stream_set_user_data_length(stream, size);
    opj_stream_set_read_function(stream, take);
    opj_stream_set_skip_function(stream, skip);
    opj_stream_set_seek_function(stream, seek);
    opj_codec_t *codec = opj_create_decompress(OPJ_CODEC_J2K);
    opj_dparameters_t words;
    opj_set_default_decoder_parameters(&words);
    /* No threads, whatever the environment says. */
    bool good = opj_setup_decoder(codec, &words) && opj_codec_set_threads(codec, 0) && opj_read_header(stream, codec, &image) &&
                opj_decode(codec, stream, image) && opj_end_decompress(codec, stream);
    opj_destroy_codec(codec);
    opj_stream_destroy(stream);
    return good;
}

static int openjpeg_off(void)
{
    size_t area = width * height;
    int most = image->numcomps == 3 && image->comps[0].w == width && image->comps[0].h == height ? 0 : UINT16_MAX;
    for (size_t i = 0; i < cells && most < UINT16_MAX; i++) {
        int off = abs(image->comps[i / area].data[i % area] - samples[i]);
        most = off > most ? off : most;
    }
    opj_image_destroy(image);
    return most;
}

/* Without a runner of threads it has one. */
static bool read_jxl(const uint8_t *file, size_t size)
{
    const JxlPixelFormat format = {3, JXL_TYPE_UINT8, JXL_NATIVE_ENDIAN, 0};
    JxlDecoder *decoder = JxlDecoderCreate(NULL);
    JxlDecoderSubscribeEvents(decoder, JXL_DEC_FULL_IMAGE);
    JxlDecoderSetInput(decoder, file, size);
    JxlDecoderCloseInput(decoder);
    size_t needed = 0;
    bool good = JxlDecoderProcessInput(decoder) == JXL_DEC_NEED_IMAGE_OUT_BUFFER &&
                JxlDecoderImageOutBufferSize(decoder, &format, &needed) == JXL_DEC_SUCCESS && needed == cells &&
                JxlDecoderSetImageOutBuffer(decoder, &format, bytes, cells) == JXL_DEC_SUCCESS && JxlDecoderProcessInput(decoder) == JXL_DEC_FULL_IMAGE;
    JxlDecoderDestroy(decoder);
    return good;
}

static bool read_jpeg(const uint8_t *file, size_t size)
{
    int across, down, sampling, colours;
    tjhandle decoder = tjInitDecompress();
    bool good = tjDecompressHeader3(decoder, file, size, &across, &down, &sampling, &colours) == 0 && (size_t)across == width && (size_t)down == height &&
                tjDecompress2(decoder, file, size, bytes, across, 0, down, TJPF_RGB, 0) == 0;
    tjDestroy(decoder);
    return good;
}

static int bytes_off(void)
{
    int most = 0;
    for (size_t i = 0; i < cells; i++) {
        int off = abs(bytes[i] - samples[i % 3 * (cells / 3) + i / 3]);
        most = off > most ? off : most;
    }
    return most;
}

static struct reader {
    const char *name;
    int file; /* which of the files it reads */
    bool (*read)(const uint8_t *file, size_t size);
    int (*off)(void);
    bool lossless;
    double time; /* the shortest, in ns; 0 before the first reading */
    int most;    /* the largest difference from the library's samples */
} readers[] = {
    {"JPEG XS lossless, this library", 0, read_ours, ours_off, true, 0, 0},
    {"JPEG XS lossless, independent decoder", 0, read_rival, rival_off, true, 0, 0},
    {"JPEG 2000 lossless, OpenJPEG", 1, read_openjpeg, openjpeg_off, true, 0, 0},
    {"JPEG XL lossless at effort 1, libjxl", 2, read_jxl, bytes_off, true, 0, 0},
    {"JPEG 4:4:4 at quality 100, libjpeg-turbo", 3, read_jpeg, bytes_off, false, 0, 0},
};
enum { READERS = sizeof readers / sizeof *readers, FILES = 4 };

static bool timed(struct reader *reader, const uint8_t *file, size_t size)
{
    double start = now();
    bool good = reader->read(file, size);
    double end = now();
    reader->time = reader->time ? least(reader->time, end - start) : end - start;
    reader->most = good ? reader->off() : UINT16_MAX;
    return good && (!reader->lossless || reader->most == 0);
}

int main(int count, char **words)
{
    int readings = count == 2 + FILES ? atoi(words[1]) : 0;
    uint8_t *files[FILES];
    size_t sizes[FILES];
    for (int i = 0; readings > 0 && i < FILES; i++)
        if (!(files[i] = contents(words[2 + i], &sizes[i])))
            readings = 0;
    if (readings < 1) {
        fprintf(stderr, "usage: formats READINGS PAGE.jxs PAGE.j2k PAGE.jxl PAGE.jpg\n");
        return 2;
    }
    keep_memory();
    cells = pitchladle_needs(files[0], sizes[0]);
    samples = calloc(cells + 1, sizeof *samples);
    work = calloc(2 * cells + 1, sizeof *work);
    bytes = calloc(cells + 1, 1);
    for (int i = 0; i < readings; i++)
        for (struct reader *r = readers; r < readers + READERS; r++)
            if (!timed(r, files[r->file], sizes[r->file])) {
                fprintf(stderr, "%s: not read, or samples differ\n", r->name);
                return 1;
            }
    printf("| format and reader | bytes | bits a sample | ms a page | ns a sample | samples |\n|---|---|---|---|---|---|\n");
    for (const struct reader *r = readers; r < readers + READERS; r++) {
        printf("| %s | %zu | %.2f | %.1f | %.1f | ", r->name, sizes[r->file], 8.0 * sizes[r->file] / cells, r->time / 1e6, r->time / cells);
        if (r->most == 0)
            printf("exact |\n");
        else
            printf("up to %d off |\n", r->most);
    }
    return 0;
}
