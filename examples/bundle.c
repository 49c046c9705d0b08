/* A bundle from C or C++: tables of one build written as one file, and asked out of it again.
 *
 *     cc bundle.c $(pkg-config --cflags --libs gillacorn) -o bundle
 */
#include "gillacorn.h"

#include <inttypes.h>
#include <stdio.h>
#include <stdlib.h>

/* An OMAP of two records: 1000 to 5000, 1100 to nothing. */
static const uint8_t to_original[] = {
    0x00, 0x10, 0, 0, 0x00, 0x50, 0, 0,
    0x00, 0x11, 0, 0, 0x00, 0x00, 0, 0,
};

/* One old frame, at 100. */
static const uint8_t old_frames[] = {
    0x00, 0x01, 0, 0, 0x40, 0, 0, 0, 0x02, 0, 0, 0, 0x01, 0, 0x05, 0xC3,
};

static void refused(const char *what, uint32_t code)
{
    printf("%s: refused %" PRIu32 ": %s\n", what, code, gillacorn_refusal_text(code));
    exit(EXIT_FAILURE);
}

/* The bundle's bytes: asked with no room first, which tells how many are needed. New frames are
 * present and empty; the other parts are absent. */
static uint8_t *written(size_t *length)
{
    gillacorn_parts parts = {gillacorn_absent(), gillacorn_absent(),
                             gillacorn_given(to_original, sizeof to_original), gillacorn_absent(),
                             gillacorn_given(old_frames, sizeof old_frames), gillacorn_given(NULL, 0)};
    gillacorn_bytes_answer answer = gillacorn_bundle_write_parts(parts, NULL, 0);
    uint8_t *file;
    if (answer.code != GILLACORN_SHORT)
        refused("write", answer.code);
    file = (uint8_t *)malloc(answer.bytes);
    if (file == NULL)
        exit(EXIT_FAILURE);
    answer = gillacorn_bundle_write_parts(parts, file, answer.bytes);
    if (answer.code != GILLACORN_VALUE)
        refused("write", answer.code);
    *length = answer.bytes;
    return file;
}

static void show(const char *name, gillacorn_span span)
{
    if (span.present)
        printf("%s at %" PRIu32 ", %" PRIu32 " bytes\n", name, span.start, span.length);
    else
        printf("%s absent\n", name);
}

/* A part is asked as any table is. */
static void translate(gillacorn_table table, uint32_t address)
{
    gillacorn_value_answer answer = gillacorn_lookup(GILLACORN_SPREAD_TABLE(table), address);
    if (answer.code == GILLACORN_VALUE)
        printf("%08" PRIX32 " %08" PRIX32 "\n", address, answer.value);
    else if (answer.code == GILLACORN_NONE)
        printf("%08" PRIX32 " hole\n", address);
    else
        refused("lookup", answer.code);
}

static void first_frame(gillacorn_frame_tables tables)
{
    gillacorn_frame_cursor start = {0, 0};
    gillacorn_frame_step_answer step = gillacorn_frame_next(start, GILLACORN_SPREAD_FRAMES(tables));
    if (step.code == GILLACORN_VALUE)
        printf("frame %08" PRIX32 "\n", step.frame.code_start);
    else
        refused("frames", step.code);
}

int main(void)
{
    size_t length;
    uint8_t *file = written(&length);
    gillacorn_spans_answer read = gillacorn_bundle_read(file, length);
    if (read.code != GILLACORN_VALUE)
        refused("read", read.code);
    printf("bundle of %zu bytes\n", length);
    show("original sections", read.spans.original_sections);
    show("transformed sections", read.spans.transformed_sections);
    show("to original", read.spans.to_original);
    show("to transformed", read.spans.to_transformed);
    show("old frames", read.spans.old_frames);
    show("new frames", read.spans.new_frames);
    translate(gillacorn_part(file, read.spans.to_original), 0x10FF);
    translate(gillacorn_part(file, read.spans.to_original), 0x1100);
    /* An absent table leaves an address as it is. */
    translate(gillacorn_part(file, read.spans.to_transformed), 0x1100);
    gillacorn_frame_tables tables = {gillacorn_part(file, read.spans.old_frames),
                                     gillacorn_part(file, read.spans.new_frames)};
    first_frame(tables);
    /* Cut short, it does not end in the mark. */
    read = gillacorn_bundle_read(file, length - 1);
    printf("cut: refused %" PRIu32 ": %s\n", read.code, gillacorn_refusal_text(read.code));
    free(file);
    return 0;
}
