/* Gillacorn from C or C++: a desk's questions to small tables, each answer with its refusal looked at.
 *
 *     cc example.c $(pkg-config --cflags --libs gillacorn) -o example
 */
#include "gillacorn.h"

#include <inttypes.h>
#include <stdio.h>
#include <stdlib.h>

/* An OMAP of four records: 1000 to 5000, 1100 to nothing, 1200 to 4000, 1300 to 5080. A table is
 * bytes, little-endian on every machine. */
static const uint8_t omap[] = {
    0x00, 0x10, 0, 0, 0x00, 0x50, 0, 0,
    0x00, 0x11, 0, 0, 0x00, 0x00, 0, 0,
    0x00, 0x12, 0, 0, 0x00, 0x40, 0, 0,
    0x00, 0x13, 0, 0, 0x80, 0x50, 0, 0,
};

/* Two section headers: .text at 1000 and .data at 4000, each of 2000 bytes in memory. Of .data the file
 * has the first 1800. */
static const uint8_t sections[] = {
    '.', 't', 'e', 'x', 't', 0, 0, 0,
    0x00, 0x20, 0, 0, 0x00, 0x10, 0, 0, 0x00, 0x20, 0, 0, 0x00, 0x04, 0, 0,
    0, 0, 0, 0, 0, 0, 0, 0, 0, 0, 0, 0, 0x20, 0x00, 0x00, 0x60,
    '.', 'd', 'a', 't', 'a', 0, 0, 0,
    0x00, 0x20, 0, 0, 0x00, 0x40, 0, 0, 0x00, 0x18, 0, 0, 0x00, 0x24, 0, 0,
    0, 0, 0, 0, 0, 0, 0, 0, 0, 0, 0, 0, 0x40, 0x00, 0x00, 0xC0,
};

/* One old frame, at 100. */
static const uint8_t old_frames[] = {
    0x00, 0x01, 0, 0, 0x40, 0, 0, 0, 0x02, 0, 0, 0, 0x01, 0, 0x05, 0xC3,
};

/* No answer: says why and ends. Nothing is drawn from a table that is refused. */
static void refused(const char *what, uint32_t code)
{
    printf("%s: refused %" PRIu32 ": %s\n", what, code, gillacorn_refusal_text(code));
    exit(EXIT_FAILURE);
}

static void translate(uint32_t address)
{
    gillacorn_value_answer answer = gillacorn_lookup(true, omap, sizeof omap, address);
    if (answer.code == GILLACORN_VALUE)
        printf("%08" PRIX32 " %08" PRIX32 "\n", address, answer.value);
    else if (answer.code == GILLACORN_NONE)
        printf("%08" PRIX32 " hole\n", address);
    else
        printf("%08" PRIX32 " refused %" PRIu32 ": %s\n", address, answer.code,
               gillacorn_refusal_text(answer.code));
}

/* Samples of one table: its order is tested once, and then each is found by the search alone. */
static void quickly(const uint32_t *samples, size_t count)
{
    gillacorn_value_answer checked = gillacorn_lookup(true, omap, sizeof omap, 0);
    if (checked.code != GILLACORN_VALUE && checked.code != GILLACORN_NONE)
        refused("samples", checked.code);
    for (size_t i = 0; i < count; i++) {
        gillacorn_quick_answer answer = gillacorn_quick_lookup(true, omap, sizeof omap, samples[i]);
        if (answer.code == GILLACORN_VALUE)
            printf("%08" PRIX32 " %08" PRIX32, samples[i], answer.value);
        else if (answer.code == GILLACORN_NONE)
            printf("%08" PRIX32 " hole", samples[i]);
        else
            refused("samples", answer.code);
        printf(", %" PRIu32 " probes\n", answer.probes);
    }
}

/* The pieces of a window: asked with no room first, which tells how much is needed. */
static void window(uint32_t a, uint32_t b)
{
    gillacorn_pieces_answer needed = gillacorn_window(true, omap, sizeof omap, a, b, NULL, 0);
    uint32_t *out;
    gillacorn_pieces_answer given;
    if (needed.code != GILLACORN_SHORT) {
        if (needed.code != GILLACORN_VALUE)
            refused("window", needed.code);
        printf("pieces 0\n");
        return;
    }
    out = (uint32_t *)malloc(2 * needed.pieces * sizeof *out);
    if (out == NULL)
        exit(EXIT_FAILURE);
    given = gillacorn_window(true, omap, sizeof omap, a, b, out, 2 * needed.pieces);
    if (given.code != GILLACORN_VALUE)
        refused("window", given.code);
    for (size_t i = 0; i < given.pieces; i++)
        printf("%08" PRIX32 " %08" PRIX32 "\n", out[2 * i], out[2 * i + 1]);
    printf("pieces %zu\n", given.pieces);
    free(out);
}

/* A desk looks for a clash before it draws. */
static void clash(uint32_t a, uint32_t b)
{
    gillacorn_pair_answer pair = gillacorn_clash(omap, sizeof omap, a, b);
    if (pair.code == GILLACORN_VALUE)
        printf("clash %08" PRIX32 " %08" PRIX32 "\n", pair.first, pair.second);
    else if (pair.code == GILLACORN_NONE)
        printf("no clash in %08" PRIX32 "..%08" PRIX32 "\n", a, b);
    else
        refused("clash", pair.code);
}

static void way_back(uint32_t a, uint32_t b, uint32_t target)
{
    gillacorn_sources_answer back = gillacorn_way_back(omap, sizeof omap, a, b, target);
    if (back.code == GILLACORN_NONE)
        printf("%08" PRIX32 " from nowhere\n", target);
    else if (back.code != GILLACORN_VALUE)
        refused("way back", back.code);
    else if (back.sources == 1)
        printf("%08" PRIX32 " from %08" PRIX32 "\n", target, back.first);
    else
        printf("%08" PRIX32 " from %08" PRIX32 " and %08" PRIX32 "\n", target, back.first, back.second);
}

static void all_sections(void)
{
    gillacorn_header_answer given;
    for (uint16_t number = 1;; number++) {
        given = gillacorn_header(sections, sizeof sections, number - 1u);
        if (given.code != GILLACORN_VALUE)
            break;
        printf("section %d %.*s at %08" PRIX32 "%s\n", number,
               (int)gillacorn_name_length(sections, sizeof sections, number),
               (const char *)given.header.name, given.header.virtual_address,
               gillacorn_characteristics(given.header.characteristics).execute ? ", code" : "");
    }
    if (given.code != GILLACORN_NONE)
        refused("sections", given.code);
}

/* The section of an address, by its size in memory or on disk. gillacorn_section_offset is the first. */
static void locate(uint32_t address, enum gillacorn_extent by)
{
    gillacorn_offset_answer at = gillacorn_section_offset_by(by, sections, sizeof sections, address);
    const char *size = by == GILLACORN_BY_RAW_SIZE ? "raw" : "memory";
    if (at.code == GILLACORN_VALUE)
        printf("%08" PRIX32 " by %s size at %d:%08" PRIX32 "\n", address, size, at.section, at.offset);
    else if (at.code == GILLACORN_NONE)
        printf("%08" PRIX32 " by %s size in no section\n", address, size);
    else
        refused("section", at.code);
}

/* An offset in a section, through an address map that has no transformed sections. */
static void convert(uint16_t section, uint32_t offset)
{
    gillacorn_map map = {gillacorn_given(sections, sizeof sections), gillacorn_absent(),
                         gillacorn_absent(), gillacorn_given(omap, sizeof omap)};
    gillacorn_value_answer rva =
        gillacorn_internal_offset_to_rva(section, offset, GILLACORN_SPREAD_MAP(map));
    if (rva.code == GILLACORN_VALUE)
        printf("offset %d:%08" PRIX32 " at %08" PRIX32 "\n", section, offset, rva.value);
    else if (rva.code == GILLACORN_NONE)
        printf("offset %d:%08" PRIX32 " is gone\n", section, offset);
    else
        refused("offset", rva.code);
}

static void all_frames(void)
{
    gillacorn_frame_tables tables = {gillacorn_given(old_frames, sizeof old_frames), gillacorn_absent()};
    gillacorn_frame_step_answer step;
    step.cursor.old_index = step.cursor.new_index = 0;
    while ((step = gillacorn_frame_next(step.cursor, GILLACORN_SPREAD_FRAMES(tables))).code == GILLACORN_VALUE)
        printf("frame %08" PRIX32 "%s, locals %" PRIu32 "\n", step.frame.code_start,
               step.frame.ty == GILLACORN_FRAME_STANDARD ? ", standard" : "", step.frame.locals_size);
    if (step.code != GILLACORN_NONE)
        refused("frames", step.code);
}

int main(void)
{
    printf("gillacorn %s\n", GILLACORN_VERSION);
    translate(0x0FFF);
    translate(0x10FF);
    translate(0x1100);
    translate(0xFFFFFFFF);
    static const uint32_t samples[] = {0x1080, 0x1180, 0x1280};
    quickly(samples, sizeof samples / sizeof *samples);
    window(0x0800, 0x1400);
    clash(0x0800, 0x1400);
    clash(0x1000, 0x1300);
    way_back(0x0800, 0x1400, 0x50A0);
    way_back(0x0800, 0x1400, 0x5100);
    all_sections();
    /* Zero-filled data. */
    locate(0x5900, GILLACORN_BY_MEMORY_SIZE);
    locate(0x5900, GILLACORN_BY_RAW_SIZE);
    convert(1, 0x20);
    convert(1, 0x110);
    all_frames();
    /* A part of a table is refused, and nothing is translated by it. */
    gillacorn_value_answer cut = gillacorn_lookup(true, omap, sizeof omap - 1, 0x1000);
    printf("cut: refused %" PRIu32 ": %s\n", cut.code, gillacorn_refusal_text(cut.code));
    return 0;
}
