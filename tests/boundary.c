/* What no proof covers: the boundary between C and the archive. Each group lends the same tables in
 * another way and asks every function the same questions; the answers have to be the same, and
 * nothing may be touched that was not lent. Some groups tell the answers: how much is written, and by
 * which size of a section an address is found. boundary.sh also builds it over stand-ins with a
 * planted fault each (boundary_faults.h), which it has to see.
 */
#define _DEFAULT_SOURCE
#include "gillacorn.h"
#ifdef FAULT
#include "boundary_faults.h"
#endif

#include <signal.h>
#include <stdio.h>
#include <stdlib.h>
#include <string.h>
#include <sys/mman.h>
#include <unistd.h>

#include "boundary_questions.h"

static void touched(int signal)
{
    (void)signal;
    fails("touches memory that was not lent");
}

/* ---- lending ---- */

enum place { ORDINARY, AFTER, BEFORE, UNALIGNED };
static size_t page;

/* Pages that can be used, between two that can't be touched. */
static uint8_t *guarded(size_t pages)
{
    uint8_t *all = (uint8_t *)mmap(NULL, (pages + 2) * page, PROT_NONE, MAP_PRIVATE | MAP_ANONYMOUS, -1, 0);
    if (all == MAP_FAILED || mprotect(all + page, pages * page, PROT_READ | PROT_WRITE) != 0)
        fails("no memory");
    return all + page;
}

static uint8_t *untouchable(void)
{
    return guarded(1) + page;
}

/* Room of some bytes: flush against the page after it, or before it, or some bytes into its own. */
static uint8_t *room(enum place place, size_t length, size_t by)
{
    uint8_t *start = guarded(1);
    memset(start, 0xEE, page);
    switch (place) {
    case AFTER: return start + page - length;
    case BEFORE: return start;
    default: return start + 64 + by;
    }
}

/* A table's bytes in pages that can be read and not written. */
static gillacorn_table lend(enum place place, size_t by, const uint8_t *bytes, size_t length)
{
    uint8_t *at = room(place, length, by);
    memcpy(at, bytes, length);
    if (mprotect((void *)((uintptr_t)at / page * page), page, PROT_READ) != 0)
        fails("no memory");
    return gillacorn_given(at, length);
}

#define PIECES 3 /* of the window 0..1400 */
#define BYTES (2 * sizeof sections + 2 * sizeof omap + sizeof old_frames + sizeof new_frames + 56) /* of a bundle */

static lent lend_all(enum place place, size_t by, size_t cut)
{
    lent l;
    l.sections = lend(place, by, sections, sizeof sections - cut);
    l.omap = lend(place, by, omap, sizeof omap - cut);
    l.old_frames = lend(place, by, old_frames, sizeof old_frames - cut);
    l.new_frames = lend(place, by, new_frames, sizeof new_frames - cut);
    l.bundle = lend(place, by, bundle, sizeof bundle - cut);
    l.room = PIECES;
    l.out = (uint32_t *)(void *)room(place, l.room * sizeof(gillacorn_piece), 0);
    l.list = (gillacorn_piece *)(void *)room(place, l.room * sizeof(gillacorn_piece), 0);
    l.bytes_room = BYTES;
    l.bytes = room(place, l.bytes_room, by);
    return l;
}

/* The same bytes for every table, and outputs without room. */
static lent lend_same(bool present, const uint8_t *bytes, size_t length, void *out)
{
    gillacorn_table table = {present, bytes, length};
    lent l = {table, table, table, table, table, (uint32_t *)out, (gillacorn_piece *)out, 0, (uint8_t *)out, 0};
    return l;
}

/* ---- asking ---- */

static void ask(const lent *l, bool bare)
{
    static const uint32_t addresses[] = {0, 0x1000, 0x10FF, 0x1100, 0x1250, 0x1380, 0x3FFF, 0xFFFFFFFF};
    count = 0;
    for (size_t i = 0; i < sizeof addresses / sizeof *addresses; i++) {
        if (bare)
            ask_bare(l, addresses[i]);
        ask_marked(l, addresses[i]);
    }
    if (bare)
        ask_bundle_read(l);
    ask_bundle_write(l);
}

static void expect(const lent *l, bool bare)
{
    ask(l, bare);
    memcpy(expected, answers, sizeof answers);
    expected_count = count;
}

static void same(const lent *l, bool bare)
{
    ask(l, bare);
    if (count != expected_count)
        fails("other questions");
    for (size_t i = 0; i < count; i++) {
        asked = answers[i].name;
        if (answers[i].told != expected[i].told)
            fails("answers otherwise");
    }
}

/* ---- the groups ---- */

/* Whole tables, and tables cut by a byte, which are refused. */
static void placed(void)
{
    for (size_t cut = 0; cut < 2; cut++) {
        lent l = lend_all(ORDINARY, 0, cut);
        group = "ordinary", expect(&l, true);
        group = "after", l = lend_all(AFTER, 0, cut), same(&l, true);
        group = "before", l = lend_all(BEFORE, 0, cut), same(&l, true);
        for (size_t by = 1; by < 8; by++)
            group = "unaligned", l = lend_all(UNALIGNED, by, cut), same(&l, true);
        group = "upper bits", l = lend_all(ORDINARY, 0, cut);
        rubbish = 0xA5A5A5A5A5A5A5A5, same(&l, true), rubbish = 0;
    }
}

static void empty(void)
{
    static uint32_t some;
    lent l = lend_same(true, sections, 0, &some);
    group = "ordinary", expect(&l, true);
    group = "empty", l = lend_same(true, untouchable(), 0, untouchable()), same(&l, true);
    l = lend_same(true, NULL, 0, NULL), same(&l, true);
}

static void absent(void)
{
    static uint32_t some;
    lent l = lend_same(false, sections, 0, &some);
    group = "ordinary", expect(&l, false);
    group = "absent", l = lend_same(false, untouchable(), 65, untouchable()), same(&l, false);
    l = lend_same(false, NULL, 0, NULL), same(&l, false);
    group = "upper bits", rubbish = 0xA5A5A5A5A5A5A5A5, same(&l, false), rubbish = 0;
}

/* A window and a list, with room for some u32 and for half as many pieces: how much was written. */
static void written(const uint8_t *table, size_t length, size_t places, uint32_t code)
{
    uint8_t *out = room(AFTER, places * sizeof(uint32_t), 0);
    size_t pieces = places / 2, size;
    gillacorn_pieces_answer w;
    for (int listed = 0; listed < 2; listed++) {
        if (listed) {
            out = room(AFTER, pieces * sizeof(gillacorn_piece), 0), asked = "gillacorn_list";
            w = gillacorn_list(true, table, length, 0, 0x1400, (gillacorn_piece *)(void *)out, pieces);
        } else {
            asked = "gillacorn_window";
            w = gillacorn_window(true, table, length, 0, 0x1400, (uint32_t *)(void *)out, places);
        }
        if (w.code != code)
            fails("another code");
        size = code == GILLACORN_VALUE ? w.pieces * sizeof(gillacorn_piece) : 0;
        if (w.pieces != (code == GILLACORN_VALUE || code == GILLACORN_SHORT ? PIECES : 0))
            fails("another number of pieces");
        for (size_t i = size; i < (listed ? pieces * sizeof(gillacorn_piece) : places * sizeof(uint32_t)); i++)
            if (out[i] != 0xEE)
                fails("writes where it must not");
    }
}

static void outputs(void)
{
    uint8_t damaged[sizeof omap];
    group = "output";
    for (size_t places = 2 * PIECES; places < 2 * PIECES + 8; places++)
        written(omap, sizeof omap, places, GILLACORN_VALUE);
    group = "refused";
    for (size_t places = 0; places < 2 * PIECES; places++)
        written(omap, sizeof omap, places, GILLACORN_SHORT);
    written(omap, sizeof omap - 1, 16, GILLACORN_LENGTH);
    memcpy(damaged, omap, sizeof omap);
    put(damaged + 24, 0x1200);
    written(damaged, sizeof damaged, 16, GILLACORN_ORDER);
    memcpy(damaged, omap, sizeof omap);
    put(damaged + 28, 0xFFFFFFF0);
    written(damaged, sizeof damaged, 16, GILLACORN_TOO_LARGE);
}

/* ---- the two sizes of a section ---- */

static void located(const char *name, gillacorn_offset_answer given, bool found, uint16_t section, uint32_t offset)
{
    asked = name;
    if (given.code != (found ? GILLACORN_VALUE : GILLACORN_NONE))
        fails("another code");
    if (given.section != (found ? section : 0) || given.offset != (found ? offset : 0))
        fails("another place");
}

/* By the memory size, by the raw size, and by the function that leaves the choice out. */
#define BY_EACH(section, name, ...)                                                                     \
    located(#name "_by", name##_by(GILLACORN_BY_MEMORY_SIZE, __VA_ARGS__), in_memory, section, offset); \
    located(#name "_by", name##_by(GILLACORN_BY_RAW_SIZE, __VA_ARGS__), on_disk, section, offset);      \
    located(#name, name(__VA_ARGS__), in_memory, section, offset)

/* An offset in the last section, the third at 4000, which was moved and is the first at 8000: all four
 * tables of the map differ. */
static void find(uint32_t offset, bool in_memory, bool on_disk)
{
    uint8_t moved[40], to_original[8], to_transformed[8];
    memcpy(moved, sections + 80, 40), put(moved + 12, 0x8000);
    put(to_original, 0x8000), put(to_original + 4, 0x4000);
    put(to_transformed, 0x4000), put(to_transformed + 4, 0x8000);
    gillacorn_map map = {gillacorn_given(sections, sizeof sections), gillacorn_given(moved, sizeof moved),
                         gillacorn_given(to_original, 8), gillacorn_given(to_transformed, 8)};
    uint32_t rva = 0x8000 + offset, internal = 0x4000 + offset;
    BY_EACH(1, gillacorn_section_offset, moved, sizeof moved, rva);
    BY_EACH(1, gillacorn_rva_to_section_offset, rva, GILLACORN_SPREAD_MAP(map));
    BY_EACH(3, gillacorn_rva_to_internal_offset, rva, GILLACORN_SPREAD_MAP(map));
    BY_EACH(1, gillacorn_internal_rva_to_section_offset, internal, GILLACORN_SPREAD_MAP(map));
    BY_EACH(3, gillacorn_internal_rva_to_internal_offset, internal, GILLACORN_SPREAD_MAP(map));
    BY_EACH(3, gillacorn_offset_to_internal_offset, 1, offset, GILLACORN_SPREAD_MAP(map));
    BY_EACH(1, gillacorn_internal_offset_to_section_offset, 3, offset, GILLACORN_SPREAD_MAP(map));
}

/* The edges of the zeros behind the raw data. */
static void extents(void)
{
    group = "extents";
    find(RAW_SIZE - 1, true, true);
    find(RAW_SIZE, true, false);
    find(0x1FFF, true, false);
    find(0x2000, false, false);
}

#include "boundary_bundles.h"

int main(void)
{
    page = (size_t)sysconf(_SC_PAGESIZE);
    signal(SIGSEGV, touched);
    signal(SIGBUS, touched);
    fill_tables();
    placed();
    printf("boundary: %zu answers to each way of lending\n", expected_count);
    empty();
    absent();
    outputs();
    extents();
    bundle_outputs();
    by_lengths();
    return 0;
}
