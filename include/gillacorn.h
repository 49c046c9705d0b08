/* Gillacorn: address translation that is proved. examples/example.c shows how it is called.
 *
 * Every answer begins with `code`: GILLACORN_VALUE, GILLACORN_NONE or a refusal. Where no value is
 * given the other fields are 0, unless the function says otherwise. Sentences below name refusals by
 * their numbers, in the order in which they are tested.
 *
 * Tables. A table is lent as a pointer and a length in bytes, and read during the call alone. No
 * alignment is asked. Where the length is 0 nothing is read, and the pointer may be NULL. A table
 * with a mark `has_..` or `present` is read only where the mark is true: false, NULL, 0 is absent.
 * Every question reads what it needs anew: one that needs order reads the whole table.
 *
 * Outputs. A lent output is aligned as its type is, must not overlap a table, and may be NULL where
 * it has no entries. A refused call writes nothing; entries past the result stay as they are.
 */
#ifndef GILLACORN_H
#define GILLACORN_H

#include <stdbool.h>
#include <stddef.h>
#include <stdint.h>

#ifdef __cplusplus
extern "C" {
#endif

#define GILLACORN_VERSION_MAJOR 0
#define GILLACORN_VERSION_MINOR 1
#define GILLACORN_VERSION_PATCH 0
#define GILLACORN_VERSION "0.1.0"

/* ---- what `code` says ---- */

#define GILLACORN_VALUE 0u  /* a value is given */
#define GILLACORN_NONE 255u /* none: a hole, or nothing there */

/* The refusals, given exactly when */
enum gillacorn_refusal {
    GILLACORN_LENGTH = 1,    /* a table's length is no multiple of its record */
    GILLACORN_COUNT = 2,     /* it has more records than allowed */
    GILLACORN_ORDER = 3,     /* a question that needs order meets a source (or code start) that is not
                                greater than the one before it */
    GILLACORN_TOO_LARGE = 4, /* an asked sum or product exceeds 4,294,967,295 */
    GILLACORN_SHORT = 5,     /* the result has more entries, or bytes where it is bytes, than the lent
                                output holds; the needed number is told */
    GILLACORN_EARLY = 6,     /* a cursor would translate a mapped, non-empty piece that begins
                                before its record's source */
    GILLACORN_NOT_A_BUNDLE = 8,  /* a file has fewer than 56 bytes or does not end in BACK */
    GILLACORN_OTHER_VERSION = 9, /* a bundle's version is not 1 */
    GILLACORN_LAYOUT = 10        /* the parts of a bundle do not touch each other from its first byte
                                    to its trailer, or one is half absent */
};

/* A code as a person reads it; never NULL. */
static inline const char *gillacorn_refusal_text(uint32_t code)
{
    switch (code) {
    case GILLACORN_VALUE: return "not refused: a value";
    case GILLACORN_NONE: return "not refused: none";
    case GILLACORN_LENGTH: return "the table's length is no multiple of its record";
    case GILLACORN_COUNT: return "the table has more records than allowed";
    case GILLACORN_ORDER: return "the table is out of order";
    case GILLACORN_TOO_LARGE: return "a sum or product exceeds 32 bits";
    case GILLACORN_SHORT: return "the output is too small";
    case GILLACORN_EARLY: return "a piece begins before the source of its record";
    case GILLACORN_NOT_A_BUNDLE: return "this is no bundle: it has fewer than 56 bytes or does not end in BACK";
    case GILLACORN_OTHER_VERSION: return "the bundle has another version than 1";
    case GILLACORN_LAYOUT: return "the parts of the bundle break its layout";
    default: return "no code of this version";
    }
}

typedef struct { uint32_t code; uint32_t value; } gillacorn_value_answer;

/* A table that may be absent, for the structs of tables below. */
typedef struct { bool present; const uint8_t *bytes; size_t length; } gillacorn_table;

static inline gillacorn_table gillacorn_given(const uint8_t *bytes, size_t length)
{
    gillacorn_table table = {true, bytes, length};
    return table;
}

static inline gillacorn_table gillacorn_absent(void)
{
    gillacorn_table table = {false, NULL, 0};
    return table;
}

#define GILLACORN_SPREAD_TABLE(table) (table).present, (table).bytes, (table).length

/* ---- section headers (pe) ---- */

typedef struct {
    uint8_t name[8];
    uint32_t virtual_size, virtual_address, size_of_raw_data, pointer_to_raw_data;
    uint32_t pointer_to_relocations, pointer_to_line_numbers;
    uint16_t number_of_relocations, number_of_line_numbers;
    uint32_t characteristics;
} gillacorn_section_header;

typedef struct { uint32_t code; gillacorn_section_header header; } gillacorn_header_answer;

/* The header at a place from 0. None past the last; 1 or 2 for a bad table. */
gillacorn_header_answer gillacorn_header(const uint8_t *table, size_t length, size_t place);

/* How many bytes of the name of section `number`, from 1, count: the name is the first that many
 * bytes of its header. 0 for a missing section, a name that is not UTF-8 and a bad table. */
size_t gillacorn_name_length(const uint8_t *table, size_t length, uint16_t number);

typedef struct {
    bool executable, initialized_data, uninitialized_data, other, info, remove, comdat;
    bool defer_speculative_exceptions, global_pointer_relative, purgeable, locked, preload;
    bool lnk_nreloc_ovfl, discardable, not_cached, not_paged, shared, execute, read, write;
} gillacorn_flags;

/* What the characteristics of a section say. */
gillacorn_flags gillacorn_characteristics(uint32_t characteristics);

/* The alignment that the characteristics give, or none. */
gillacorn_value_answer gillacorn_alignment(uint32_t characteristics);

/* ---- OMAP tables ---- */

typedef struct { uint32_t code; uint32_t source, target; } gillacorn_record_answer;
typedef struct { uint32_t code; uint32_t value, probes; } gillacorn_quick_answer;
typedef struct { uint32_t code; size_t pieces; } gillacorn_pieces_answer;
typedef struct { uint32_t address, end, source, target; size_t place; } gillacorn_cursor;
typedef struct { uint32_t code; gillacorn_cursor cursor; } gillacorn_cursor_answer;
typedef struct { uint32_t code; uint32_t start, end; gillacorn_cursor cursor; } gillacorn_step_answer;

/* The record at a place from 0. None past the last; 1 or 2 for a bad table. */
gillacorn_record_answer gillacorn_record_at(const uint8_t *table, size_t length, size_t place);

/* The single translation of an address: 1, 2, 3, none, or 4. With no table, the address itself.
 * The order is tested each time, so every question reads the whole table. */
gillacorn_value_answer gillacorn_lookup(bool present, const uint8_t *table, size_t length, uint32_t address);

/* The same by the search alone, for a table whose order is known: since these bytes were asked
 * something that needs order, and were not refused. 1, 2, none, or 4. On such a table the answer is
 * that of gillacorn_lookup; on one that is out of order, which is not refused, it means nothing.
 * `probes` is the number of records read on the way, 21 at most: also with none, and 0 where it is
 * refused or there is no table. */
gillacorn_quick_answer gillacorn_quick_lookup(bool present, const uint8_t *table, size_t length,
                                              uint32_t address);

/* The pieces of the window a..b, as pairs of start and excluded end in `out`; refusals 1, 2, 3, 4,
 * then 5. `pieces` is their number, also with code 5, where it is the number needed. */
gillacorn_pieces_answer gillacorn_window(bool present, const uint8_t *table, size_t length,
                                        uint32_t a, uint32_t b, uint32_t *out, size_t places);

/* A cursor over the pieces of a..b: 1, 2, 3, or the cursor. */
gillacorn_cursor_answer gillacorn_cursor_start(bool present, const uint8_t *table, size_t length,
                                         uint32_t a, uint32_t b);

/* The next piece and the next cursor; none and the cursor left behind; or 1, 2, 6, 4 and the
 * cursor unchanged. Any table, in order or not. */
gillacorn_step_answer gillacorn_cursor_step(gillacorn_cursor cursor, bool present, const uint8_t *table,
                                     size_t length);

typedef struct { uint32_t start, end; } gillacorn_piece;

/* As gillacorn_window, into a list of records. */
gillacorn_pieces_answer gillacorn_list(bool present, const uint8_t *table, size_t length, uint32_t a,
                                uint32_t b, gillacorn_piece *list, size_t records);

/* ---- clash and way back ---- */

typedef struct { uint32_t code; uint32_t first, second; } gillacorn_pair_answer;
typedef struct { uint32_t code; uint32_t sources; uint32_t first, second; } gillacorn_sources_answer;

/* The least pair of window addresses with one translation; none where the window is single; or
 * 1, 2, 3, 4. Each piece is compared with each later one: the time grows with the square of the
 * pieces (docs/PERFORMANCE.md has it measured). */
gillacorn_pair_answer gillacorn_clash(const uint8_t *table, size_t length, uint32_t a, uint32_t b);

/* The addresses of a..b that translate to t: none, the one (`sources` 1), or the two least
 * (`sources` 2); or 1, 2, 3, 4. */
gillacorn_sources_answer gillacorn_way_back(const uint8_t *table, size_t length, uint32_t a, uint32_t b,
                                     uint32_t t);

/* ---- sections and the address map ---- */

#include "gillacorn_addresses.h"

/* ---- frames ---- */

enum gillacorn_frame_type {
    GILLACORN_FRAME_FPO = 0,
    GILLACORN_FRAME_TRAP = 1,
    GILLACORN_FRAME_TSS = 2,
    GILLACORN_FRAME_STANDARD = 3,
    GILLACORN_FRAME_DATA = 4
};

/* ty is a gillacorn_frame_type. max_stack_size and program count only where their mark is true. */
typedef struct {
    uint32_t ty, code_start, code_size, locals_size, params_size;
    uint16_t prolog_size, saved_regs_size;
    bool has_structured_eh, has_cpp_eh, is_function_start, uses_base_pointer;
    bool has_max_stack_size, has_program;
    uint32_t max_stack_size, program;
} gillacorn_frame;

typedef struct { size_t old_index, new_index; } gillacorn_frame_cursor;
typedef struct { uint32_t code; gillacorn_frame frame; } gillacorn_frame_answer;
typedef struct { uint32_t code; gillacorn_frame_cursor cursor; } gillacorn_frame_cursor_answer;
typedef struct { uint32_t code; gillacorn_frame frame; gillacorn_frame_cursor cursor; } gillacorn_frame_step_answer;

#define GILLACORN_FRAMES                                              \
    bool has_old, const uint8_t *old_frames, size_t old_length,       \
    bool has_new, const uint8_t *new_frames, size_t new_length

/* The same as one struct, and what spreads it, as GILLACORN_SPREAD_MAP does. */
typedef struct { gillacorn_table old_frames, new_frames; } gillacorn_frame_tables;

#define GILLACORN_SPREAD_FRAMES(tables) \
    GILLACORN_SPREAD_TABLE((tables).old_frames), GILLACORN_SPREAD_TABLE((tables).new_frames)

/* The frame at a place of one table. None past the last; 1, 2; an old frame's locals may give 4. */
gillacorn_frame_answer gillacorn_old_frame(const uint8_t *table, size_t length, size_t place);
gillacorn_frame_answer gillacorn_new_frame(const uint8_t *table, size_t length, size_t place);

/* The next frame and the next cursor; none at the end; or 1, 2 (old, then new), 4. At the end and
 * with a refusal the cursor is as it was. */
gillacorn_frame_step_answer gillacorn_frame_next(gillacorn_frame_cursor cursor, GILLACORN_FRAMES);

/* The cursor that starts at an address; or 1, 2, 3 of old, then of new. */
gillacorn_frame_cursor_answer gillacorn_frames_at(uint32_t address, GILLACORN_FRAMES);

/* Whether both tables are without a frame: `value` is 1 where they are, and 0 where there is a frame;
 * or refused with 1 or 2, of old, then of new. */
gillacorn_value_answer gillacorn_frames_empty(GILLACORN_FRAMES);

/* ---- bundles ---- */

/* A bundle is one file with the tables of one build (examples/bundle.c): the present ones as plain
 * bytes, one after the other in the order below, then 56 bytes that say where each is. A part that is
 * present and empty differs from an absent one. What a part holds is not looked at: a question to its
 * table does that. */

/* Where a part is in the file; where it is absent the numbers are 0. */
typedef struct { bool present; uint32_t start, length; } gillacorn_span;

typedef struct {
    gillacorn_span original_sections, transformed_sections, to_original, to_transformed, old_frames, new_frames;
} gillacorn_spans;

typedef struct { uint32_t code; gillacorn_spans spans; } gillacorn_spans_answer;

/* Where the parts of a bundle are, each inside the file; or 4 (it has more than 4,294,967,295 bytes),
 * 8, 9, 10. */
gillacorn_spans_answer gillacorn_bundle_read(const uint8_t *file, size_t length);

/* A part of a file that was read, as a table to ask. */
static inline gillacorn_table gillacorn_part(const uint8_t *file, gillacorn_span span)
{
    return span.present ? gillacorn_given(file + span.start, span.length) : gillacorn_absent();
}

typedef struct { uint32_t code; size_t bytes; } gillacorn_bytes_answer;

/* Writes a bundle to the first bytes of `out`: 4 (it would have more than 4,294,967,295 bytes), then
 * 5. `bytes` is its length, also with code 5, where it is the number of bytes needed. */
gillacorn_bytes_answer gillacorn_bundle_write(
    bool has_original_sections, const uint8_t *original_sections, size_t original_sections_length,
    bool has_transformed_sections, const uint8_t *transformed_sections, size_t transformed_sections_length,
    bool has_to_original, const uint8_t *to_original, size_t to_original_length,
    bool has_to_transformed, const uint8_t *to_transformed, size_t to_transformed_length,
    bool has_old_frames, const uint8_t *old_frames, size_t old_frames_length,
    bool has_new_frames, const uint8_t *new_frames, size_t new_frames_length,
    uint8_t *out, size_t out_length);

/* The same parts as one struct, and what spreads it. */
typedef struct {
    gillacorn_table original_sections, transformed_sections, to_original, to_transformed, old_frames, new_frames;
} gillacorn_parts;

static inline gillacorn_bytes_answer gillacorn_bundle_write_parts(gillacorn_parts parts, uint8_t *out,
                                                                  size_t out_length)
{
    return gillacorn_bundle_write(
        GILLACORN_SPREAD_TABLE(parts.original_sections), GILLACORN_SPREAD_TABLE(parts.transformed_sections),
        GILLACORN_SPREAD_TABLE(parts.to_original), GILLACORN_SPREAD_TABLE(parts.to_transformed),
        GILLACORN_SPREAD_TABLE(parts.old_frames), GILLACORN_SPREAD_TABLE(parts.new_frames), out, out_length);
}

#include "gillacorn_layout.h"

#ifdef __cplusplus
}
#endif

#endif
