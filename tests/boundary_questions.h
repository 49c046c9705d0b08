/* The questions of boundary.c: the tables, every function asked through a pointer to a function of
 * wider arguments, and each answer as one number. */

static const char *group = "start", *asked = "";

static void fails(const char *what)
{
    printf("boundary: %s: %s: %s\n", group, asked, what);
    exit(1);
}

/* ---- tables: four OMAP records, three headers, two old and two new frames; a bundle of them ---- */

#define RAW_SIZE 0x100 /* of each section */
static uint8_t omap[32], sections[120], old_frames[32], new_frames[64];
static uint8_t bundle[sizeof sections + sizeof omap + sizeof new_frames + 56];

static void put(uint8_t *bytes, uint32_t number)
{
    for (int i = 0; i < 4; i++)
        bytes[i] = (uint8_t)(number >> 8 * i);
}

static void fill_tables(void)
{
    static const uint32_t records[] = {0x1000, 0x5000, 0x1100, 0, 0x1200, 0x4000, 0x1300, 0x5080};
    for (int i = 0; i < 8; i++)
        put(omap + 4 * i, records[i]);
    /* Every byte of a record counts: none is 0 by itself. */
    for (int i = 0; i < 120; i++)
        sections[i] = (uint8_t)(1 + i % 100);
    /* In memory they fill 1000..6000; on disk each has RAW_SIZE bytes. */
    static const uint32_t starts[] = {0x1000, 0x2000, 0x4000, 0x6000};
    for (int i = 0; i < 3; i++) {
        memcpy(sections + 40 * i, ".textbss", 8);
        put(sections + 40 * i + 8, starts[i + 1] - starts[i]);
        put(sections + 40 * i + 12, starts[i]);
        put(sections + 40 * i + 16, RAW_SIZE);
    }
    for (int i = 0; i < 64; i++)
        new_frames[i] = old_frames[i % 32] = (uint8_t)(1 + i);
    for (int i = 0; i < 2; i++) {
        put(old_frames + 16 * i, 0x1000 + 0x100 * (uint32_t)i);
        put(old_frames + 16 * i + 8, 2);
        put(new_frames + 32 * i, 0x1080 + 0x100 * (uint32_t)i);
    }
    /* Original sections, to-original, an empty old table and new frames; the others are absent. */
    static const uint32_t trailer[] = {0, 120, UINT32_MAX, UINT32_MAX, 120, 32, UINT32_MAX, UINT32_MAX, 152, 0, 152, 64, 1};
    memcpy(bundle, sections, 120);
    memcpy(bundle + 120, omap, 32);
    memcpy(bundle + 152, new_frames, 64);
    for (int i = 0; i < 13; i++)
        put(bundle + 216 + 4 * i, trailer[i]);
    memcpy(bundle + 268, "BACK", 4);
}

typedef struct {
    gillacorn_table sections, omap, old_frames, new_frames, bundle;
    uint32_t *out;
    gillacorn_piece *list;
    size_t room; /* in pieces */
    uint8_t *bytes;
    size_t bytes_room;
} lent;

/* ---- the questions ---- */

static uint64_t rubbish;
#define TABLE const uint8_t *, size_t
#define MARKED uint64_t, TABLE
#define MAP MARKED, MARKED, MARKED, MARKED
#define AS(answer, name, ...) (asked = #name, ((answer (*)(__VA_ARGS__))(void (*)(void))name))
#define BIT(n) ((uint64_t)(n) | (rubbish & ~(uint64_t)0xFF))
#define HALF(n) ((uint64_t)(n) | (rubbish & ~(uint64_t)0xFFFF))
#define WORD(n) ((uint64_t)(n) | (rubbish & ~(uint64_t)0xFFFFFFFF))
#define GIVE(t) (t).bytes, (t).length
#define GIVE_MARKED(t) BIT((t).present), (t).bytes, (t).length
#define GIVE_MAP(l) GIVE_MARKED((l)->sections), GIVE_MARKED((l)->sections), GIVE_MARKED((l)->omap), GIVE_MARKED((l)->omap)
#define GIVE_FRAMES(l) GIVE_MARKED((l)->old_frames), GIVE_MARKED((l)->new_frames)

typedef struct { const char *name; uint64_t told; } answer;
static answer answers[4096], expected[4096];
static size_t count, expected_count;

/* One number stands for an answer: its fields, and not the gaps between them. */
static void tell(uint64_t number)
{
    answer *last = &answers[count - 1];
    last->told = (last->told ^ number) * 0x100000001B3u + 1;
}

static void next_answer(void)
{
    if (count == sizeof answers / sizeof *answers)
        fails("too many questions");
    answers[count].name = asked;
    answers[count++].told = 0;
}

#define VALUE(call) do { gillacorn_value_answer g = call; next_answer(); tell(g.code); tell(g.value); } while (0)
#define OFFSET(call) do { gillacorn_offset_answer g = call; next_answer(); tell(g.code); tell(g.section); tell(g.offset); } while (0)
/* A conversion to an address. */
#define CONVERSION(from, arguments, ...) \
    VALUE(AS(gillacorn_value_answer, gillacorn_##from, arguments, MAP)(__VA_ARGS__, GIVE_MAP(l)))
/* One to a section, by the memory size and by the raw size. */
#define LOCATED(from, arguments, ...) \
    for (int by = 0; by < 2; by++) \
        OFFSET(AS(gillacorn_offset_answer, gillacorn_##from##_by, uint64_t, arguments, MAP)(BIT(by), __VA_ARGS__, GIVE_MAP(l)))

static void tell_frame(const gillacorn_frame *f)
{
    tell(f->ty), tell(f->code_start), tell(f->code_size), tell(f->locals_size), tell(f->params_size);
    tell(f->prolog_size), tell(f->saved_regs_size), tell(f->has_structured_eh), tell(f->has_cpp_eh);
    tell(f->is_function_start), tell(f->uses_base_pointer), tell(f->has_max_stack_size);
    tell(f->has_program), tell(f->max_stack_size), tell(f->program);
}

/* Functions whose tables have no mark. */
static void ask_bare(const lent *l, uint32_t a)
{
    for (size_t place = 0; place < 5; place++) {
        gillacorn_header_answer h = AS(gillacorn_header_answer, gillacorn_header, TABLE, size_t)(GIVE(l->sections), place);
        next_answer(), tell(h.code);
        for (size_t i = 0; i < 8; i++)
            tell(h.header.name[i]);
        tell(h.header.virtual_size), tell(h.header.virtual_address), tell(h.header.size_of_raw_data);
        tell(h.header.pointer_to_raw_data), tell(h.header.pointer_to_relocations);
        tell(h.header.pointer_to_line_numbers), tell(h.header.number_of_relocations);
        tell(h.header.number_of_line_numbers), tell(h.header.characteristics);
        size_t length = AS(size_t, gillacorn_name_length, TABLE, uint64_t)(GIVE(l->sections), HALF(place));
        next_answer(), tell(length);
        VALUE(AS(gillacorn_value_answer, gillacorn_virtual_address, TABLE, uint64_t, uint64_t)(GIVE(l->sections), HALF(place), WORD(a)));
        gillacorn_record_answer r = AS(gillacorn_record_answer, gillacorn_record_at, TABLE, size_t)(GIVE(l->omap), place);
        next_answer(), tell(r.code), tell(r.source), tell(r.target);
        gillacorn_frame_answer f = AS(gillacorn_frame_answer, gillacorn_old_frame, TABLE, size_t)(GIVE(l->old_frames), place);
        next_answer(), tell(f.code), tell_frame(&f.frame);
        f = AS(gillacorn_frame_answer, gillacorn_new_frame, TABLE, size_t)(GIVE(l->new_frames), place);
        next_answer(), tell(f.code), tell_frame(&f.frame);
    }
    for (int by = 0; by < 2; by++)
        OFFSET(AS(gillacorn_offset_answer, gillacorn_section_offset_by, uint64_t, TABLE, uint64_t)(BIT(by), GIVE(l->sections), WORD(a)));
    gillacorn_pair_answer p = AS(gillacorn_pair_answer, gillacorn_clash, TABLE, uint64_t, uint64_t)(GIVE(l->omap), WORD(a), WORD(0x1400));
    next_answer(), tell(p.code), tell(p.first), tell(p.second);
    gillacorn_sources_answer s = AS(gillacorn_sources_answer, gillacorn_way_back, TABLE, uint64_t, uint64_t, uint64_t)(GIVE(l->omap), WORD(0), WORD(0x1400), WORD(a + 0x4000));
    next_answer(), tell(s.code), tell(s.sources), tell(s.first), tell(s.second);
    gillacorn_flags flags = AS(gillacorn_flags, gillacorn_characteristics, uint64_t)(WORD(a * 0x9E3779B1u));
    next_answer();
    for (size_t i = 0; i < sizeof flags; i++)
        tell(((const bool *)&flags)[i]);
    VALUE(AS(gillacorn_value_answer, gillacorn_alignment, uint64_t)(WORD(a * 0x9E3779B1u)));
}

static void ask_window(const lent *l, uint32_t a)
{
    gillacorn_pieces_answer w = AS(gillacorn_pieces_answer, gillacorn_window, MARKED, uint64_t, uint64_t, uint32_t *, size_t)(GIVE_MARKED(l->omap), WORD(a), WORD(0x1400), l->out, 2 * l->room);
    next_answer(), tell(w.code), tell(w.pieces);
    for (size_t i = 0; i < 2 * l->room; i++)
        tell(l->out[i]);
    w = AS(gillacorn_pieces_answer, gillacorn_list, MARKED, uint64_t, uint64_t, gillacorn_piece *, size_t)(GIVE_MARKED(l->omap), WORD(a), WORD(0x1400), l->list, l->room);
    next_answer(), tell(w.code), tell(w.pieces);
    for (size_t i = 0; i < l->room; i++)
        tell(l->list[i].start), tell(l->list[i].end);
}

/* Functions whose tables are behind a mark. */
static void ask_marked(const lent *l, uint32_t a)
{
    VALUE(AS(gillacorn_value_answer, gillacorn_lookup, MARKED, uint64_t)(GIVE_MARKED(l->omap), WORD(a)));
    gillacorn_quick_answer q = AS(gillacorn_quick_answer, gillacorn_quick_lookup, MARKED, uint64_t)(GIVE_MARKED(l->omap), WORD(a));
    next_answer(), tell(q.code), tell(q.value), tell(q.probes);
    ask_window(l, a);
    gillacorn_cursor_answer c = AS(gillacorn_cursor_answer, gillacorn_cursor_start, MARKED, uint64_t, uint64_t)(GIVE_MARKED(l->omap), WORD(a), WORD(0x1400));
    next_answer(), tell(c.code);
    gillacorn_step_answer step = {0, 0, 0, c.cursor};
    for (int i = 0; i < 6; i++) {
        step = AS(gillacorn_step_answer, gillacorn_cursor_step, gillacorn_cursor, MARKED)(step.cursor, GIVE_MARKED(l->omap));
        next_answer(), tell(step.code), tell(step.start), tell(step.end), tell(step.cursor.address);
        tell(step.cursor.end), tell(step.cursor.source), tell(step.cursor.target), tell(step.cursor.place);
    }
    CONVERSION(rva_to_internal_rva, uint64_t, WORD(a));
    LOCATED(rva_to_section_offset, uint64_t, WORD(a));
    LOCATED(rva_to_internal_offset, uint64_t, WORD(a));
    CONVERSION(internal_rva_to_rva, uint64_t, WORD(a));
    LOCATED(internal_rva_to_section_offset, uint64_t, WORD(a));
    LOCATED(internal_rva_to_internal_offset, uint64_t, WORD(a));
#define PLACE uint64_t, uint64_t
    for (uint32_t number = 0; number < 5; number++) {
        CONVERSION(offset_to_rva, PLACE, HALF(number), WORD(a));
        CONVERSION(offset_to_internal_rva, PLACE, HALF(number), WORD(a));
        LOCATED(offset_to_internal_offset, PLACE, HALF(number), WORD(a));
        CONVERSION(internal_offset_to_rva, PLACE, HALF(number), WORD(a));
        CONVERSION(internal_offset_to_internal_rva, PLACE, HALF(number), WORD(a));
        LOCATED(internal_offset_to_section_offset, PLACE, HALF(number), WORD(a));
    }
    VALUE(AS(gillacorn_value_answer, gillacorn_frames_empty, MARKED, MARKED)(GIVE_FRAMES(l)));
    gillacorn_frame_cursor_answer at = AS(gillacorn_frame_cursor_answer, gillacorn_frames_at, uint64_t, MARKED, MARKED)(WORD(a), GIVE_FRAMES(l));
    next_answer(), tell(at.code);
    gillacorn_frame_step_answer f;
    f.cursor = at.cursor;
    for (int i = 0; i < 5; i++) {
        f = AS(gillacorn_frame_step_answer, gillacorn_frame_next, gillacorn_frame_cursor, MARKED, MARKED)(f.cursor, GIVE_FRAMES(l));
        next_answer(), tell(f.code), tell_frame(&f.frame), tell(f.cursor.old_index), tell(f.cursor.new_index);
    }
}

/* ---- bundles: a file without a mark, and parts behind one ---- */

static void ask_bundle_read(const lent *l)
{
    gillacorn_spans_answer b = AS(gillacorn_spans_answer, gillacorn_bundle_read, TABLE)(GIVE(l->bundle));
    next_answer(), tell(b.code);
    const gillacorn_span *spans = &b.spans.original_sections;
    for (int i = 0; i < 6; i++)
        tell(spans[i].present), tell(spans[i].start), tell(spans[i].length);
}

static void ask_bundle_write(const lent *l)
{
    gillacorn_bytes_answer b = AS(gillacorn_bytes_answer, gillacorn_bundle_write, MAP, MARKED, MARKED, uint8_t *, size_t)(GIVE_MAP(l), GIVE_FRAMES(l), l->bytes, l->bytes_room);
    next_answer(), tell(b.code), tell(b.bytes);
    for (size_t i = 0; i < l->bytes_room; i++)
        tell(l->bytes[i]);
}
