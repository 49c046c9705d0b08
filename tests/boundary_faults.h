/* Stand-ins before the archive, each with one fault of the kind that a group of boundary.c has to see:
 * -DFAULT=n takes the n-th. The line `fault n: group` is what boundary.sh reads. */

#if FAULT == 1 /* fault 1: after */
/* Reads one byte past the table. */
static gillacorn_value_answer faulty(bool present, const uint8_t *table, size_t length, uint32_t address)
{
    if (present && length > 0)
        (void)((const volatile uint8_t *)table)[length];
    return gillacorn_lookup(present, table, length, address);
}
#define gillacorn_lookup faulty

#elif FAULT == 2 /* fault 2: before */
/* Reads one byte before the table. */
static gillacorn_offset_answer faulty(bool by_raw_size, const uint8_t *table, size_t length, uint32_t address)
{
    if (length > 0)
        (void)((const volatile uint8_t *)table)[-1];
    return gillacorn_section_offset_by(by_raw_size, table, length, address);
}
#define gillacorn_section_offset_by faulty

#elif FAULT == 3 /* fault 3: unaligned */
/* Takes a table to begin at a multiple of 4. */
static gillacorn_frame_answer faulty(const uint8_t *table, size_t length, size_t place)
{
    return gillacorn_new_frame((const uint8_t *)((uintptr_t)table / 4 * 4), length, place);
}
#define gillacorn_new_frame faulty

#elif FAULT == 4 /* fault 4: empty */
/* Reads a table that has no bytes. */
static gillacorn_header_answer faulty(const uint8_t *table, size_t length, size_t place)
{
    (void)*(const volatile uint8_t *)table;
    return gillacorn_header(table, length, place);
}
#define gillacorn_header faulty

#elif FAULT == 5 /* fault 5: absent */
/* Reads a table that its mark says is absent. */
static gillacorn_value_answer faulty(GILLACORN_FRAMES)
{
    if (new_length > 0)
        (void)*(const volatile uint8_t *)new_frames;
    return gillacorn_frames_empty(has_old, old_frames, old_length, has_new, new_frames, new_length);
}
#define gillacorn_frames_empty faulty

#elif FAULT == 6 /* fault 6: refused */
/* Writes before it refuses. */
static gillacorn_pieces_answer faulty(bool present, const uint8_t *table, size_t length, uint32_t a,
                               uint32_t b, uint32_t *out, size_t places)
{
    gillacorn_pieces_answer given = gillacorn_window(present, table, length, a, b, out, places);
    if (given.code == GILLACORN_SHORT && places > 0)
        out[0] = 0;
    return given;
}
#define gillacorn_window faulty

#elif FAULT == 7 /* fault 7: output */
/* Writes one entry more than the result has, where there is room. */
static gillacorn_pieces_answer faulty(bool present, const uint8_t *table, size_t length, uint32_t a,
                               uint32_t b, gillacorn_piece *list, size_t records)
{
    gillacorn_pieces_answer given = gillacorn_list(present, table, length, a, b, list, records);
    if (given.code == GILLACORN_VALUE && given.pieces < records)
        list[given.pieces].start = 0;
    return given;
}
#define gillacorn_list faulty

#elif FAULT == 8 /* fault 8: upper bits */
/* Takes the whole register for its section number. */
static gillacorn_value_answer faulty(uint64_t section, uint32_t offset, GILLACORN_MAP)
{
    return gillacorn_offset_to_rva(section > 0xFFFF ? 0 : (uint16_t)section, offset, GILLACORN_MAP_NAMES);
}
#define gillacorn_offset_to_rva faulty

#elif FAULT == 9 /* fault 9: upper bits */
/* Takes the whole register for a mark. */
static gillacorn_cursor_answer faulty(uint64_t present, const uint8_t *table, size_t length, uint32_t a, uint32_t b)
{
    return gillacorn_cursor_start(present == 1, table, length, a, b);
}
#define gillacorn_cursor_start faulty

#elif FAULT == 10 /* fault 10: ordinary */
/* Writes to a table. */
static gillacorn_pair_answer faulty(const uint8_t *table, size_t length, uint32_t a, uint32_t b)
{
    if (length > 0)
        ((volatile uint8_t *)(uintptr_t)table)[0] = table[0];
    return gillacorn_clash(table, length, a, b);
}
#define gillacorn_clash faulty

#elif FAULT == 11 /* fault 11: after */
/* Reads one byte past the file. */
static gillacorn_spans_answer faulty(const uint8_t *file, size_t length)
{
    if (length > 0)
        (void)((const volatile uint8_t *)file)[length];
    return gillacorn_bundle_read(file, length);
}
#define gillacorn_bundle_read faulty

#elif FAULT == 12 /* fault 12: lengths */
/* Reads a file before it looks at the length. */
static gillacorn_spans_answer faulty(const uint8_t *file, size_t length)
{
    if (length > 0)
        (void)((const volatile uint8_t *)file)[length - 1];
    return gillacorn_bundle_read(file, length);
}
#define gillacorn_bundle_read faulty

#elif FAULT >= 13 && FAULT <= 18
#define PART(name) bool has_##name, const uint8_t *name, size_t name##_length
#define PARTS_BUT_LAST PART(a), PART(b), PART(c), PART(d), PART(e)
#define GIVEN(name) has_##name, name, name##_length
#define GIVEN_BUT_LAST GIVEN(a), GIVEN(b), GIVEN(c), GIVEN(d), GIVEN(e)

#if FAULT == 13 /* fault 13: refused */
/* Writes before it refuses. */
static gillacorn_bytes_answer faulty(PARTS_BUT_LAST, PART(f), uint8_t *out, size_t places)
{
    gillacorn_bytes_answer given = gillacorn_bundle_write(GIVEN_BUT_LAST, GIVEN(f), out, places);
    if (given.code == GILLACORN_SHORT && places > 0)
        out[places - 1] = 0;
    return given;
}

#elif FAULT == 14 /* fault 14: output */
/* Writes one byte more than the bundle has, where there is room. */
static gillacorn_bytes_answer faulty(PARTS_BUT_LAST, PART(f), uint8_t *out, size_t places)
{
    gillacorn_bytes_answer given = gillacorn_bundle_write(GIVEN_BUT_LAST, GIVEN(f), out, places);
    if (given.code == GILLACORN_VALUE && given.bytes < places)
        out[given.bytes] = 0;
    return given;
}

#elif FAULT == 15 /* fault 15: lengths */
/* Adds lengths up in 64 bits, where the sum may come round. */
static gillacorn_bytes_answer faulty(PARTS_BUT_LAST, PART(f), uint8_t *out, size_t places)
{
    size_t sum = 56 + a_length + b_length + c_length + d_length + e_length + f_length;
    gillacorn_bytes_answer given = gillacorn_bundle_write(GIVEN_BUT_LAST, GIVEN(f), out, places);
    if (given.code == GILLACORN_TOO_LARGE && sum <= UINT32_MAX)
        given.code = GILLACORN_SHORT;
    return given;
}

#elif FAULT == 16 /* fault 16: lengths */
/* Reads a part before it knows that the output is too short. */
static gillacorn_bytes_answer faulty(PARTS_BUT_LAST, PART(f), uint8_t *out, size_t places)
{
    if (has_d && d_length > 0)
        (void)*(const volatile uint8_t *)d;
    return gillacorn_bundle_write(GIVEN_BUT_LAST, GIVEN(f), out, places);
}

#elif FAULT == 17 /* fault 17: lengths */
/* Counts a length beside an absent mark. */
static gillacorn_bytes_answer faulty(PARTS_BUT_LAST, PART(f), uint8_t *out, size_t places)
{
    gillacorn_bytes_answer given = gillacorn_bundle_write(GIVEN_BUT_LAST, GIVEN(f), out, places);
    if (!has_f && f_length > UINT32_MAX)
        given.code = GILLACORN_TOO_LARGE, given.bytes = 0;
    return given;
}

#elif FAULT == 18 /* fault 18: upper bits */
/* Takes the whole place on the stack for a mark. */
static gillacorn_bytes_answer faulty(PARTS_BUT_LAST, uint64_t has_f, const uint8_t *f, size_t f_length, uint8_t *out, size_t places)
{
    return gillacorn_bundle_write(GIVEN_BUT_LAST, has_f == 1, f, f_length, out, places);
}
#endif
#define gillacorn_bundle_write faulty

#elif FAULT == 19 /* fault 19: extents */
/* Takes each size for the other. */
static gillacorn_offset_answer faulty(bool by_raw_size, uint32_t rva, GILLACORN_MAP)
{
    return gillacorn_rva_to_internal_offset_by(!by_raw_size, rva, GILLACORN_MAP_NAMES);
}
#define gillacorn_rva_to_internal_offset_by faulty

#elif FAULT == 20 /* fault 20: extents */
/* Takes the raw size where no choice is given. */
static gillacorn_offset_answer faulty(uint16_t section, uint32_t offset, GILLACORN_MAP)
{
    return gillacorn_internal_offset_to_section_offset_by(GILLACORN_BY_RAW_SIZE, section, offset, GILLACORN_MAP_NAMES);
}
#define gillacorn_internal_offset_to_section_offset faulty

#elif FAULT == 21 /* fault 21: upper bits */
/* Takes the whole register for the choice. */
static gillacorn_offset_answer faulty(uint64_t by_raw_size, uint16_t section, uint32_t offset, GILLACORN_MAP)
{
    return gillacorn_offset_to_internal_offset_by(by_raw_size == 1, section, offset, GILLACORN_MAP_NAMES);
}
#define gillacorn_offset_to_internal_offset_by faulty
#endif
