/* Sections and the address map. A part of gillacorn.h, which includes it; never included alone. */
#ifndef GILLACORN_H
#error "gillacorn_addresses.h is a part of gillacorn.h: include that one"
#elif !defined(GILLACORN_ADDRESSES_H)
#define GILLACORN_ADDRESSES_H

/* How far a section reaches, for the functions that find the section of an address. They come twice:
 * `.._by` takes one of these first, and the one without (at the end) is by memory size. */
enum gillacorn_extent {
    /* As far as it does when loaded: virtual_size, or size_of_raw_data where that is 0. This is the
     * default, and what to take unless answers have to equal those of pdb. Zeros that are filled in
     * past the raw data are in the section; padding of the file past virtual_size is not. */
    GILLACORN_BY_MEMORY_SIZE = 0,
    /* As far as its data on disk: size_of_raw_data. The rule of the Rust crate pdb 0.8, under which an
     * address in zero-filled data is in no section. */
    GILLACORN_BY_RAW_SIZE = 1
};

typedef struct { uint32_t code; uint16_t section; uint32_t offset; } gillacorn_offset_answer;

/* The section, from 1, and the offset in it of an address; none; or 1, 2. */
gillacorn_offset_answer gillacorn_section_offset_by(bool by_raw_size, const uint8_t *table, size_t length,
                                                    uint32_t address);

/* The address of an offset in a section; none for section 0 and past the last; or 1, 2, 4. The offset
 * is not compared with the section's size. */
gillacorn_value_answer gillacorn_virtual_address(const uint8_t *table, size_t length, uint16_t section,
                                          uint32_t offset);

/* The four tables of an address map, each behind its mark. */
#define GILLACORN_MAP                                                                     \
    bool has_original_sections, const uint8_t *original_sections, size_t original_length, \
    bool has_transformed_sections, const uint8_t *transformed_sections, size_t transformed_length, \
    bool has_to_original, const uint8_t *to_original, size_t to_original_length,          \
    bool has_to_transformed, const uint8_t *to_transformed, size_t to_transformed_length

/* Their names, with which a function that takes GILLACORN_MAP hands it on. */
#define GILLACORN_MAP_NAMES                                              \
    has_original_sections, original_sections, original_length,          \
    has_transformed_sections, transformed_sections, transformed_length, \
    has_to_original, to_original, to_original_length,                   \
    has_to_transformed, to_transformed, to_transformed_length

/* The tables as one struct, and what spreads it: gillacorn_offset_to_rva(1, 0x10, GILLACORN_SPREAD_MAP(map)).
 * The macro reads its argument several times. */
typedef struct {
    gillacorn_table original_sections, transformed_sections, to_original, to_transformed;
} gillacorn_map;

#define GILLACORN_SPREAD_MAP(map)                                                                   \
    GILLACORN_SPREAD_TABLE((map).original_sections), GILLACORN_SPREAD_TABLE((map).transformed_sections), \
    GILLACORN_SPREAD_TABLE((map).to_original), GILLACORN_SPREAD_TABLE((map).to_transformed)

/* Each conversion reads the tables on its path alone, in this order, and refuses at the first step
 * that fails; none stops it. Absent original sections count as none. "Actual sections" are the
 * transformed ones where they are present, else the original ones. */

/* An address of the executable, through to-original: 1, 2, 3, none, 4. */
gillacorn_value_answer gillacorn_rva_to_internal_rva(uint32_t rva, GILLACORN_MAP);

/* An address of the executable, in the actual sections: 1, 2, none. */
gillacorn_offset_answer gillacorn_rva_to_section_offset_by(bool by_raw_size, uint32_t rva, GILLACORN_MAP);

/* An address of the executable, through to-original, in the original sections. */
gillacorn_offset_answer gillacorn_rva_to_internal_offset_by(bool by_raw_size, uint32_t rva, GILLACORN_MAP);

/* An address of the PDB, through to-transformed: 1, 2, 3, none, 4. */
gillacorn_value_answer gillacorn_internal_rva_to_rva(uint32_t rva, GILLACORN_MAP);

/* An address of the PDB, through to-transformed, in the actual sections. */
gillacorn_offset_answer gillacorn_internal_rva_to_section_offset_by(bool by_raw_size, uint32_t rva,
                                                                    GILLACORN_MAP);

/* An address of the PDB, in the original sections: 1, 2, none. */
gillacorn_offset_answer gillacorn_internal_rva_to_internal_offset_by(bool by_raw_size, uint32_t rva,
                                                                     GILLACORN_MAP);

/* An offset in the actual sections, as an address of the executable: 1, 2, none, 4. */
gillacorn_value_answer gillacorn_offset_to_rva(uint16_t section, uint32_t offset, GILLACORN_MAP);

/* An offset in the actual sections, then through to-original. */
gillacorn_value_answer gillacorn_offset_to_internal_rva(uint16_t section, uint32_t offset, GILLACORN_MAP);

/* An offset in the transformed sections, through to-original, in the original sections; with no
 * transformed sections the same offset, and no table is read. */
gillacorn_offset_answer gillacorn_offset_to_internal_offset_by(bool by_raw_size, uint16_t section,
                                                               uint32_t offset, GILLACORN_MAP);

/* An offset in the original sections, then through to-transformed. */
gillacorn_value_answer gillacorn_internal_offset_to_rva(uint16_t section, uint32_t offset, GILLACORN_MAP);

/* An offset in the original sections, as an address of the PDB: 1, 2, none, 4. */
gillacorn_value_answer gillacorn_internal_offset_to_internal_rva(uint16_t section, uint32_t offset, GILLACORN_MAP);

/* An offset in the original sections, through to-transformed, in the transformed sections; with no
 * transformed sections the same offset, and no table is read. */
gillacorn_offset_answer gillacorn_internal_offset_to_section_offset_by(bool by_raw_size, uint16_t section,
                                                                       uint32_t offset, GILLACORN_MAP);

/* Those that find a section, by memory size. */

static inline gillacorn_offset_answer gillacorn_section_offset(const uint8_t *table, size_t length,
                                                               uint32_t address)
{
    return gillacorn_section_offset_by(GILLACORN_BY_MEMORY_SIZE, table, length, address);
}

static inline gillacorn_offset_answer gillacorn_rva_to_section_offset(uint32_t rva, GILLACORN_MAP)
{
    return gillacorn_rva_to_section_offset_by(GILLACORN_BY_MEMORY_SIZE, rva, GILLACORN_MAP_NAMES);
}

static inline gillacorn_offset_answer gillacorn_rva_to_internal_offset(uint32_t rva, GILLACORN_MAP)
{
    return gillacorn_rva_to_internal_offset_by(GILLACORN_BY_MEMORY_SIZE, rva, GILLACORN_MAP_NAMES);
}

static inline gillacorn_offset_answer gillacorn_internal_rva_to_section_offset(uint32_t rva, GILLACORN_MAP)
{
    return gillacorn_internal_rva_to_section_offset_by(GILLACORN_BY_MEMORY_SIZE, rva, GILLACORN_MAP_NAMES);
}

static inline gillacorn_offset_answer gillacorn_internal_rva_to_internal_offset(uint32_t rva, GILLACORN_MAP)
{
    return gillacorn_internal_rva_to_internal_offset_by(GILLACORN_BY_MEMORY_SIZE, rva, GILLACORN_MAP_NAMES);
}

static inline gillacorn_offset_answer gillacorn_offset_to_internal_offset(uint16_t section, uint32_t offset,
                                                                          GILLACORN_MAP)
{
    return gillacorn_offset_to_internal_offset_by(GILLACORN_BY_MEMORY_SIZE, section, offset,
                                                  GILLACORN_MAP_NAMES);
}

static inline gillacorn_offset_answer gillacorn_internal_offset_to_section_offset(uint16_t section,
                                                                                  uint32_t offset, GILLACORN_MAP)
{
    return gillacorn_internal_offset_to_section_offset_by(GILLACORN_BY_MEMORY_SIZE, section, offset,
                                                          GILLACORN_MAP_NAMES);
}

#endif
