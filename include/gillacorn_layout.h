/* The size of each struct and the place of each field that the archive was built for. A part of
 * gillacorn.h, which includes it: a compiler that lays them out otherwise stops here. */

#if defined(__cplusplus) && __cplusplus >= 201103L
#define GILLACORN_HOLDS(name, fact) static_assert(fact, #name)
#elif defined(__STDC_VERSION__) && __STDC_VERSION__ >= 201112L
#define GILLACORN_HOLDS(name, fact) _Static_assert(fact, #name)
#else
#define GILLACORN_HOLDS(name, fact) typedef char name[(fact) ? 1 : -1]
#endif
#define GILLACORN_SIZE(type, size) GILLACORN_HOLDS(type##_size, sizeof(type) == (size))
#define GILLACORN_AT(type, field, place) GILLACORN_HOLDS(type##_##field##_place, offsetof(type, field) == (place))

GILLACORN_HOLDS(gillacorn_bool_size, sizeof(bool) == 1);
GILLACORN_HOLDS(gillacorn_pointer_size, sizeof(void *) == 8 && sizeof(size_t) == 8);

GILLACORN_SIZE(gillacorn_value_answer, 8);
GILLACORN_AT(gillacorn_value_answer, code, 0);
GILLACORN_AT(gillacorn_value_answer, value, 4);

GILLACORN_SIZE(gillacorn_section_header, 40);
GILLACORN_AT(gillacorn_section_header, name, 0);
GILLACORN_AT(gillacorn_section_header, virtual_size, 8);
GILLACORN_AT(gillacorn_section_header, virtual_address, 12);
GILLACORN_AT(gillacorn_section_header, size_of_raw_data, 16);
GILLACORN_AT(gillacorn_section_header, pointer_to_raw_data, 20);
GILLACORN_AT(gillacorn_section_header, pointer_to_relocations, 24);
GILLACORN_AT(gillacorn_section_header, pointer_to_line_numbers, 28);
GILLACORN_AT(gillacorn_section_header, number_of_relocations, 32);
GILLACORN_AT(gillacorn_section_header, number_of_line_numbers, 34);
GILLACORN_AT(gillacorn_section_header, characteristics, 36);

GILLACORN_SIZE(gillacorn_header_answer, 44);
GILLACORN_AT(gillacorn_header_answer, code, 0);
GILLACORN_AT(gillacorn_header_answer, header, 4);

GILLACORN_SIZE(gillacorn_flags, 20);
GILLACORN_AT(gillacorn_flags, executable, 0);
GILLACORN_AT(gillacorn_flags, initialized_data, 1);
GILLACORN_AT(gillacorn_flags, uninitialized_data, 2);
GILLACORN_AT(gillacorn_flags, other, 3);
GILLACORN_AT(gillacorn_flags, info, 4);
GILLACORN_AT(gillacorn_flags, remove, 5);
GILLACORN_AT(gillacorn_flags, comdat, 6);
GILLACORN_AT(gillacorn_flags, defer_speculative_exceptions, 7);
GILLACORN_AT(gillacorn_flags, global_pointer_relative, 8);
GILLACORN_AT(gillacorn_flags, purgeable, 9);
GILLACORN_AT(gillacorn_flags, locked, 10);
GILLACORN_AT(gillacorn_flags, preload, 11);
GILLACORN_AT(gillacorn_flags, lnk_nreloc_ovfl, 12);
GILLACORN_AT(gillacorn_flags, discardable, 13);
GILLACORN_AT(gillacorn_flags, not_cached, 14);
GILLACORN_AT(gillacorn_flags, not_paged, 15);
GILLACORN_AT(gillacorn_flags, shared, 16);
GILLACORN_AT(gillacorn_flags, execute, 17);
GILLACORN_AT(gillacorn_flags, read, 18);
GILLACORN_AT(gillacorn_flags, write, 19);

GILLACORN_SIZE(gillacorn_quick_answer, 12);
GILLACORN_AT(gillacorn_quick_answer, code, 0);
GILLACORN_AT(gillacorn_quick_answer, value, 4);
GILLACORN_AT(gillacorn_quick_answer, probes, 8);

GILLACORN_SIZE(gillacorn_record_answer, 12);
GILLACORN_AT(gillacorn_record_answer, code, 0);
GILLACORN_AT(gillacorn_record_answer, source, 4);
GILLACORN_AT(gillacorn_record_answer, target, 8);

GILLACORN_SIZE(gillacorn_pieces_answer, 16);
GILLACORN_AT(gillacorn_pieces_answer, code, 0);
GILLACORN_AT(gillacorn_pieces_answer, pieces, 8);

GILLACORN_SIZE(gillacorn_cursor, 24);
GILLACORN_AT(gillacorn_cursor, address, 0);
GILLACORN_AT(gillacorn_cursor, end, 4);
GILLACORN_AT(gillacorn_cursor, source, 8);
GILLACORN_AT(gillacorn_cursor, target, 12);
GILLACORN_AT(gillacorn_cursor, place, 16);

GILLACORN_SIZE(gillacorn_cursor_answer, 32);
GILLACORN_AT(gillacorn_cursor_answer, code, 0);
GILLACORN_AT(gillacorn_cursor_answer, cursor, 8);

GILLACORN_SIZE(gillacorn_step_answer, 40);
GILLACORN_AT(gillacorn_step_answer, code, 0);
GILLACORN_AT(gillacorn_step_answer, start, 4);
GILLACORN_AT(gillacorn_step_answer, end, 8);
GILLACORN_AT(gillacorn_step_answer, cursor, 16);

GILLACORN_SIZE(gillacorn_piece, 8);
GILLACORN_AT(gillacorn_piece, start, 0);
GILLACORN_AT(gillacorn_piece, end, 4);

GILLACORN_SIZE(gillacorn_pair_answer, 12);
GILLACORN_AT(gillacorn_pair_answer, code, 0);
GILLACORN_AT(gillacorn_pair_answer, first, 4);
GILLACORN_AT(gillacorn_pair_answer, second, 8);

GILLACORN_SIZE(gillacorn_sources_answer, 16);
GILLACORN_AT(gillacorn_sources_answer, code, 0);
GILLACORN_AT(gillacorn_sources_answer, sources, 4);
GILLACORN_AT(gillacorn_sources_answer, first, 8);
GILLACORN_AT(gillacorn_sources_answer, second, 12);

GILLACORN_SIZE(gillacorn_offset_answer, 12);
GILLACORN_AT(gillacorn_offset_answer, code, 0);
GILLACORN_AT(gillacorn_offset_answer, section, 4);
GILLACORN_AT(gillacorn_offset_answer, offset, 8);

GILLACORN_SIZE(gillacorn_frame, 40);
GILLACORN_AT(gillacorn_frame, ty, 0);
GILLACORN_AT(gillacorn_frame, code_start, 4);
GILLACORN_AT(gillacorn_frame, code_size, 8);
GILLACORN_AT(gillacorn_frame, locals_size, 12);
GILLACORN_AT(gillacorn_frame, params_size, 16);
GILLACORN_AT(gillacorn_frame, prolog_size, 20);
GILLACORN_AT(gillacorn_frame, saved_regs_size, 22);
GILLACORN_AT(gillacorn_frame, has_structured_eh, 24);
GILLACORN_AT(gillacorn_frame, has_cpp_eh, 25);
GILLACORN_AT(gillacorn_frame, is_function_start, 26);
GILLACORN_AT(gillacorn_frame, uses_base_pointer, 27);
GILLACORN_AT(gillacorn_frame, has_max_stack_size, 28);
GILLACORN_AT(gillacorn_frame, has_program, 29);
GILLACORN_AT(gillacorn_frame, max_stack_size, 32);
GILLACORN_AT(gillacorn_frame, program, 36);

GILLACORN_SIZE(gillacorn_frame_cursor, 16);
GILLACORN_AT(gillacorn_frame_cursor, old_index, 0);
GILLACORN_AT(gillacorn_frame_cursor, new_index, 8);

GILLACORN_SIZE(gillacorn_frame_answer, 44);
GILLACORN_AT(gillacorn_frame_answer, code, 0);
GILLACORN_AT(gillacorn_frame_answer, frame, 4);

GILLACORN_SIZE(gillacorn_frame_cursor_answer, 24);
GILLACORN_AT(gillacorn_frame_cursor_answer, code, 0);
GILLACORN_AT(gillacorn_frame_cursor_answer, cursor, 8);

GILLACORN_SIZE(gillacorn_frame_step_answer, 64);
GILLACORN_AT(gillacorn_frame_step_answer, code, 0);
GILLACORN_AT(gillacorn_frame_step_answer, frame, 4);
GILLACORN_AT(gillacorn_frame_step_answer, cursor, 48);

GILLACORN_SIZE(gillacorn_span, 12);
GILLACORN_AT(gillacorn_span, present, 0);
GILLACORN_AT(gillacorn_span, start, 4);
GILLACORN_AT(gillacorn_span, length, 8);

GILLACORN_SIZE(gillacorn_spans, 72);
GILLACORN_AT(gillacorn_spans, original_sections, 0);
GILLACORN_AT(gillacorn_spans, transformed_sections, 12);
GILLACORN_AT(gillacorn_spans, to_original, 24);
GILLACORN_AT(gillacorn_spans, to_transformed, 36);
GILLACORN_AT(gillacorn_spans, old_frames, 48);
GILLACORN_AT(gillacorn_spans, new_frames, 60);

GILLACORN_SIZE(gillacorn_spans_answer, 76);
GILLACORN_AT(gillacorn_spans_answer, code, 0);
GILLACORN_AT(gillacorn_spans_answer, spans, 4);

GILLACORN_SIZE(gillacorn_bytes_answer, 16);
GILLACORN_AT(gillacorn_bytes_answer, code, 0);
GILLACORN_AT(gillacorn_bytes_answer, bytes, 8);

#undef GILLACORN_AT
#undef GILLACORN_SIZE
#undef GILLACORN_HOLDS
