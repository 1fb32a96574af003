/* Prints the size of each struct of the header and the place of each field, as tests/c.rs prints those of the Rust side. */
#include "tidmaruls.h"
#include <stdio.h>

#define STATIC_ASSERT(name, holds) typedef char name[(holds) ? 1 : -1]
STATIC_ASSERT(a_byte_has_eight_bits, sizeof(uint32_t) == 4 && sizeof(uint8_t) == 1);
STATIC_ASSERT(a_window_has_no_gaps, sizeof(tid_window) == 64 + 4 * 4);
STATIC_ASSERT(a_table_has_no_gaps, sizeof(tid_table) == 32 * 3 * 4 + 4);
STATIC_ASSERT(a_store_answer_has_no_gaps,
              sizeof(tid_store_answer) == 4 + sizeof(tid_window) + sizeof(tid_table));

#define SIZE(type) printf(#type " %u\n", (unsigned)sizeof(type))
#define FIELD(type, field) printf(#type "." #field " %u\n", (unsigned)offsetof(type, field))

static void passed(void) {
    SIZE(tid_geometry);
    FIELD(tid_geometry, block_size);
    FIELD(tid_geometry, block_count);
    SIZE(tid_window);
    FIELD(tid_window, map);
    FIELD(tid_window, start);
    FIELD(tid_window, next);
    FIELD(tid_window, size);
    FIELD(tid_window, ckpoint);
    SIZE(tid_entry);
    FIELD(tid_entry, number);
    FIELD(tid_entry, size);
    FIELD(tid_entry, head);
    SIZE(tid_table);
    FIELD(tid_table, files);
    FIELD(tid_table, count);
    SIZE(tid_place);
    FIELD(tid_place, index);
    FIELD(tid_place, block);
    FIELD(tid_place, held);
    FIELD(tid_place, after);
}

static void lists(void) {
    SIZE(tid_index_answer);
    FIELD(tid_index_answer, code);
    FIELD(tid_index_answer, index);
    FIELD(tid_index_answer, offset);
    SIZE(tid_find_answer);
    FIELD(tid_find_answer, code);
    FIELD(tid_find_answer, block);
    FIELD(tid_find_answer, offset);
    FIELD(tid_find_answer, hops);
    SIZE(tid_visit_answer);
    FIELD(tid_visit_answer, code);
    FIELD(tid_visit_answer, more);
    FIELD(tid_visit_answer, place);
    SIZE(tid_traverse_answer);
    FIELD(tid_traverse_answer, code);
    FIELD(tid_traverse_answer, block);
    FIELD(tid_traverse_answer, more);
    FIELD(tid_traverse_answer, place);
    SIZE(tid_check_answer);
    FIELD(tid_check_answer, code);
    FIELD(tid_check_answer, kind);
    FIELD(tid_check_answer, index);
    FIELD(tid_check_answer, pointer);
}

static void windows(void) {
    SIZE(tid_window_answer);
    FIELD(tid_window_answer, code);
    FIELD(tid_window_answer, window);
    SIZE(tid_alloc_answer);
    FIELD(tid_alloc_answer, code);
    FIELD(tid_alloc_answer, block);
    FIELD(tid_alloc_answer, window);
    SIZE(tid_extend_answer);
    FIELD(tid_extend_answer, code);
    FIELD(tid_extend_answer, block);
    FIELD(tid_extend_answer, offset);
    FIELD(tid_extend_answer, window);
}

static void files(void) {
    SIZE(tid_table_answer);
    FIELD(tid_table_answer, code);
    FIELD(tid_table_answer, table);
    SIZE(tid_size_answer);
    FIELD(tid_size_answer, code);
    FIELD(tid_size_answer, size);
    SIZE(tid_seek_answer);
    FIELD(tid_seek_answer, code);
    FIELD(tid_seek_answer, position);
    SIZE(tid_save_answer);
    FIELD(tid_save_answer, code);
    FIELD(tid_save_answer, length);
    SIZE(tid_read_answer);
    FIELD(tid_read_answer, code);
    FIELD(tid_read_answer, length);
    SIZE(tid_stretch_answer);
    FIELD(tid_stretch_answer, code);
    FIELD(tid_stretch_answer, place);
    FIELD(tid_stretch_answer, length);
    SIZE(tid_store_answer);
    FIELD(tid_store_answer, code);
    FIELD(tid_store_answer, window);
    FIELD(tid_store_answer, table);
}

int main(void) {
    passed();
    lists();
    windows();
    files();
    return 0;
}
