/* The main job from C: a file made, written across a block border, read back, checked, saved and loaded; refusals. */
#include "expect.h"
#include "tidmaruls.h"
#include <stdio.h>
#include <string.h>

enum { BLOCK = 128, COUNT = 16, LOOKAHEAD = 8 };
static const tid_geometry geometry = {BLOCK, COUNT};
static uint8_t image[BLOCK * COUNT], before[BLOCK * COUNT], health[COUNT];
static tid_window window;
static tid_table table;

static int32_t write_at(uint32_t number, uint32_t position, const void *data, size_t length) {
    const tid_store_answer stored =
        tid_write(geometry, LOOKAHEAD, image, sizeof image, health, sizeof health, window, table,
                  number, position, (const uint8_t *)data, length);
    window = stored.window;
    table = stored.table;
    return stored.code;
}

static int32_t truncate_to(uint32_t number, uint32_t size) {
    const tid_store_answer stored = tid_truncate(geometry, LOOKAHEAD, image, sizeof image, health,
                                                 sizeof health, window, table, number, size);
    window = stored.window;
    table = stored.table;
    return stored.code;
}

static int files(void) {
    const char stop[] = "a stop across a border";
    uint8_t bytes[BLOCK], saved[TID_SAVED_MAX];
    tid_read_answer read;
    tid_stretch_answer stretch;
    tid_save_answer length;
    tid_table_answer loaded;

    EXPECT(write_at(3, 0, stop, 0) == TID_NO_FILE);
    table = tid_create(table, 3).table;
    EXPECT(tid_create(table, 3).code == TID_EXISTS && tid_create(table, 65536).code == TID_INVALID);
    EXPECT(write_at(3, BLOCK - 10, stop, sizeof stop) == TID_OK);
    EXPECT(tid_size(table, 3).size == BLOCK - 10 + sizeof stop);

    memset(bytes, '.', sizeof bytes);
    read = tid_read(geometry, image, sizeof image, table, 3, BLOCK - 10, bytes, sizeof bytes);
    EXPECT(read.code == TID_OK && read.length == sizeof stop);
    EXPECT(memcmp(bytes, stop, sizeof stop) == 0 && bytes[sizeof stop] == '.');
    stretch = tid_stretch(geometry, image, sizeof image, table, 3, BLOCK);
    EXPECT(stretch.code == TID_OK && stretch.length == sizeof stop - 10);
    EXPECT(memcmp(image + stretch.place, stop + 10, stretch.length) == 0);
    EXPECT(tid_seek(table, 3, 5, -6, TID_SEEK_HELD).code == TID_INVALID);
    EXPECT(tid_seek(table, 3, 5, -1, TID_SEEK_END).position == BLOCK - 11 + sizeof stop);
    EXPECT(tid_check(geometry, image, sizeof image, table.files[0].head, table.files[0].size).kind == TID_SOUND);

    EXPECT(tid_save(table, saved, 3).code == TID_INVALID);
    length = tid_save(table, saved, sizeof saved);
    EXPECT(length.code == TID_OK);
    loaded = tid_load(saved, length.length);
    EXPECT(loaded.code == TID_OK && memcmp(&loaded.table, &table, sizeof table) == 0);
    EXPECT(tid_load(saved, length.length - 1).code == TID_DAMAGED);
    return 0;
}

static int refusals(void) {
    const tid_table kept = table;
    memcpy(before, image, sizeof image);
    EXPECT(write_at(3, TID_FILE_MAX, "xx", 2) == TID_TOO_LARGE);
    EXPECT(write_at(3, TID_FILE_MAX + 1, "xx", 2) == TID_INVALID);
    EXPECT(truncate_to(4, 0) == TID_NO_FILE);
    EXPECT(memcmp(&kept, &table, sizeof table) == 0 && memcmp(before, image, sizeof image) == 0);
    EXPECT(truncate_to(3, BLOCK * COUNT) == TID_NO_ROOM);
    EXPECT(memcmp(&kept, &table, sizeof table) == 0);
    EXPECT(truncate_to(3, 1) == TID_OK && tid_size(table, 3).size == 1);
    EXPECT(tid_remove(table, 3).table.count == 0);
    return 0;
}

/* One file grown by hand: a block taken, then a growth from the list that it makes. */
static int blocks(void) {
    const tid_table none = {{{0, 0, 0}}, 0};
    const tid_window fresh = tid_fresh(geometry, LOOKAHEAD, 5).window;
    const tid_alloc_answer taken = tid_alloc(geometry, LOOKAHEAD, image, sizeof image, none, fresh);
    tid_extend_answer grown;
    EXPECT(taken.code == TID_OK && taken.block == 5 && taken.window.ckpoint == COUNT - 1);
    grown = tid_extend(geometry, LOOKAHEAD, image, sizeof image, health, sizeof health, none,
                       taken.window, taken.block, BLOCK);
    EXPECT(grown.code == TID_OK && grown.block == 6 && grown.offset == 4);
    EXPECT(image[6 * BLOCK] == 5 && image[6 * BLOCK + 4] == TID_ERASED);
    EXPECT(tid_ckpoint(geometry, LOOKAHEAD, grown.window).window.ckpoint == COUNT);
    EXPECT(tid_drop(geometry, LOOKAHEAD, grown.window).window.size == 0);
    EXPECT(tid_fresh(geometry, LOOKAHEAD, COUNT).code == TID_INVALID);
    return 0;
}

int main(void) {
    memset(image, (int)TID_ERASED, sizeof image);
    health[0] = TID_REFUSES_ERASE;
    health[1] = TID_REFUSES_PROGRAM;
    window = tid_fresh(geometry, LOOKAHEAD, 0).window;
    if (files() != 0 || refusals() != 0 || blocks() != 0) {
        return 1;
    }
    puts("files from C");
    return 0;
}
