/*
 * Tidmaruls: files in block lists on flash, proved.
 *
 * C99, self-contained, usable from C++. Link with libtidmaruls.a (`tools/archive` writes it to target/staticlib).
 *
 * Every call takes its structs by value and answers a struct by value whose first field is `code`: 0, or one of the TID_
 * refusals below. A refused call's other values are 0; a window and a table in its answer are what the refusal leaves
 * behind, so `window = answer.window; table = answer.table;` is right after every call.
 *
 * Bytes go as pointer and length. No call asks anything of the values that it is given: it tests them and refuses. It asks
 * of the pointers what C cannot test: not NULL, also where the length is 0; good for their length during the call; and no
 * byte that a call may change lies in another of its slices. No call keeps a pointer, allocates memory or holds any state.
 *
 * The order of the tests: geometry and slice lengths, lookahead and health bytes; window and table; file number; position
 * and length; then the card, step by step.
 */
#ifndef TIDMARULS_H
#define TIDMARULS_H

#include <stddef.h>
#include <stdint.h>

#ifdef __cplusplus
extern "C" {
#endif

/* ---- Refusals: what `code` can be ---- */

#define TID_OK 0
/* No such file. All is left as it came. */
#define TID_NO_FILE (-2)
/* Create: the table holds TID_FILES files. All is left as it came. */
#define TID_TABLE_FULL (-12)
/* Create: the file is there. All is left as it came. */
#define TID_EXISTS (-17)
/* A value outside the rules: geometry, lookahead, slice length, health byte, window, table, position, seek, size above
 * TID_FILE_MAX, file number above TID_NUMBER_MAX, save buffer too short. All is left as it came. */
#define TID_INVALID (-22)
/* Write: position + length is above TID_FILE_MAX. All is left as it came. */
#define TID_TOO_LARGE (-27)
/* No block is left. The table is left as it came; the window and the blocks tried are as the steps left them. */
#define TID_NO_ROOM (-28)
/* A block number not below the block count, or a saved table not in its exact form. Left behind as with TID_NO_ROOM;
 * reads and loads leave all as it came. */
#define TID_DAMAGED (-84)

/* ---- Constants ---- */

#define TID_BLOCK_SIZE_MIN 128u
#define TID_BLOCK_SIZE_MAX 65536u
#define TID_BLOCK_COUNT_MAX 65536u
#define TID_IMAGE_MAX 16777216u  /* block size times block count */
#define TID_LOOKAHEAD_MIN 8u     /* a lookahead is a multiple of 8 */
#define TID_LOOKAHEAD_MAX 64u
#define TID_FILES 32u            /* files in a table */
#define TID_NUMBER_MAX 65535u    /* the largest file number */
#define TID_FILE_MAX 2147483647u /* the largest size and position */
#define TID_NULL 4294967295u     /* the head of an empty list */
#define TID_ERASED 255u          /* an erased byte */
#define TID_SAVED_MAX 353u       /* no saved table is longer: 1 + 32 * (3 + 5 + 3) */

/* Health of a block. */
#define TID_GOOD 0u
#define TID_REFUSES_ERASE 1u   /* keeps its bytes */
#define TID_REFUSES_PROGRAM 2u /* erases, then refuses its first program and stays erased */

/* From where a seek counts; any other whence answers the held position. */
#define TID_SEEK_START 0
#define TID_SEEK_HELD 1
#define TID_SEEK_END 2

/* ---- What several calls pass ---- */

/* A card of block_count blocks of block_size bytes. Its image has block_size * block_count bytes, its health one a block. */
typedef struct tid_geometry {
    uint32_t block_size;
    uint32_t block_count;
} tid_geometry;

/* The lookahead window. Start with tid_fresh, and hand each call what the last one handed back. */
typedef struct tid_window {
    uint8_t map[64];
    uint32_t start;
    uint32_t next;
    uint32_t size;
    uint32_t ckpoint;
} tid_window;

/* A file: its number, its size, and the last block of its list (TID_NULL if the size is 0). */
typedef struct tid_entry {
    uint32_t number;
    uint32_t size;
    uint32_t head;
} tid_entry;

/* The files, numbers rising. Entries from `count` on are not looked at; an empty table is all zeros. */
typedef struct tid_table {
    tid_entry files[32];
    uint32_t count;
} tid_table;

/* ---- Block lists: they need no table ---- */

typedef struct tid_index_answer {
    int32_t code;
    uint32_t index;
    uint32_t offset;
} tid_index_answer;

/* Index of the block that holds a position, and the offset in that block; for every position and every block size.
 * TID_INVALID: block_size below TID_BLOCK_SIZE_MIN. */
tid_index_answer tid_index(uint32_t block_size, uint32_t position);

typedef struct tid_find_answer {
    int32_t code;
    uint32_t block;
    uint32_t offset;
    uint32_t hops;
} tid_find_answer;

/* Block and offset of a position of the list (head, size), and how many pointers were followed. An empty list answers
 * TID_NULL, 0 and 0, whatever the position.
 * TID_INVALID: geometry, image length, size; position at or past the size. TID_DAMAGED: a block number met on the way. */
tid_find_answer tid_find(tid_geometry geometry, const uint8_t *image, size_t image_length,
                         uint32_t head, uint32_t size, uint32_t position);

/* Where a visit stands: the index to hand over next, its block, and the block below it where that is held. */
typedef struct tid_place {
    uint32_t index;
    uint32_t block;
    uint32_t held;
    uint32_t after;
} tid_place;

typedef struct tid_visit_answer {
    int32_t code;
    uint32_t more; /* 1: go on with tid_traverse at `place`; 0: the list is empty */
    tid_place place;
} tid_visit_answer;

/* Begins the visit of the blocks of the list (head, size), last index first.
 * TID_INVALID: geometry, size. */
tid_visit_answer tid_visit(tid_geometry geometry, uint32_t head, uint32_t size);

typedef struct tid_traverse_answer {
    int32_t code;
    uint32_t block;
    uint32_t more; /* 1: go on at `place`; 0: this was index 0 */
    tid_place place;
} tid_traverse_answer;

/* One step of a visit: hands over the block of place.index.
 * TID_INVALID: geometry, image length. TID_DAMAGED: the block number is not below the block count. */
tid_traverse_answer tid_traverse(tid_geometry geometry, const uint8_t *image, size_t image_length,
                                 tid_place place);

/* What a list check found. */
#define TID_SOUND 0u     /* nothing */
#define TID_BEYOND 1u    /* a number not below the block count, where `index` should be named; pointer 0 */
#define TID_AGAIN 2u     /* a number met before, where `index` should be named; pointer 0 */
#define TID_DISAGREES 3u /* pointer `pointer` of the block of `index` is not what the walk by pointer 0 met */
#define TID_HEADED 4u    /* an empty list whose head is not TID_NULL; index 0, pointer 0 */

typedef struct tid_check_answer {
    int32_t code;
    uint32_t kind;
    uint32_t index;
    uint32_t pointer;
} tid_check_answer;

/* Whether the list (head, size) is sound, or its first fault.
 * TID_INVALID: geometry, image length, size. */
tid_check_answer tid_check(tid_geometry geometry, const uint8_t *image, size_t image_length,
                           uint32_t head, uint32_t size);

/* ---- The window ---- */

typedef struct tid_window_answer {
    int32_t code;
    tid_window window;
} tid_window_answer;

/* A fresh window that starts at block `start`.
 * TID_INVALID: geometry, lookahead, start not below the block count. */
tid_window_answer tid_fresh(tid_geometry geometry, uint32_t lookahead, uint32_t start);

/* The window with its checkpoint count set to the block count: what was handed out so far is listed, or given up.
 * TID_INVALID: geometry, lookahead, window. */
tid_window_answer tid_ckpoint(tid_geometry geometry, uint32_t lookahead, tid_window window);

/* The window emptied: the next allocation scans.
 * TID_INVALID: geometry, lookahead, window. */
tid_window_answer tid_drop(tid_geometry geometry, uint32_t lookahead, tid_window window);

typedef struct tid_alloc_answer {
    int32_t code;
    uint32_t block;
    tid_window window;
} tid_alloc_answer;

/* Takes a block that no file of the table lists.
 * TID_INVALID: geometry, image length, lookahead, window, table. TID_NO_ROOM; TID_DAMAGED: met by a scan. */
tid_alloc_answer tid_alloc(tid_geometry geometry, uint32_t lookahead, const uint8_t *image,
                           size_t image_length, tid_table table, tid_window window);

typedef struct tid_extend_answer {
    int32_t code;
    uint32_t block;
    uint32_t offset; /* where data goes on in `block` */
    tid_window window;
} tid_extend_answer;

/* Grows the list (head, size) by one block: erases it, and copies an incomplete last block or programs the pointers.
 * TID_INVALID: geometry, slice lengths, lookahead, health, window, table, size. TID_NO_ROOM; TID_DAMAGED. */
tid_extend_answer tid_extend(tid_geometry geometry, uint32_t lookahead, uint8_t *image,
                             size_t image_length, const uint8_t *health, size_t health_length,
                             tid_table table, tid_window window, uint32_t head, uint32_t size);

/* ---- The file table ---- */

typedef struct tid_table_answer {
    int32_t code;
    tid_table table;
} tid_table_answer;

/* Makes an empty file.
 * TID_INVALID: table, number; TID_EXISTS; TID_TABLE_FULL. */
tid_table_answer tid_create(tid_table table, uint32_t number);

/* Removes a file.
 * TID_INVALID: table, number; TID_NO_FILE. */
tid_table_answer tid_remove(tid_table table, uint32_t number);

typedef struct tid_size_answer {
    int32_t code;
    uint32_t size;
} tid_size_answer;

/* The size of a file.
 * TID_INVALID: table, number; TID_NO_FILE. */
tid_size_answer tid_size(tid_table table, uint32_t number);

typedef struct tid_seek_answer {
    int32_t code;
    uint32_t position;
} tid_seek_answer;

/* The position `offset` away from the start, the held position or the end; past the end is a position too.
 * TID_INVALID: table, number; TID_NO_FILE; then TID_INVALID: held position, or sum below 0 or above TID_FILE_MAX. */
tid_seek_answer tid_seek(tid_table table, uint32_t number, uint32_t position, int32_t offset,
                         int32_t whence);

typedef struct tid_save_answer {
    int32_t code;
    uint32_t length;
} tid_save_answer;

/* Writes the table's saved form to the front of the buffer; bytes beyond keep their values. TID_SAVED_MAX is enough.
 * TID_INVALID: table; buffer too short. */
tid_save_answer tid_save(tid_table table, uint8_t *buffer, size_t buffer_length);

/* The table whose saved form these bytes are.
 * TID_DAMAGED: they are not one in exact form. */
tid_table_answer tid_load(const uint8_t *bytes, size_t bytes_length);

/* ---- Files on a card ---- */

typedef struct tid_read_answer {
    int32_t code;
    uint32_t length;
} tid_read_answer;

/* Reads from a position to the end of the buffer or of the file; 0 bytes at or past the end. Bytes beyond keep their values.
 * TID_INVALID: geometry, image length, table, number; TID_NO_FILE; then TID_INVALID: position; TID_DAMAGED. */
tid_read_answer tid_read(tid_geometry geometry, const uint8_t *image, size_t image_length,
                         tid_table table, uint32_t number, uint32_t position, uint8_t *buffer,
                         size_t buffer_length);

typedef struct tid_stretch_answer {
    int32_t code;
    uint32_t place;  /* the bytes are image[place] .. image[place + length - 1] */
    uint32_t length; /* 0 at or past the end */
} tid_stretch_answer;

/* Where the bytes from a position to the end of its block or file lie in the image: reading without a copy.
 * Refusals as for tid_read. */
tid_stretch_answer tid_stretch(tid_geometry geometry, const uint8_t *image, size_t image_length,
                               tid_table table, uint32_t number, uint32_t position);

typedef struct tid_store_answer {
    int32_t code;
    tid_window window;
    tid_table table;
} tid_store_answer;

/* Writes data at a position. A gap past the end becomes zeros, bytes past the data stay. No bytes: no change.
 * TID_INVALID: geometry, slice lengths, lookahead, health, window, table, number; TID_NO_FILE; then TID_INVALID: position;
 * TID_TOO_LARGE; TID_NO_ROOM; TID_DAMAGED. */
tid_store_answer tid_write(tid_geometry geometry, uint32_t lookahead, uint8_t *image,
                           size_t image_length, const uint8_t *health, size_t health_length,
                           tid_window window, tid_table table, uint32_t number, uint32_t position,
                           const uint8_t *data, size_t data_length);

/* Gives a file another size: cuts it, or adds zeros.
 * TID_INVALID: geometry, slice lengths, lookahead, health, window, table, number; TID_NO_FILE; then TID_INVALID: size;
 * TID_NO_ROOM; TID_DAMAGED. */
tid_store_answer tid_truncate(tid_geometry geometry, uint32_t lookahead, uint8_t *image,
                              size_t image_length, const uint8_t *health, size_t health_length,
                              tid_window window, tid_table table, uint32_t number, uint32_t size);

#ifdef __cplusplus
}
#endif

#endif
