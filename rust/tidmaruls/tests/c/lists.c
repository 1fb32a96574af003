/* The list calls from C, on a list of three blocks laid out by hand. */
#include "expect.h"
#include "tidmaruls.h"
#include <stdio.h>
#include <string.h>

static void put(uint8_t *block, uint32_t pointer, uint32_t number) {
    int byte;
    for (byte = 0; byte < 4; byte++) {
        block[4 * pointer + byte] = (uint8_t)(number >> (8 * byte));
    }
}

int main(void) {
    const tid_geometry geometry = {128, 4};
    static uint8_t image[512];
    const uint32_t head = 0, size = 300;
    tid_visit_answer begun;
    tid_traverse_answer step;
    tid_find_answer found;
    tid_check_answer checked;
    /* Index 0 is block 2, index 1 block 3, index 2 block 0. */
    memset(image, (int)TID_ERASED, sizeof image);
    put(image + 3 * 128, 0, 2);
    put(image, 0, 3);
    put(image, 1, 2);

    EXPECT(tid_index(128, 252).index == 2 && tid_index(128, 252).offset == 8);
    EXPECT(tid_index(127, 0).code == TID_INVALID);

    found = tid_find(geometry, image, sizeof image, head, size, 5);
    EXPECT(found.code == TID_OK && found.block == 2 && found.offset == 5 && found.hops == 1);
    EXPECT(tid_find(geometry, image, sizeof image, head, size, 300).code == TID_INVALID);
    EXPECT(tid_find(geometry, image, sizeof image, 4, size, 5).code == TID_DAMAGED);

    begun = tid_visit(geometry, head, size);
    EXPECT(begun.code == TID_OK && begun.more == 1);
    step = tid_traverse(geometry, image, sizeof image, begun.place);
    EXPECT(step.code == TID_OK && step.block == 0 && step.more == 1);
    step = tid_traverse(geometry, image, sizeof image, step.place);
    EXPECT(step.code == TID_OK && step.block == 3 && step.more == 1);
    step = tid_traverse(geometry, image, sizeof image, step.place);
    EXPECT(step.code == TID_OK && step.block == 2 && step.more == 0);

    EXPECT(tid_check(geometry, image, sizeof image, head, size).kind == TID_SOUND);
    put(image, 1, 1);
    checked = tid_check(geometry, image, sizeof image, head, size);
    EXPECT(checked.kind == TID_DISAGREES && checked.index == 2 && checked.pointer == 1);
    EXPECT(tid_check(geometry, image, sizeof image - 1, head, size).code == TID_INVALID);
    puts("lists from C");
    return 0;
}
