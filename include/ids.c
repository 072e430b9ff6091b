/* Whether every call that takes an id answers 3 where no window has it, however large the number is, and leaves session,
 * store, list, target and buffer as they were. All sixteen windows are in use, so that a number cut on its way into a
 * call would be one of theirs. */
#include "roqshyn.h"

#include <stdio.h>
#include <string.h>

enum { C = 64, STORE = 16 * C };
typedef struct Lent {
    uint32_t store[STORE], list[4], target[1];
    uint8_t bytes[16];
} Lent;
static RoqSession s, before;
static Lent lent, kept;
static int failed = 0;

static void refused(const char *call, uint32_t id, uint32_t answer) {
    if (answer == 3 && memcmp(&s, &before, sizeof s) == 0 && memcmp(&lent, &kept, sizeof lent) == 0)
        return;
    printf("%s of id %lu was answered by %lu, or changed something\n", call, (unsigned long)id, (unsigned long)answer);
    failed = 1;
}

/* Each call that takes an id, with arguments to which it answers 0 of the top window, that is of the last id. */
static void every_call(uint32_t id) {
    const RoqRect area = {{0, 0}, {1, 1}};
    const RoqLook look = {0, 0, 1, false};
    const uint32_t data[1] = {9};
    refused("rect_of", id, roq_rect_of(&s, id).answer);
    refused("window", id, roq_window(&s, id).answer);
    refused("share", id, roq_share(&s, id).answer);
    refused("visible", id, roq_visible(&s, id, lent.list, 4).answer);
    refused("sheet", id, roq_sheet(&s, id, lent.bytes, 16).answer);
    refused("look", id, roq_look(&s, id, look, 1, 1, lent.store, STORE, lent.target, 1));
    refused("pop", id, roq_pop(&s, id).answer);
    refused("fill", id, roq_fill(&s, id, area, 9, lent.store, STORE).answer);
    refused("blit", id, roq_blit(&s, id, area, 1, data, 1, lent.store, STORE).answer);
    refused("mark", id, roq_mark(&s, id));
    refused("move", id, roq_move(&s, id, 1, 1));
    refused("drag", id, roq_drag(&s, id, 1, 1));
    refused("resize", id, roq_resize(&s, id, 4, 4, lent.store, STORE));
    refused("maximise", id, roq_maximise(&s, id, lent.store, STORE));
    refused("set_layer", id, roq_set_layer(&s, id, 1));
    refused("hide", id, roq_hide(&s, id));
    refused("show", id, roq_show(&s, id));
    refused("raise", id, roq_raise(&s, id));
    refused("drop", id, roq_drop(&s, id));
}

int main(void) {
    static const uint32_t ids[] = {16, 65535, 65536, 65551, UINT32_MAX - 15, UINT32_MAX};
    int unlike = roq_start(&s, C) != 0;
    for (uint32_t id = 0; id < 16; id++)
        unlike |= roq_create(&s).id != id || roq_resize(&s, id, 8, 8, lent.store, STORE) != 0 || roq_show(&s, id) != 0;
    RoqCreated none = roq_create(&s);
    if (unlike || none.answer != 4 || none.id != ROQ_NO_ID) {
        printf("sixteen windows are not made, or a seventeenth one is\n");
        return 1;
    }
    before = s;
    kept = lent;
    for (size_t i = 0; i < sizeof ids / sizeof ids[0]; i++)
        every_call(ids[i]);
    if (!failed)
        printf("numbers that no window has are answered by 3\n");
    return failed;
}
