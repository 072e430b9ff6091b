/* Files: the layout, which is there again at the next start, and the plan's sheet. */
#include "desk.h"

#include <stdio.h>
#include <string.h>

static FILE *open_file(const char *name, const char *mode) {
    char path[4096];
    if (desk->files == NULL) return NULL;
    snprintf(path, sizeof path, "%s/%s", desk->files, name);
    FILE *file = fopen(path, mode);
    if (file == NULL && mode[0] == 'w') fprintf(stderr, "desk: %s cannot be written\n", path);
    return file;
}

/* Whether the desk is stopped, and a line for each panel, the lowest first. It is written when the desk stops, too, so
 * that it is stopped at the next start whatever ended it. */
void save_layout(void) {
    FILE *file = open_file("desk.layout", "w");
    desk->unsaved = false;
    if (file == NULL) return;
    remember();
    fprintf(file, "stopped %d\n", desk->stopped);
    for (uint32_t k = 0; k < PANELS; k++) {
        uint32_t id = desk->order[k];
        fprintf(file, "%s %u %u %s\n", names[id], (unsigned)desk->at[id].x, (unsigned)desk->at[id].y, desk->reverse[id] ? "reverse" : "normal");
    }
    fclose(file);
}

/* A panel comes to the top of the order. */
static void put_on_top(uint32_t id) {
    uint32_t k = 0;
    while (desk->order[k] != id) k++;
    memmove(desk->order + k, desk->order + k + 1, (PANELS - 1 - k) * sizeof *desk->order);
    desk->order[PANELS - 1] = id;
}

/* A line that is not as it was written is passed over, and a file without its first line is one of a stopped desk. */
void load_layout(void) {
    char line[64], name[8], lies[8];
    unsigned x, y;
    FILE *file = open_file("desk.layout", "r");
    if (file == NULL) return;
    desk->stopped = fgets(line, sizeof line, file) == NULL || strcmp(line, "stopped 0\n") != 0;
    while (fgets(line, sizeof line, file) != NULL)
        for (uint32_t id = W1; id < LENS; id++) {
            if (sscanf(line, "%7s %u %u %7s", name, &x, &y, lies) != 4 || strcmp(name, names[id]) != 0) continue;
            if (x > DISPLAYS * W - PW || y > H - PH) continue;
            desk->at[id] = (RoqPos){x, y};
            desk->reverse[id] = strcmp(lies, "reverse") == 0;
            put_on_top(id);
        }
    fclose(file);
}

/* What is seen of the plan, as a plan printer gets it, and read back from the file. */
void print_sheet(void) {
    static uint8_t bytes[ROQ_SHEET_LEN], again[ROQ_SHEET_LEN];
    static uint32_t list[ROQ_READ_SHEET_LEN];
    RoqListing sheet = roq_sheet(&desk->s, PLAN, bytes, sizeof bytes);
    must("sheet", sheet.answer);
    FILE *file = open_file("desk.sheet", "wb");
    if (file == NULL) return;
    fwrite(bytes, 1, sheet.count, file);
    fclose(file);
    file = open_file("desk.sheet", "rb");
    if (file == NULL) return;
    size_t got = fread(again, 1, sizeof again, file);
    fclose(file);
    RoqListing read = roq_read_sheet(again, got, list, ROQ_READ_SHEET_LEN);
    printf("sheet of %zu bytes, read with answer %u: %zu rectangles\n", got, (unsigned)read.answer, read.count);
}
