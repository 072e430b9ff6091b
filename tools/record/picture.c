/* Pictures of a screen. */
#define _POSIX_C_SOURCE 200809L
#include "play.h"

#include <stdio.h>

bool write_picture(const char *folder, uint64_t number, const struct memory_at *screen) {
    char path[4096];
    snprintf(path, sizeof path, "%s/call-%llu.ppm", folder, (unsigned long long)number);
    FILE *file = fopen(path, "wb");
    if (file == NULL)
        return false;
    fprintf(file, "P6\n%u %u\n255\n", screen->width, screen->height);
    for (size_t i = 0; i < (size_t)screen->width * screen->height; i++) {
        uint32_t pixel = screen->at[i];
        putc_unlocked((int)(pixel >> 16 & 255), file);
        putc_unlocked((int)(pixel >> 8 & 255), file);
        putc_unlocked((int)(pixel & 255), file);
    }
    bool good = ferror(file) == 0;
    return fclose(file) == 0 && good;
}
