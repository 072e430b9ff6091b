/* opened FILE: opens recordings by the recorder's own calls, and sees what they answer. */
#include "roqshyn.h"
#include "roqshyn_record.h"

#include <stdio.h>
#include <string.h>

enum { C = 1000, STORE = 16 * C };

static RoqSession s;
static uint32_t store[STORE];
static int wrong;

static void expect(const char *what, const char *said, const char *part) {
    if (part == NULL ? said == NULL : said != NULL && strstr(said, part) != NULL)
        return;
    printf("%s: %s\n", what, said == NULL ? "nothing is said" : said);
    wrong = 1;
}

static void play(void) {
    roq_start(&s, C);
    roq_create(&s);
    roq_resize(&s, 0, 10, 10, store, STORE);
}

int main(int count, char **words) {
    if (count != 2)
        return 2;
    expect("no folder", roq_record_open("/dev/null/nowhere", 1 << 20), "Not a directory");
    expect("too few bytes", roq_record_open(words[1], 1000), "at least 65536 bytes");
    expect("more than the disk", roq_record_open(words[1], (uint64_t)1 << 60), "nothing is recorded");
    play();
    expect("nothing open", roq_record_close(), NULL);
    expect("too small", roq_record_open(words[1], 100000), NULL);
    play();
    expect("too small, at the end", roq_record_close(), "too small for two snapshots");
    expect("open", roq_record_open(words[1], 1 << 20), NULL);
    play();
    expect("open again", roq_record_open(words[1], 1 << 20), NULL);
    play();
    expect("closed", roq_record_close(), NULL);
    return wrong;
}
