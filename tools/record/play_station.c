/* Plays a recording: FILE [--from N] [--until N] [--png DIR] [--calls]. The status is 0 where all is equal, 1 where
 * something differs or the file is damaged, 2 where nothing can be played. */
#define _POSIX_C_SOURCE 200809L
#include "reading.h"
#include "script.h"

#include <inttypes.h>
#include <signal.h>
#include <stdarg.h>
#include <stdio.h>
#include <stdlib.h>
#include <string.h>
#include <time.h>
#include <unistd.h>

static struct {
    const char *path, *png;
    uint64_t from, until;
    bool has_from, calls;
} asked = {.until = UINT64_MAX};

static struct {
    uint64_t calls, equal, replaced, last; /* calls made, memory compared, memory that somebody else wrote */
    struct memory_at *screen;              /* that of the last call with one */
    time_t said;
} so_far;

_Noreturn void fail(int status, const char *format, ...) {
    va_list words;
    fflush(stdout);
    va_start(words, format);
    fputs("play-station: ", stderr);
    vfprintf(stderr, format, words);
    fputc('\n', stderr);
    va_end(words);
    exit(status);
}

/* ---- What is asked ---- */

static uint64_t number_in(const char *word, const char *number) {
    char *end = NULL;
    uint64_t n = number == NULL ? 0 : strtoull(number, &end, 10);
    if (number == NULL || number[0] < '0' || number[0] > '9' || *end != 0)
        fail(2, "%s is followed by the number of a record", word);
    return n;
}

static void read_words(char **words) {
    for (; *words != NULL; words++) {
        if (strcmp(*words, "--from") == 0) {
            asked.has_from = true;
            asked.from = number_in("--from", *++words);
        } else if (strcmp(*words, "--until") == 0) {
            asked.until = number_in("--until", *++words);
        } else if (strcmp(*words, "--png") == 0 && words[1] != NULL) {
            asked.png = *++words;
        } else if (strcmp(*words, "--calls") == 0) {
            asked.calls = true;
        } else if (asked.path == NULL && (*words)[0] != '-') {
            asked.path = *words;
        } else {
            fail(2, "it is called as play-station FILE [--from N] [--until N] [--png DIR] [--calls]");
        }
        if (*words == NULL)
            break;
    }
    if (asked.path == NULL)
        fail(2, "it is called as play-station FILE [--from N] [--until N] [--png DIR] [--calls]");
    if (asked.calls && asked.has_from)
        fail(2, "--calls has all calls from the start on, and so no --from");
}

/* ---- Differences ---- */

static void picture(uint64_t number) {
    if (asked.png == NULL || so_far.screen == NULL || so_far.screen->width == 0)
        return;
    if (!write_picture(asked.png, number, so_far.screen))
        fail(2, "no picture can be written to %s", asked.png);
}

static void print_words(const char *before, const int64_t *words, size_t count) {
    printf("%s", before);
    for (size_t i = 0; i < count; i++)
        printf(" %" PRId64, words[i]);
    putchar('\n');
}

/* What a call gave, as numbers. */
static struct play shown(const struct known *k, const uint8_t *at, size_t len) {
    struct play p = {.in = {at, len, false}};
    k->show(&p);
    return p;
}

_Noreturn static void differs(uint64_t number, const struct play *p) {
    struct play recorded = shown(p->known, p->in.at, p->in.left), given = shown(p->known, p->given.at, p->given.len);
    FILE *out = stdout;
    fprintf(out, "record %" PRIu64 ": %s", number, p->known->name);
    print_words("", p->words, p->word_count);
    print_words("  recorded:", recorded.words, recorded.word_count);
    print_words("  given now:", given.words, given.word_count);
    if (memcmp(recorded.words, given.words, sizeof given.words) == 0)
        puts("  and a list, a target, a buffer, a store or a screen has other contents");
    picture(number);
    fail(1, "record %" PRIu64 " is answered otherwise than it was", number);
}

_Noreturn static void memory_differs(uint64_t number, uint32_t at, size_t word, uint32_t recorded) {
    static const char *const names[] = {"", "session", "store", "screen"};
    struct memory_at *m = memory_of(at);
    picture(number);
    printf("record %" PRIu64 ": %s %u, 32-bit word %zu", number, names[m->what], at, word);
    if (m->what == SCREEN && m->width != 0)
        printf(", pixel (%zu,%zu)", word % m->width, word / m->width);
    printf("\n  recorded: %08x\n  made now: %08x\n", recorded, m->at[word]);
    fail(1, "the %s of record %" PRIu64 " is not what the calls made: somebody else wrote it (duty D8), or it is drawn "
            "otherwise now", names[m->what], number);
}

/* ---- Records ---- */

static const struct known *known_call(uint32_t call) {
    for (size_t i = 0; i < known_count; i++)
        if (known_calls[i].call == call)
            return &known_calls[i];
    return NULL;
}

static bool is_equal(const struct play *p) {
    return p->in.left >= p->given.len && p->in.left - p->given.len < 8 &&
           memcmp(p->in.at, p->given.at, p->given.len) == 0;
}

static void play_call(struct reader contents, uint64_t number) {
    static struct bytes given;
    struct play p = {.in = contents, .given = given, .is_scripted = asked.calls};
    p.known = known_call(get_u32(&p.in));
    p.given.len = 0;
    if (p.known == NULL)
        fail(1, "record %" PRIu64 " is a call that this library does not have: play the file with its own", number);
    p.known->play(&p);
    if (p.in.failed)
        fail(1, "record %" PRIu64 " is no call of %s that can be made", number, p.known->name);
    if (p.screen != NULL)
        so_far.screen = p.screen;
    if (!is_equal(&p))
        differs(number, &p);
    if (asked.calls) {
        struct play made = shown(p.known, p.given.at, p.given.len);
        script_given(&p, &made, number);
    }
    for (size_t i = 0; i < p.array_count; i++)
        free(p.arrays[i].at);
    if (p.screen != NULL && asked.has_from && number >= asked.from)
        picture(number);
    given = p.given;
    so_far.calls++;
}

static void play_memory_record(struct reader contents, uint64_t number) {
    uint32_t at, recorded = 0;
    size_t word = 0;
    switch (take_memory(&contents, &at, &word, &recorded)) {
    case TAKEN: break;
    case EQUAL: so_far.equal++; break;
    case REPLACED: so_far.replaced++; break;
    case DIFFERENT: memory_differs(number, at, word, recorded);
    case WRONG: fail(1, "record %" PRIu64 " is no session, store or screen", number);
    }
}

static void progress(uint64_t number, uint64_t last) {
    time_t now = time(NULL);
    if (so_far.said == 0)
        so_far.said = now;
    if (now - so_far.said < 2)
        return;
    so_far.said = now;
    fprintf(stderr, "play-station: at record %" PRIu64 " of %" PRIu64 "\n", number, last);
}

/* Plays the records of a run. */
static void play_run(const struct reading *r, size_t first, size_t behind_last) {
    for (size_t i = first; i < behind_last && r->entries[i].number <= asked.until; i++) {
        struct entry e = r->entries[i];
        uint32_t kind = record_at(r, e.at).kind;
        so_far.last = e.number;
        if (kind == CALL)
            play_call(contents_at(r, e.at), e.number);
        if (kind == MEMORY)
            play_memory_record(contents_at(r, e.at), e.number);
        progress(e.number, r->entries[behind_last - 1].number);
    }
}

/* ---- The file ---- */

static void when(const struct reading *r, size_t entry, char text[32]) {
    struct reader contents = contents_at(r, r->entries[entry].at);
    time_t at = (time_t)get_u64(&contents);
    struct tm parts;
    if (gmtime_r(&at, &parts) == NULL || strftime(text, 32, "%Y-%m-%d %H:%M:%S UTC", &parts) == 0)
        strcpy(text, "no time");
}

/* The last snapshot of a run up to a number, or else its first one; the run's end where it has none. */
static size_t snapshot_in(const struct reading *r, size_t first, size_t end, uint64_t upto) {
    size_t found = end;
    for (size_t i = first; i < end; i++)
        if (record_at(r, r->entries[i].at).kind == SNAPSHOT && (found == end || r->entries[i].number <= upto))
            found = i;
    return found;
}

/* How the file ends. */
static void say_end(const struct reading *r) {
    size_t last = r->count - 1;
    uint64_t number = r->entries[last].number;
    char why[257] = "";
    if (record_at(r, r->entries[last].at).kind == CLOSED) {
        struct reader contents = contents_at(r, r->entries[last].at);
        get(&contents, why, contents.left < 256 ? contents.left : 256);
        if (why[0] != 0)
            fprintf(stderr, "play-station: the recording ended with record %" PRIu64 ": %s\n", number, why);
        return;
    }
    fprintf(stderr, "play-station: the recording was not closed: the station was killed, or records still, or record %"
                    PRIu64 " is damaged\n", number + 1);
    if (is_torn(r))
        fprintf(stderr, "play-station: record %" PRIu64 ", at byte %" PRIu64 ", was begun and not finished\n",
                number + 1, behind(r, last));
}

/* Names what is broken between two runs. */
static void say_broken(const struct reading *r, size_t last) {
    fprintf(stderr, "play-station: record %" PRIu64 ", at byte %" PRIu64 ", is broken; the next whole one is record %"
                    PRIu64 "\n", r->entries[last].number + 1, behind(r, last), r->entries[last + 1].number);
}

/* The run to be played: the first that has a snapshot and, where one is asked for, the record. */
static void choose(const struct reading *r, size_t *first, size_t *end, bool *broken) {
    *end = *first = 0;
    *broken = false;
    for (size_t at = 0, n; at < r->count; at += n) {
        n = run_from(r, at);
        bool reaches = !asked.has_from || r->entries[at + n - 1].number >= asked.from;
        size_t snapshot = snapshot_in(r, at, at + n, asked.has_from ? asked.from : 0);
        if (*end == 0 && reaches && snapshot < at + n) {
            *first = snapshot;
            *end = at + n;
        }
        if (at + n < r->count) {
            say_broken(r, at + n - 1);
            *broken = true;
        }
    }
}

/* A call on a session that no calls made may do anything. */
static void crashed(int signal) {
    static const char words[] = "play-station: a call crashed: the file has a session that no calls made\n";
    (void)signal;
    _exit(write(2, words, sizeof words - 1) > 0 ? 1 : 1);
}

int main(int count, char **words) {
    struct reading r;
    size_t first, end;
    bool broken;
    char time[32];
    signal(SIGSEGV, crashed);
    signal(SIGBUS, crashed);
    signal(SIGFPE, crashed);
    signal(SIGILL, crashed);
    read_words(words + (count > 0));
    read_recording(&r, asked.path);
    if (r.is_cut)
        fprintf(stderr, "play-station: %s is cut off: it has %" PRIu64 " of %" PRIu64 " bytes\n", asked.path,
                RING_AT + r.bytes, RING_AT + r.head.ring_bytes);
    choose(&r, &first, &end, &broken);
    if (end == 0)
        fail(2, "%s has no snapshot from which it could be played", asked.path);
    when(&r, first, time);
    uint64_t last = r.entries[end - 1].number;
    fprintf(stderr, "play-station: from record %" PRIu64 ", recorded at %s, to record %" PRIu64 "\n",
            r.entries[first].number, time, last < asked.until ? last : asked.until);
    play_run(&r, first, end);
    picture(so_far.last);
    say_end(&r);
    fprintf(asked.calls ? stderr : stdout, "%" PRIu64 " calls gave what was recorded, and %" PRIu64
            " sessions, stores and screens are equal at snapshots%s\n", so_far.calls, so_far.equal,
            so_far.replaced == 0 ? "" : "; somebody else wrote memory between two calls");
    return broken || r.is_cut;
}
