/* What a call is made with: its numbers, its arrays and its memory. */
#include "play.h"
#include "script.h"

#include <stdlib.h>
#include <string.h>

static void word(struct play *p, int64_t n) {
    if (p->word_count < MOST_WORDS)
        p->words[p->word_count++] = n;
}

uint8_t play_u8(struct play *p) {
    uint8_t n;
    get(&p->in, &n, sizeof n);
    word(p, n);
    return n;
}

uint32_t play_u32(struct play *p) {
    uint32_t n = get_u32(&p->in);
    word(p, n);
    return n;
}

int16_t play_i16(struct play *p) {
    int16_t n;
    get(&p->in, &n, sizeof n);
    word(p, n);
    return n;
}

double play_double(struct play *p) {
    uint64_t bits = get_u64(&p->in);
    double n;
    memcpy(&n, &bits, sizeof n);
    word(p, (int64_t)(bits >> 32));
    word(p, (int64_t)(bits & UINT32_MAX));
    return n;
}

size_t play_size_t(struct play *p) {
    uint64_t n = get_u64(&p->in);
    word(p, (int64_t)n);
    return n;
}

bool play_bool(struct play *p) { return play_u8(p) != 0; }

void play_written(struct play *p, const void *at, size_t bytes) { put_u64(&p->given, summed(1, at, bytes)); }

/* What it gave is compared from here on: a sum of 0 was not asked for. */
void play_drawn(struct play *p, const void *at, size_t bytes) {
    struct reader recorded = p->in;
    uint64_t sum = 0;
    if (recorded.left >= p->given.len) {
        recorded.at += p->given.len;
        recorded.left -= p->given.len;
        sum = get_u64(&recorded);
    }
    put_u64(&p->given, sum == 0 ? 0 : summed(1, at, bytes));
}

void play_sum(struct play *p) { (void)get_u64(&p->in); }

RoqSession *play_session(struct play *p) {
    p->session = get_u32(&p->in);
    p->has_session = true;
    struct memory_at *m = memory_of(p->session);
    if (m == NULL || m->what != SESSION) {
        p->in.failed = true;
        return NULL;
    }
    return (RoqSession *)(void *)m->at;
}

uint32_t *play_memory(struct play *p, enum memory what, size_t *len) {
    struct memory_at *m = memory_of(get_u32(&p->in));
    *len = get_u64(&p->in);
    if (m == NULL || m->what != what || m->len < *len) {
        p->in.failed = true;
        return NULL;
    }
    if (what == STORE) {
        p->has_store = true;
        p->store_len = *len;
    } else {
        p->screen = m;
        p->screen_len = *len;
    }
    return m->at;
}

/* An array of 16 GB at most: no station lends more. */
static bool is_possible(uint64_t len, size_t each) { return len <= ((uint64_t)1 << 34) / each; }

void *play_array(struct play *p, size_t *len, size_t each, bool is_written) {
    *len = get_u64(&p->in);
    void *at = NULL;
    if (!p->in.failed && p->array_count < MOST_ARRAYS && is_possible(*len, each))
        at = malloc(*len == 0 ? 1 : *len * each);
    if (at == NULL) {
        p->in.failed = true;
        return NULL;
    }
    struct array array = {at, *len, each, is_written};
    p->arrays[p->array_count++] = array;
    if (each == sizeof(uint32_t))
        get_words(&p->in, at, *len);
    else
        get(&p->in, at, *len * each);
    return at;
}

void play_picture(struct play *p, uint32_t width, uint32_t height) {
    if (p->screen == NULL || width > 32767 || height > 32767 || (size_t)width * height > p->screen->len)
        return;
    p->screen->width = width;
    p->screen->height = height;
}

bool play_made(struct play *p) {
    if (!p->in.failed && p->is_scripted)
        script_call(p);
    return !p->in.failed;
}
