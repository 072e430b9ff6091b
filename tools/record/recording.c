/* Contents of records: numbers, runs of words, sums. */
#include "recording.h"

#include <stdlib.h>
#include <string.h>

enum { LEAST_RUN = 4 };

static bool has_room(struct bytes *b, size_t more) {
    size_t room = b->room == 0 ? 4096 : b->room;
    while (room - b->len < more)
        room *= 2;
    if (room == b->room)
        return true;
    uint8_t *at = realloc(b->at, room);
    if (at == NULL) {
        b->failed = true;
        return false;
    }
    b->at = at;
    b->room = room;
    return true;
}

void put(struct bytes *b, const void *from, size_t len) {
    if (len == 0 || !has_room(b, len))
        return;
    memcpy(b->at + b->len, from, len);
    b->len += len;
}

void put_u32(struct bytes *b, uint32_t n) { put(b, &n, sizeof n); }

void put_u64(struct bytes *b, uint64_t n) { put(b, &n, sizeof n); }

static size_t run_at(const uint32_t *words, size_t count) {
    size_t n = 1;
    while (n < count && words[n] == words[0])
        n++;
    return n;
}

/* How many words come before the next run that is worth it. */
static size_t literal_at(const uint32_t *words, size_t count) {
    size_t n = 0;
    while (n < count) {
        size_t run = run_at(words + n, count - n < LEAST_RUN ? count - n : LEAST_RUN);
        if (run == LEAST_RUN)
            return n;
        n += run;
    }
    return n;
}

void put_words(struct bytes *b, const uint32_t *words, size_t count) {
    const size_t most = UINT32_MAX / 2;
    for (size_t at = 0; at < count;) {
        size_t left = count - at < most ? count - at : most;
        size_t run = run_at(words + at, left);
        if (run >= LEAST_RUN) {
            put_u32(b, (uint32_t)(2 * run + 1));
            put_u32(b, words[at]);
            at += run;
        } else {
            size_t n = literal_at(words + at, left);
            put_u32(b, (uint32_t)(2 * n));
            put(b, words + at, n * sizeof *words);
            at += n;
        }
    }
}

void get(struct reader *r, void *to, size_t len) {
    if (len > r->left) {
        r->failed = true;
        memset(to, 0, len);
        return;
    }
    if (len == 0)
        return;
    memcpy(to, r->at, len);
    r->at += len;
    r->left -= len;
}

uint32_t get_u32(struct reader *r) {
    uint32_t n;
    get(r, &n, sizeof n);
    return n;
}

uint64_t get_u64(struct reader *r) {
    uint64_t n;
    get(r, &n, sizeof n);
    return n;
}

void get_words(struct reader *r, uint32_t *words, size_t count) {
    for (size_t at = 0; at < count && !r->failed;) {
        uint32_t how = get_u32(r);
        size_t n = how / 2;
        if (n == 0 || n > count - at) {
            r->failed = true;
            return;
        }
        if (how % 2 == 0) {
            get(r, words + at, n * sizeof *words);
        } else {
            uint32_t word = get_u32(r);
            for (size_t i = 0; i < n; i++)
                words[at + i] = word;
        }
        at += n;
    }
}

/* Both steps can be undone, so that two sums that differ stay so. */
static uint64_t mixed(uint64_t sum, uint64_t word) {
    sum = (sum ^ word) * 0x9e3779b97f4a7c15;
    return sum ^ sum >> 32;
}

/* Of whole blocks of four words: each place of a block has a sum of its own, so that none waits for the one before. */
static uint64_t summed_blocks(uint64_t sum, const uint8_t *at, size_t blocks) {
    uint64_t sums[4] = {sum, sum + 1, sum + 2, sum + 3}, words[4];
    for (; blocks != 0; blocks--, at += sizeof words) {
        memcpy(words, at, sizeof words);
        for (size_t i = 0; i < 4; i++)
            sums[i] = mixed(sums[i], words[i]);
    }
    return mixed(mixed(mixed(sums[0], sums[1]), sums[2]), sums[3]);
}

uint64_t summed(uint64_t sum, const void *from, size_t len) {
    const uint8_t *at = from;
    uint64_t word;
    if (len >= 32) {
        sum = summed_blocks(sum, at, len / 32);
        at += len / 32 * 32;
        len %= 32;
    }
    for (; len >= sizeof word; at += sizeof word, len -= sizeof word) {
        memcpy(&word, at, sizeof word);
        sum = mixed(sum, word);
    }
    word = 0;
    if (len != 0)
        memcpy(&word, at, len);
    return len == 0 ? sum : mixed(sum, word);
}

uint64_t sum_of(uint64_t id, const struct record *r, const void *contents) {
    uint64_t sum = mixed(mixed(id, (uint64_t)r->kind << 32 | r->size), r->number);
    return summed(sum, contents, r->size - sizeof *r);
}
