/* The player: makes the calls of a recording again, and compares. */
#ifndef PLAY_H
#define PLAY_H

#include "recording.h"
#include "roqshyn.h"

enum { MOST_WORDS = 64, MOST_ARRAYS = 4 };

/* An array of a call that is no store and no screen. */
struct array {
    void *at;
    size_t len, each;
    bool is_written;
};

/* A call that is played. */
struct play {
    const struct known *known;
    bool is_scripted; /* whether its line is written before it is made */
    struct reader in;          /* its record */
    struct bytes given;        /* what it gave now, as the recorder writes it */
    int64_t words[MOST_WORDS]; /* its numbers, in their order; a double is two, its upper and lower half */
    size_t word_count;
    struct array arrays[MOST_ARRAYS];
    size_t array_count;
    uint32_t session;
    struct memory_at *screen;
    uint64_t store_len, screen_len;
    bool has_session, has_store;
};

/* What wrappers.py makes of each call. */
struct known {
    uint32_t call;
    const char *name;
    void (*play)(struct play *);
    void (*show)(struct play *); /* reads what it gave */
};
extern const struct known known_calls[];
extern const size_t known_count;

/* Bytes of a session that are no field's, and may hold anything. */
struct padding {
    size_t at, bytes;
};
extern const struct padding session_paddings[];
extern const size_t padding_count;

/* Arguments of the call, in their order. */
uint8_t play_u8(struct play *p);
uint32_t play_u32(struct play *p);
int16_t play_i16(struct play *p);
double play_double(struct play *p);
size_t play_size_t(struct play *p);
bool play_bool(struct play *p);
RoqSession *play_session(struct play *p);
uint32_t *play_memory(struct play *p, enum memory what, size_t *len);
void *play_array(struct play *p, size_t *len, size_t each, bool is_written);
void play_picture(struct play *p, uint32_t width, uint32_t height);

/* What the call wrote to an array; and to a store or a screen, where that was recorded. */
void play_written(struct play *p, const void *at, size_t bytes);
void play_drawn(struct play *p, const void *at, size_t bytes);

/* Passes over such a sum. */
void play_sum(struct play *p);

/* Whether the arguments were all there, so that the call is made now. */
bool play_made(struct play *p);

/* Memory of the station, in ours. */
struct memory_at {
    enum memory what; /* 0 where there is none */
    uint32_t *at;
    size_t len;
    uint32_t width, height; /* of a screen that was drawn on */
};
struct memory_at *memory_of(uint32_t number);

/* Takes a record's memory over, or compares it. The answer says how it went; `differs` then has the first word. */
enum taken { TAKEN, EQUAL, REPLACED, DIFFERENT, WRONG };
enum taken take_memory(struct reader *r, uint32_t *number, size_t *differs, uint32_t *recorded);

/* Writes a screen as a PPM; false where it cannot be written. */
bool write_picture(const char *folder, uint64_t number, const struct memory_at *screen);

/* Ends the program with a sentence. */
_Noreturn void fail(int status, const char *format, ...);

#endif
