/* Event times alone. */
#include "hostile_calls.h"

enum { MOST_TIMES = 4200 };
static uint32_t times[MOST_TIMES];

/* Mostly a run that rises by up to `step` a time. */
static size_t random_times(void) {
    size_t count = one_in(64) ? 4094 + below(5) : below(one_in(8) ? 400 : 40);
    uint32_t step = one_in(4) ? 1 : below(400) + 1;
    times[0] = one_in(16) ? UINT32_MAX - below(2000) : below(100);
    for (size_t i = 1; i < count; i++)
        times[i] = times[i - 1] + least(below(step), UINT32_MAX - times[i - 1]);
    size_t odd = below((uint32_t)count);
    if (one_in(16) && count > 0)
        times[odd] = wild();
    return count;
}

static uint32_t due_busiest(size_t count) {
    ASK(count <= 4096, 26);
    for (size_t i = 1; i < count; i++)
        ASK(times[i - 1] <= times[i], 27);
    return 0;
}

static RoqSecond busiest_of(size_t count) {
    RoqSecond most = {0, 0, 0};
    size_t end = 0;
    for (size_t i = 0; i < count; i++) {
        while (end < count && times[end] - times[i] < 1000)
            end++;
        if (end - i > most.count) {
            most.count = end - i;
            most.place = i;
        }
    }
    return most;
}

void call_busiest(void) {
    size_t count = random_times();
    GIVEN(count);
    RoqSecond got = roq_busiest(lend_to_read(DATA, count, times), count), due = {0, 0, 0};
    if (accepted(got.answer, due_busiest(count)))
        due = busiest_of(count);
    expect(got.count == due.count && got.place == due.place, "it is another second");
}
