// The README's first program in C++, built by CMake from what `install` put in place.
#include <cstdint>
#include <cstdio>
#include <roqshyn.h>
#include <vector>

constexpr std::uint32_t W = 32, H = 5, C = W * H, BLUE = 0x285a96, AMBER = 0xf0b428;

int main() {
    RoqSession s = {};
    std::vector<std::uint32_t> store(ROQ_WINDOWS * C), screen(C);
    std::uint32_t failed = roq_start(&s, C); // ROQ_OK, or what was wrong, as of every call
    std::uint32_t panel = roq_create(&s).id; // no window's if refused: the next call says so
    failed |= roq_resize(&s, panel, W, H, store.data(), store.size());
    failed |= roq_show(&s, panel);
    failed |= roq_fill(&s, panel, {{0, 0}, {W, H}}, BLUE, store.data(), store.size()).answer;
    failed |= roq_fill(&s, panel, {{3, 1}, {10, 3}}, AMBER, store.data(), store.size()).answer;
    failed |= roq_mark(&s, panel); // after the last write
    failed |= roq_redraw(&s, false, W, H, store.data(), store.size(), screen.data(), screen.size());
    RoqEvent press = {};
    press.kind = ROQ_MOUSE_DOWN, press.x = 5, press.y = 2, press.button = 1;
    failed |= roq_route(&s, press);
    failed |= screen[0] != BLUE;
    for (std::uint32_t i = 0; i < C; i++)
        std::printf("%c%s", screen[i] == AMBER ? '#' : '.', i % W == W - 1 ? "\n" : "");
    for (RoqPopped next = roq_pop(&s, panel); next.answer == ROQ_OK; next = roq_pop(&s, panel))
        if (next.event.kind == ROQ_MOUSE_DOWN)
            std::printf("pressed at %u, %u\n", (unsigned)next.event.x, (unsigned)next.event.y);
    return failed != 0;
}
