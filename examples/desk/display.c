/* Whether SDL finds a display: its status is 0, or it is 1 and SDL's reason is written. */
#include <SDL.h>
#include <stdio.h>

int main(void) {
    if (SDL_Init(SDL_INIT_VIDEO) != 0) return puts(SDL_GetError()), 1;
    SDL_Quit();
    return 0;
}
