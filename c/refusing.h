/* Memory that is refused: the request of number refused_at since asked was 0, or all of them. A program that includes this is linked with --wrap=malloc and --wrap=realloc. */
#include "ahci.h"
#include <stdio.h>
#include <stdlib.h>

void *__real_malloc(size_t bytes);
void *__real_realloc(void *block, size_t bytes);
void *__wrap_malloc(size_t bytes);
void *__wrap_realloc(void *block, size_t bytes);

static long asked, refused_at = -1;
static bool refuses_all, was_asked; /* while a call runs that takes no memory */

static bool refuses(void)
{
    if (refuses_all)
        was_asked = true;
    return refuses_all || asked++ == refused_at;
}

void *__wrap_malloc(size_t bytes) { return refuses() ? NULL : __real_malloc(bytes); }
void *__wrap_realloc(void *block, size_t bytes) { return refuses() ? NULL : __real_realloc(block, bytes); }

static inline void wrong(const char *call, const char *what)
{
    printf("request %ld refused: %s: %s\n", refused_at, call, what);
    exit(1);
}

/* Makes a call that takes no memory. */
#define NONE(call) do { \
    refuses_all = true; \
    uint32_t s = (call); \
    refuses_all = false; \
    if (s != AHCI_OK) \
        wrong(#call, "it is not done without memory"); \
    if (was_asked) \
        wrong(#call, "it asks for memory"); \
} while (0)

/* Plays a story once with all memory, and then with each of its requests refused; it returns how many calls lacked memory. How many requests there are. */
static inline long refuse_each(int (*story)(void))
{
    if (story() != 0)
        wrong("the story", "memory was refused that was there");
    const long all = asked;
    for (refused_at = 0; refused_at < all; refused_at++) {
        asked = 0;
        if (story() != 1)
            wrong("the story", "not one call lacked memory");
    }
    return all;
}
