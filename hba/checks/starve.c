/* malloc and realloc that refuse one request in forty once the program has begun, for the check of what it does without memory; all of them if the
   environment has STARVES. The program and the library are linked with them by --wrap. */
#include <stdbool.h>
#include <stddef.h>
#include <stdlib.h>

void *__real_malloc(size_t bytes);
void *__real_realloc(void *old, size_t bytes);
void *__wrap_malloc(size_t bytes);
void *__wrap_realloc(void *old, size_t bytes);

static bool refuses(void) {
    static unsigned long requests;
    requests++;
    return requests > 200 && (requests % 40 == 0 || getenv("STARVES"));
}

void *__wrap_malloc(size_t bytes) {
    return refuses() ? NULL : __real_malloc(bytes);
}

void *__wrap_realloc(void *old, size_t bytes) {
    return refuses() ? NULL : __real_realloc(old, bytes);
}
