/* The heap that the library asks for memory: malloc, realloc and free. An answer says whether there is memory; where there is
   none, its address is that of a byte of this file, which nobody reads. A block of n bytes is aligned to each power of two up to 16
   that divides n, as malloc's are. */
#include <stdbool.h>
#include <stddef.h>
#include <stdlib.h>

typedef struct answer {
    bool is_there;
    void *at;
} answer;

answer rattle_alloc(size_t bytes, size_t align);
answer rattle_realloc(void *block, size_t kept, size_t bytes, size_t align);
void rattle_dealloc(void *block);

static char nowhere;

static answer answered(void *at)
{
    return (answer){ at != NULL, at != NULL ? at : &nowhere };
}

answer rattle_alloc(size_t bytes, size_t align)
{
    return answered(malloc(bytes != 0 ? bytes : align));
}

answer rattle_realloc(void *block, size_t kept, size_t bytes, size_t align)
{
    (void)kept;
    return answered(realloc(block, bytes != 0 ? bytes : align));
}

void rattle_dealloc(void *block)
{
    free(block);
}
