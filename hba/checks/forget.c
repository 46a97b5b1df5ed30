/* A disk that answers a flush and doesn't do it, for the checks that have to find that. The program is linked with it by --wrap. */
#include "cache.h"

void __wrap_cache_flush(struct cache *cache);

void __wrap_cache_flush(struct cache *cache) {
    (void)cache;
}
