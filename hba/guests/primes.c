/* What Debian compiles in a check. */
#include <stdio.h>

int main(void) {
    unsigned found = 0;
    for (unsigned number = 2; number < 100000; number++) {
        unsigned by = 2;
        while (by * by <= number && number % by)
            by++;
        found += by * by > number;
    }
    printf("%u primes\n", found);
    return 0;
}
