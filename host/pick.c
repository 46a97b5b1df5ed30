#include "pick.h"

#include "generator.h"
#include "options.h"

int pick_take(const char *name, const char *text, const char *list, ahci_order *order) {
    static const char *const words[] = {
        [AHCI_ORDER_LOWEST] = "low", [AHCI_ORDER_HIGHEST] = "high", [AHCI_ORDER_DRAWN] = "random", [AHCI_ORDER_ROUND] = "roundrobin", NULL};
    unsigned place = 0;
    int wrong = option_word(name, text, words, list, &place);
    *order = (ahci_order)place;
    return wrong;
}

uint64_t pick_draw(ahci_order order, uint64_t *random, uint32_t next) {
    if (order == AHCI_ORDER_DRAWN)
        return next_random(random);
    return order == AHCI_ORDER_ROUND ? next : 0;
}
