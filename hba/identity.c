#include "identity.h"

#include "options.h"
#include "say.h"

#include <string.h>

#define FIRST_RATE 1025
#define LAST_RATE 65534

/* A text, filled up with spaces. */
static void fill(uint8_t *to, size_t bytes, const char *text) {
    memset(to, ' ', bytes);
    memcpy(to, text, strlen(text));
}

ahci_identity identity_usual(void) {
    ahci_identity it = {.rotation = 0};
    fill(it.serial, sizeof it.serial, "00000001");
    fill(it.firmware, sizeof it.firmware, "1.0");
    fill(it.model, sizeof it.model, "SOFTWARE NCQ DISK");
    return it;
}

static bool is_text(const char *text) {
    for (; *text; text++)
        if (*text < 0x20 || *text > 0x7E)
            return false;
    return true;
}

static int take_text(const char *name, const char *value, uint8_t *to, size_t bytes) {
    if (strlen(value) > bytes || !is_text(value)) {
        say_expected(name, value, "at most %zu characters of ASCII", bytes);
        return -1;
    }
    fill(to, bytes, value);
    return 0;
}

static int take_rate(const char *name, const char *value, uint32_t *rotation) {
    uint32_t rate = 0;
    if (option_small(name, value, 0, LAST_RATE, &rate))
        return -1;
    if (rate > 1 && rate < FIRST_RATE) {
        say_expected(name, value, "0, 1, or %d to %d", FIRST_RATE, LAST_RATE);
        return -1;
    }
    *rotation = rate;
    return 0;
}

int identity_take(ahci_identity *identity, const char *name, const char *value) {
    if (!strcmp(name, "model"))
        return take_text(name, value, identity->model, sizeof identity->model);
    if (!strcmp(name, "serial"))
        return take_text(name, value, identity->serial, sizeof identity->serial);
    if (!strcmp(name, "firmware"))
        return take_text(name, value, identity->firmware, sizeof identity->firmware);
    if (!strcmp(name, "rpm"))
        return take_rate(name, value, &identity->rotation);
    return 1;
}
