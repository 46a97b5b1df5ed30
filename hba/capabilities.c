#include "capabilities.h"

#include "numbers.h"
#include "say.h"

#include <inttypes.h>
#include <stddef.h>
#include <string.h>

#define FIELDS 8

static const struct field {
    const char *name;
    size_t at; /* in ahci_hba_capabilities */
    uint32_t least, most;
} fields[FIELDS] = {
    {"ncs", offsetof(ahci_hba_capabilities, ncs), 1, AHCI_MOST_TAGS},
    {"iss", offsetof(ahci_hba_capabilities, iss), 1, 3},
    {"s64a", offsetof(ahci_hba_capabilities, s64a), 0, 1},
    {"sncq", offsetof(ahci_hba_capabilities, sncq), 0, 1},
    {"sss", offsetof(ahci_hba_capabilities, sss), 0, 1},
    {"sclo", offsetof(ahci_hba_capabilities, sclo), 0, 1},
    {"salp", offsetof(ahci_hba_capabilities, salp), 0, 1},
    {"pmd", offsetof(ahci_hba_capabilities, pmd), 0, 1},
};

/* The place of the field that a text begins with, before its `=`; FIELDS if there is none. */
static unsigned place_of(const char *text, size_t length) {
    for (unsigned at = 0; at < FIELDS; at++)
        if (strlen(fields[at].name) == length && !strncmp(fields[at].name, text, length))
            return at;
    return FIELDS;
}

/* Takes one FIELD=NUMBER, which ends at a comma or with the text. Returns its end, or NULL. */
static const char *take_field(ahci_hba_capabilities *capabilities, const char *value, const char *text, uint32_t *given) {
    const size_t length = strcspn(text, "=,");
    const unsigned place = text[length] == '=' ? place_of(text, length) : FIELDS;
    if (place == FIELDS) {
        say_of("cap", value, "expected FIELD=NUMBER, where FIELD is ncs, iss, s64a, sncq, sss, sclo, salp or pmd, got \"%.*s\"", (int)strcspn(text, ","), text);
        return NULL;
    }
    const struct field *field = &fields[place];
    if (*given >> place & 1) {
        say_of("cap", value, "%s is given twice", field->name);
        return NULL;
    }
    *given |= UINT32_C(1) << place;
    uint64_t number = 0;
    const char *digits = text + length + 1, *end = take_digits(digits, &number);
    if (!end || (*end && *end != ',') || number < field->least || number > field->most) {
        say_of("cap", value, "%s: expected a decimal number from %" PRIu32 " to %" PRIu32 ", got \"%.*s\"", field->name, field->least, field->most,
               (int)strcspn(digits, ","), digits);
        return NULL;
    }
    const uint32_t word = (uint32_t)number;
    memcpy((char *)capabilities + field->at, &word, sizeof word);
    return end;
}

int capabilities_take(ahci_hba_capabilities *capabilities, const char *value) {
    uint32_t given = 0;
    const char *text = value;
    do {
        text = take_field(capabilities, value, text, &given);
        if (!text)
            return -1;
    } while (*text++ == ',');
    return 0;
}
