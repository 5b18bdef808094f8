/* slab FILE: which slab a slab file holds, and of which build. Whatever its name; its checksum has to be right. */
#include "tools.h"

#include "icotable_slab.h"

#include <string.h>

typedef unsigned long long ull;

const char *id_digits(const uint8_t id[16]) {
    static char digits[33];
    for (int i = 0; i < 16; i++)
        snprintf(digits + 2 * i, 3, "%02x", id[i]);
    return digits;
}

bool has_id(const icotable_identity *i) {
    static const uint8_t none[16];
    return memcmp(i->id, none, sizeof none) != 0;
}

bool id_of(const char *digits, uint8_t id[16]) {
    if (strspn(digits, "0") == 32 || strlen(digits) != 32 || strspn(digits, "0123456789abcdefABCDEF") != 32)
        return false;
    for (int i = 0; i < 16; i++) {
        unsigned byte = 0;
        sscanf(digits + 2 * i, "%2x", &byte);
        id[i] = (uint8_t)byte;
    }
    return true;
}

void print_identity(const icotable_identity *i) {
    printf("id           %s\n", has_id(i) ? id_digits(i->id) : "none, as the format of version 1 has none");
    printf("label        %s\n", i->label[0] == 0 ? "none" : i->label);
}

void json_identity(const icotable_identity *i) {
    if (has_id(i))
        json_text("id", id_digits(i->id));
    else
        json_null("id");
    json_text("label", i->label);
}

static void print_held(const icotable_slab *s, const char *name) {
    printf("%s: a slab file of %s\n", name, table_words(s->atom));
    printf("slab         (%llu, %llu), level %llu, %llu energies\n", (ull)s->ri, (ull)s->oi, (ull)s->level, (ull)icotable_slab_count(s));
    printf("build        %016llX\n", (ull)s->build);
    print_identity(&s->identity);
}

static void json_held(const icotable_slab *s, const char *name) {
    char build[17];
    snprintf(build, sizeof build, "%016llX", (ull)s->build);
    json_open(NULL, '{');
    json_text("slab", name);
    json_text("kind", s->atom ? "atom" : "pair");
    json_flag("accepted", true);
    json_count("ri", s->ri);
    json_count("oi", s->oi);
    json_count("level", s->level);
    json_count("energies", icotable_slab_count(s));
    json_text("build", build);
    json_identity(&s->identity);
    json_close('}');
    json_end();
}

int slab_tool(int count, char **names) {
    static icotable_slab s;
    (void)count;
    uint64_t number = icotable_slab_look(&s, names[0]);
    if (number == ICOTABLE_SLAB_ABSENT || number == ICOTABLE_SLAB_TROUBLE)
        return trouble(names[0], icotable_slab_words(number));
    if (number != 0) {
        printf("%s: refused with %llu: %s\n", names[0], (ull)number, s.said);
        return FOUND;
    }
    (given("--json") != NULL ? json_held : print_held)(&s, names[0]);
    return GOOD;
}
