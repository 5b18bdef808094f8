/* JSON to standard output. Every number is valid: those that JSON does not have are strings. */
#include "tools.h"

#include <math.h>
#include <string.h>

static bool behind; /* whether a comma is due before the next item */

/* How many bytes of a character these are, up to the end of the text; 0 where they are no UTF-8. */
static int utf8_length(const unsigned char *b) {
    static const unsigned least[5] = {0, 0, 0x80, 0x800, 0x10000};
    int n = b[0] < 0x80 ? 1 : (b[0] & 0xE0) == 0xC0 ? 2 : (b[0] & 0xF0) == 0xE0 ? 3 : (b[0] & 0xF8) == 0xF0 ? 4 : 0;
    unsigned code = n == 2 ? b[0] & 0x1Fu : n == 3 ? b[0] & 0xFu : b[0] & 7u;
    for (int i = 1; i < n; i++) {
        if ((b[i] & 0xC0) != 0x80)
            return 0;
        code = code << 6 | (b[i] & 0x3Fu);
    }
    bool wrong = n > 1 && (code < least[n] || code > 0x10FFFF || (code >= 0xD800 && code < 0xE000));
    return wrong ? 0 : n;
}

static void quoted(const char *text) {
    putchar('"');
    for (const unsigned char *b = (const unsigned char *)text; *b;) {
        int n = utf8_length(b);
        if (n == 0)
            fputs("\\ufffd", stdout);
        else if (n == 1 && (*b < 0x20 || *b == 0x7F))
            printf("\\u%04x", *b);
        else if (n == 1 && (*b == '"' || *b == '\\'))
            printf("\\%c", *b);
        else
            fwrite(b, 1, (size_t)n, stdout);
        b += n == 0 ? 1 : n;
    }
    putchar('"');
}

static void item(const char *key) {
    if (behind)
        fputs(", ", stdout);
    behind = true;
    if (key != NULL) {
        quoted(key);
        fputs(": ", stdout);
    }
}

void json_open(const char *key, char bracket) {
    item(key);
    putchar(bracket);
    behind = false;
}

void json_close(char bracket) {
    putchar(bracket);
    behind = true;
}

void json_end(void) {
    putchar('\n');
    behind = false;
}

void json_text(const char *key, const char *text) {
    item(key);
    quoted(text);
}

void json_count(const char *key, uint64_t n) {
    item(key);
    printf("%llu", (unsigned long long)n);
}

void json_flag(const char *key, bool flag) {
    item(key);
    fputs(flag ? "true" : "false", stdout);
}

void json_null(const char *key) {
    item(key);
    fputs("null", stdout);
}

static void number(const char *key, double x, int digits) {
    item(key);
    if (isfinite(x))
        printf("%.*g", digits, x);
    else
        quoted(isnan(x) ? "NaN" : x > 0 ? "Infinity" : "-Infinity");
}

void json_double(const char *key, double x) {
    number(key, x, 17);
}

void json_float(const char *key, float x) {
    number(key, (double)x, 9);
}
