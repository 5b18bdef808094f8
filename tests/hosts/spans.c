/* Spans of a table of two molecules: spans FILE < QUERIES. A query is a line of f64 as hexadecimal bits: low, high, omega. Prints
 * for each the number, the first and the last bin, the bits of the smallest and the largest energy, and the NaNs. */
#include "icotable.h"

#include <inttypes.h>
#include <stdio.h>
#include <stdlib.h>
#include <string.h>

static uint8_t *load(const char *name, size_t *count) {
    FILE *in = fopen(name, "rb");
    uint8_t *bytes = NULL;
    if (in != NULL && fseek(in, 0, SEEK_END) == 0) {
        *count = (size_t)ftell(in);
        bytes = malloc(*count + 1);
        rewind(in);
        if (bytes != NULL && fread(bytes, 1, *count, in) != *count)
            *count = 0;
    }
    if (in != NULL)
        fclose(in);
    return bytes;
}

static uint64_t bits_of(double x) {
    uint64_t bits;
    memcpy(&bits, &x, sizeof bits);
    return bits;
}

int main(int count, char **names) {
    size_t length = 0;
    uint8_t *file = count == 2 ? load(names[1], &length) : NULL;
    icotable_table t = icotable_read(file, length);
    uint64_t q[3];
    if (t.number != 0) {
        fprintf(stderr, "spans: refused with %d\n", (int)t.number);
        return 1;
    }
    while (scanf("%" SCNx64 " %" SCNx64 " %" SCNx64, &q[0], &q[1], &q[2]) == 3) {
        double x[3];
        memcpy(x, q, sizeof x);
        icotable_spanned s = icotable_span(&t, file, length, x[0], x[1], x[2]);
        printf("%" PRIu64 " %" PRIu64 " %" PRIu64 " %016" PRIX64 " %016" PRIX64 " %" PRIu64 "\n", s.number, s.first, s.last, bits_of(s.smallest), bits_of(s.largest),
               s.scalar_nans);
    }
    free(file);
    return 0;
}
