/* Checks the roots of a list with MPFR, read from standard input.
 *
 *   gcc -O2 -Wall -o target/mpfr_check_sqrt mpfr/check_sqrt.c -lmpfr -lgmp
 *   target/release/reference gen numbers --seed 1 --count 1000000 --only 1 | target/mpfr_check_sqrt
 *
 * The cases of operation 1 are checked and the others passed over. MPFR's range of exponents
 * is far wider than f64's, and the root of every positive finite f64 is a normal f64, so a
 * root rounded to 53 bits is the f64 nearest to the true root. All NaNs count as one, which
 * lists write as 7FF8000000000000.
 */
#include <inttypes.h>
#include <math.h>
#include <mpfr.h>
#include <stdio.h>
#include <stdlib.h>
#include <string.h>

#define NAN_WORD UINT64_C(0x7FF8000000000000)

static uint64_t bits(double x) {
    uint64_t w;
    memcpy(&w, &x, 8);
    return isnan(x) ? NAN_WORD : w;
}

/* The next word; the machine is little-endian, as the list is. False at the list's end. */
static int next(uint64_t *w) {
    return fread(w, 8, 1, stdin) == 1;
}

static uint64_t must(void) {
    uint64_t w;
    if (!next(&w)) {
        fprintf(stderr, "the list ends inside a case\n");
        exit(2);
    }
    return w;
}

/* Reads a counted part, gives its count and keeps its first word. */
static uint64_t part(uint64_t *first) {
    uint64_t count = must();
    for (uint64_t i = 0; i < count; i++) {
        uint64_t w = must();
        if (i == 0)
            *first = w;
    }
    return count;
}

int main(void) {
    mpfr_t x, root;
    mpfr_init2(x, 53);
    mpfr_init2(root, 53);
    uint64_t op, in, out, agree = 0, differ = 0;
    while (next(&op)) {
        uint64_t ins = part(&in), outs = part(&out);
        if (op != 1)
            continue;
        double value;
        memcpy(&value, &in, 8);
        mpfr_set_d(x, value, MPFR_RNDN);
        mpfr_sqrt(root, x, MPFR_RNDN);
        if (ins == 1 && outs == 1 && bits(mpfr_get_d(root, MPFR_RNDN)) == out) {
            agree++;
        } else if (differ++ < 10) {
            printf("differs: %016" PRIX64 " %016" PRIX64 "\n", in, out);
        }
    }
    printf("%" PRIu64 " agree, %" PRIu64 " differ\n", agree, differ);
    mpfr_clear(x);
    mpfr_clear(root);
    return differ != 0;
}
