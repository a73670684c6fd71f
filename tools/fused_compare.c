/* fused_compare.c: `fused` of the built library beside the processor's own fused multiply-add, on eight kinds of random inputs.
 *
 * The library has to give the function the C name fused_f32. In a folder of its own put a copy of crates/fused, a crates.txt of the lines
 *     fused:
 *     fused_export staticlib: fused
 * and a file crates/fused_export/src/lib.rt:
 *     #![tactic(auto)]
 *
 *     ghost use Rattle.std.specs.Prelude.{◌≡◌};
 *     ghost use Rattle.fused.specs.Fused.{fused_of};
 *
 *     #[unsafe(no_mangle)]
 *     pub extern "C" fn fused_f32(a: f32, b: f32, c: f32) -> f32
 *         ensures { result ≡ fused_of a b c }
 *     {
 *         fused::fused(a, b, c)
 *     }
 * In crates/fused_export `rt lib` proves it and writes out/libfused_export.a. Then, with the path to that file,
 *     gcc -O2 -mfma -std=c99 -Wall -Wextra -Wpedantic tools/fused_compare.c PATH/libfused_export.a -lm -o fused_compare
 *     ./fused_compare 150000000 1
 * takes that many inputs of each kind from the generator begun at the second number. With -mfma and -O2 gcc writes `fmaf` as the instruction
 * (vfmadd..ss), and no call of the C library is left.
 *
 * Each kind has one line: how many inputs, how many differ, and how many of the instruction's results were zero, subnormal, normal, infinite
 * and NaN. Two NaNs are equal, +0 and -0 are not. The first inputs that differ are printed; the status is 1 where one differs. */
#include <inttypes.h>
#include <math.h>
#include <stdio.h>
#include <stdlib.h>

#include "fused_inputs.h"

extern float fused_f32(float a, float b, float c);

/* a pattern of this sign, exponent field (cut at 0 and 254) and fraction */
static uint32_t make(uint32_t sign, int field, uint32_t fraction) {
    uint32_t e = field < 0 ? 0 : field > 254 ? 254 : (uint32_t)field;
    return (sign & 1) << 31 | e << 23 | (fraction & 0x7fffff);
}

static int field(uint32_t bits) {
    return (int)(bits >> 23 & 0xff);
}

/* half of the time any fraction, else one of few ones, few zeros or a long run */
static uint32_t fraction(void) {
    uint64_t r = next();
    uint32_t bit = UINT32_C(1) << (r >> 8) % 23;
    switch (r % 8) {
    case 0:
        return bit;
    case 1:
        return bit | UINT32_C(1) << (r >> 16) % 23;
    case 2:
        return bit - 1;
    case 3:
        return 0x7fffff ^ (bit - 1);
    default:
        return (uint32_t)(r >> 32) & 0x7fffff;
    }
}

static Input uniform(void) {
    uint64_t r = next();
    return (Input){(uint32_t)r, (uint32_t)(r >> 32), (uint32_t)next()};
}

/* zeros, infinities, NaNs, the ends of the range and powers of two, with few bits set */
static uint32_t edge(void) {
    static const int fields[] = {0, 0, 0, 1, 2, 23, 24, 25, 64, 103, 104, 125, 126, 127, 128, 129, 150, 151, 152, 190, 230, 231, 252, 253, 254, 255};
    uint64_t r = next();
    uint32_t f = (uint32_t)fields[(r >> 8) % (sizeof fields / sizeof *fields)];
    uint32_t t = (r >> 1 & 3) == 0 ? 0 : (r >> 1 & 3) == 1 ? (uint32_t)(r >> 32) % 4 : (r >> 1 & 3) == 2 ? 0x7fffff - (uint32_t)(r >> 32) % 4 : fraction();
    return (uint32_t)(r & 1) << 31 | f << 23 | t;
}

static Input edges(void) {
    uint32_t a = edge(), b = edge();
    return (Input){a, b, edge()};
}

/* the summand's exponent within 60 of the product's */
static Input near_exponents(void) {
    uint64_t r = next();
    uint32_t a = make((uint32_t)r, 1 + (int)below(254), fraction());
    uint32_t b = make((uint32_t)(r >> 1), 1 + (int)below(254), fraction());
    int e = field(a) + field(b) - 127 + (int)below(121) - 60;
    return (Input){a, b, make((uint32_t)(r >> 2), e, fraction())};
}

/* odd numbers of `digits` binary digits */
static uint32_t odd(uint32_t digits) {
    return (UINT32_C(1) << (digits - 1)) | below(UINT32_C(1) << (digits - 1)) | 1;
}

/* m * 2 ^ e, exact where it is in range */
static uint32_t scaled(uint32_t sign, uint32_t m, int e) {
    float x = ldexpf((float)m, e);
    return pattern(sign & 1 ? -x : x);
}

/* Either a summand of 24 digits and a product of half its last place, at most a few last digits of a factor beside it; or a product that is
 * a tie by itself, 25 digits and odd, and a summand that is 0 or far below. */
static Input near_ties(void) {
    uint64_t r = next();
    if (r & 1) {
        int e = (int)below(160) - 80;
        uint32_t c = make((uint32_t)(r >> 1), 127 + e, fraction());
        int half = e - 24, i = (int)below(41) - 20;
        uint32_t a = make((uint32_t)(r >> 2), 127 + i, 0), b = make((uint32_t)(r >> 3), 127 + half - i, 0);
        return (Input){a + (uint32_t)(r >> 8) % 5 - 2, b + (uint32_t)(r >> 16) % 5 - 2, c};
    }
    uint32_t i = 2 + below(22), j = 25 - i + (uint32_t)(r >> 1 & 1);
    int k = (int)below(80) - 60, l = (int)below(80) - 60;
    uint32_t a = scaled((uint32_t)(r >> 2), odd(i), k), b = scaled((uint32_t)(r >> 3), odd(j), l);
    uint32_t c = (r >> 8 & 3) == 0 ? (uint32_t)(r >> 4 & 1) << 31 : make((uint32_t)(r >> 4), 127 + k + l - 1 - (int)below(130), fraction());
    return (Input){a, b, c};
}

/* a summand that takes the rounded product away, but for up to four of its last places */
static Input cancellation(void) {
    uint64_t r = next();
    uint32_t a = make((uint32_t)r, 64 + (int)below(128), fraction());
    uint32_t b = make((uint32_t)(r >> 1), 64 + (int)below(128), fraction());
    return (Input){a, b, pattern(-(value(a) * value(b))) + (uint32_t)(r >> 32) % 9 - 4};
}

/* products from below the smallest number to some way into the normal ones, and a summand that is 0 or below 2 ^ -124;
 * one time in four a factor is subnormal */
static Input subnormal(void) {
    uint64_t r = next();
    int e = (int)below(56) - 30;
    uint32_t a, b;
    if ((r >> 8 & 3) == 0) {
        a = make((uint32_t)r, 0, fraction() >> (r >> 32) % 23);
        b = make((uint32_t)(r >> 1), 100 + (int)below(55), fraction());
    } else {
        int i = 1 + (int)below(150);
        a = make((uint32_t)r, i, fraction());
        b = make((uint32_t)(r >> 1), 127 + e - i, fraction());
    }
    uint32_t c = (r >> 10 & 3) == 0 ? (uint32_t)(r >> 2 & 1) << 31 : make((uint32_t)(r >> 2), (int)(r >> 12 & 3) - 1, fraction() >> (r >> 40) % 23);
    return (Input){a, b, c};
}

/* products from 2 ^ 124 to 2 ^ 129, and a summand from 2 ^ 98 up */
static Input boundary(void) {
    uint64_t r = next();
    int i = 128 + (int)below(127);
    uint32_t a = make((uint32_t)r, i, fraction());
    uint32_t b = make((uint32_t)(r >> 1), 381 - i - (int)(r >> 8 & 3), fraction());
    uint32_t c = make((uint32_t)(r >> 2), 254 - (int)below(30), fraction());
    return (Input){r >> 16 & 1 ? b : a, r >> 16 & 1 ? a : b, c};
}

/* a number of at most 12 binary digits, mostly fewer */
static uint32_t small(void) {
    return below(UINT32_C(1) << (1 + below(12)));
}

/* significands that are small whole numbers, exponents near one another */
static Input small_integers(void) {
    uint64_t r = next();
    int i = (int)below(40) - 20, j = (int)below(40) - 20;
    uint32_t a = scaled((uint32_t)r, small(), i), b = scaled((uint32_t)(r >> 1), small(), j);
    return (Input){a, b, scaled((uint32_t)(r >> 2), small(), i + j + (int)below(31) - 10)};
}

static const struct {
    const char *name;
    Input (*input)(void);
} kinds[] = {
    {"uniform", uniform},
    {"edges", edges},
    {"near exponents", near_exponents},
    {"near ties", near_ties},
    {"cancellation", cancellation},
    {"subnormal", subnormal},
    {"boundary", boundary},
    {"small integers", small_integers},
};

enum { ZERO, SUBNORMAL, NORMAL, INFINITE, NOT_A_NUMBER, CLASSES };

static int class_of(uint32_t bits) {
    uint32_t size = bits & 0x7fffffff;
    return size == 0 ? ZERO : size < 0x800000 ? SUBNORMAL : size < 0x7f800000 ? NORMAL : size == 0x7f800000 ? INFINITE : NOT_A_NUMBER;
}

int main(int argc, char **argv) {
    if (argc != 3) {
        fprintf(stderr, "usage: fused_compare INPUTS_OF_EACH_KIND START\n");
        return 2;
    }
    if (!__builtin_cpu_supports("fma")) {
        fprintf(stderr, "this processor has no fused multiply-add\n");
        return 2;
    }
    uint64_t each = strtoull(argv[1], NULL, 10), differ_in_all = 0, all = 0;
    state = strtoull(argv[2], NULL, 10);
    printf("%-16s %12s %7s %12s %12s %12s %12s %12s\n", "kind", "inputs", "differ", "zero", "subnormal", "normal", "infinite", "NaN");
    for (size_t k = 0; k < sizeof kinds / sizeof *kinds; k++) {
        uint64_t differ = 0, classes[CLASSES] = {0};
        for (uint64_t n = 0; n < each; n++) {
            Input i = kinds[k].input();
            uint32_t want = pattern(fmaf(value(i.a), value(i.b), value(i.c)));
            uint32_t got = pattern(fused_f32(value(i.a), value(i.b), value(i.c)));
            int class = class_of(want);
            classes[class]++;
            if (got != want && !(class == NOT_A_NUMBER && class_of(got) == NOT_A_NUMBER)) {
                if (differ++ < 10) {
                    printf("%08" PRIx32 " %08" PRIx32 " %08" PRIx32 ": %08" PRIx32 ", the instruction gives %08" PRIx32 "\n", i.a, i.b, i.c, got, want);
                }
            }
        }
        printf("%-16s %12" PRIu64 " %7" PRIu64, kinds[k].name, each, differ);
        for (int c = 0; c < CLASSES; c++) {
            printf(" %12" PRIu64, classes[c]);
        }
        printf("\n");
        fflush(stdout);
        all += each;
        differ_in_all += differ;
    }
    printf("%" PRIu64 " inputs, %" PRIu64 " differ\n", all, differ_in_all);
    return differ_in_all != 0;
}
