/* fused_vectors.c: directed inputs of a * b + c, each with the result of the processor's own fused multiply-add. At the top of the repository:
 *     gcc -O2 -mfma -std=c99 -Wall -Wextra -Wpedantic tools/fused_vectors.c -o fused_vectors -lm && ./fused_vectors > crates/fused_vectors/stdin
 * With -mfma and -O2 gcc writes `fmaf` as the instruction (vfmadd..ss), and no call of the C library.
 *
 * A line is `a b c result`, four patterns in hexadecimal digits. The same lines come each time: what is drawn comes from one generator that begins
 * at one number. No input comes twice. How many of each kind there are goes to standard error. */
#include <inttypes.h>
#include <math.h>
#include <stdio.h>

#include "fused_inputs.h"

enum { MOST = 8192 };

static Input given[MOST];
static size_t count;

static const uint32_t SIGN = 0x80000000, ONE = 0x3f800000, LARGEST = 0x7f7fffff, INFINITE = 0x7f800000, FRACTION = 0x7fffff;

static uint32_t fused(uint32_t a, uint32_t b, uint32_t c) {
    return pattern(fmaf(value(a), value(b), value(c)));
}

/* writes one vector, unless it was written before */
static void emit(uint32_t a, uint32_t b, uint32_t c) {
    for (size_t i = 0; i < count; i++) {
        if (given[i].a == a && given[i].b == b && given[i].c == c) {
            return;
        }
    }
    if (count < MOST) {
        given[count++] = (Input){a, b, c};
        printf("%08" PRIx32 " %08" PRIx32 " %08" PRIx32 " %08" PRIx32 "\n", a, b, c, fused(a, b, c));
    }
}

/* the same magnitudes in all eight choices of signs */
static void emit_signs(uint32_t a, uint32_t b, uint32_t c) {
    for (uint32_t s = 0; s < 8; s++) {
        emit(a ^ (s & 4) << 29, b ^ (s & 2) << 30, c ^ (s & 1) << 31);
    }
}

/* and with all three signs of the sum turned */
static void emit_both(uint32_t a, uint32_t b, uint32_t c) {
    emit(a, b, c);
    emit(a ^ SIGN, b, c ^ SIGN);
}

/* m * 2 ^ e: exact, since m has at most 24 digits and the value is in range */
static uint32_t scaled(uint32_t m, int e) {
    return pattern(ldexpf((float)m, e));
}

/* a normal value of this exponent and any fraction */
static uint32_t any(int e) {
    return (uint32_t)(e + 127) << 23 | below(FRACTION + 1);
}

/* an odd number of so many binary digits */
static uint32_t odd(uint32_t digits) {
    return UINT32_C(1) << (digits - 1) | below(UINT32_C(1) << (digits - 1)) | 1;
}

/* The closed cases of the crate's proofs (proofs/Controls). The first four lines are two mixes of six channels to one, each the inner and the
 * outer call of r * (L + R) + (1/2 * (SL + SR) + C) with r the root of 1/2: 3 * r - 2.12.., where a product that is rounded first leaves
 * nothing, and 2 * r + 2. */
static void marked(void) {
    uint32_t half_root = 0x3f3504f3, half = 0x3f000000, two = 0x40000000, three = 0x40400000, centre = 0xc007c3b6;
    uint32_t inner = fused(half, 0, centre);
    emit(half, 0, centre);
    emit(half_root, three, inner);
    inner = fused(half, two, ONE);
    emit(half, two, ONE);
    emit(half_root, two, inner);
    emit(LARGEST, ONE, 0x73000000);
    emit(LARGEST, ONE, 0x72ffffff);
    emit(0x7f000000, two, 0xff000000);
    emit(1, half, 0);
    emit(1, half + 1, 0);
    emit(3, half, 0);
    emit(ONE + 1, ONE + 1, 0xbf800002);
    emit(two, ONE, 0xc0000000);
    emit(SIGN, ONE, SIGN);
    emit(SIGN, ONE, 0);
    emit(ONE, ONE, 0x33800001);
    emit(ONE, ONE, 0x33800000);
    emit(ONE, ONE, 0xb3000001);
    emit(ONE, ONE, 1);
    emit(ONE, ONE, SIGN | 1);
    emit(ONE + 1, ONE, 0x33800000);
    emit(INFINITE, SIGN | ONE, ONE);
    emit(INFINITE, SIGN | ONE, SIGN | INFINITE);
    emit(INFINITE, 0, ONE);
}

/* exact zeros from zeros and from cancellation, and zeros that an underflow leaves, in all signs */
static void signed_zeros(void) {
    static const uint32_t some[] = {0, 1, 0x007fffff, 0x00800000, 0x3f800000, 0x7f7fffff};
    for (size_t i = 0; i < sizeof some / sizeof *some; i++) {
        emit_signs(0, some[i], 0);
        emit_signs(some[i], 0, 0);
        emit_signs(0, some[i], 1);
        emit_signs(ONE, some[i], some[i]);
    }
    emit_signs(1, 1, 0);
    emit_signs(1, 1, 1);
    emit_signs(0x00800000, 0x00800000, 0);
    emit_signs(1, 0x3effffff, 0);
    emit_signs(0x3fc00000, 0x40200000, 0x40700000);
}

/* each triple of nine values in which an infinity or a NaN is */
static void specials(void) {
    static const uint32_t some[] = {0, 0x80000000, 0x3f800000, 0xff7fffff, 0x80000001, 0x7f800000, 0xff800000, 0x7fc00000, 0xff800001};
    enum { SOME = sizeof some / sizeof *some, FINITE = 5 };
    for (int i = 0; i < SOME; i++) {
        for (int j = 0; j < SOME; j++) {
            for (int k = 0; k < SOME; k++) {
                if (i >= FINITE || j >= FINITE || k >= FINITE) {
                    emit(some[i], some[j], some[k]);
                }
            }
        }
    }
}

/* a summand of 24 digits, and a product of half its last place or one last digit of a factor beside it; up and down */
static void ties_of_summand(void) {
    static const uint32_t fractions[] = {0, 1, 2, 3, 0x2aaaaa, 0x555555, 0x7ffffd, 0x7ffffe, 0x7fffff};
    static const int exponents[] = {-90, -1, 0, 23, 100};
    for (size_t i = 0; i < sizeof fractions / sizeof *fractions; i++) {
        for (size_t j = 0; j < sizeof exponents / sizeof *exponents; j++) {
            int e = exponents[j];
            uint32_t c = (uint32_t)(e + 127) << 23 | fractions[i];
            uint32_t a = scaled(1, e / 2 - 12), b = scaled(1, e - 24 - (e / 2 - 12));
            for (int d = -1; d <= 1; d++) {
                emit_both(a + (uint32_t)d, b, c);
                emit_both((a + (uint32_t)d) ^ SIGN, b, c);
            }
        }
    }
}

/* a product that is a tie by itself, 25 digits and odd, beside nothing or something far below */
static void ties_of_product(void) {
    static const int far[] = {1, 2, 24, 25, 26, 40, 60, 61, 62, 100};
    for (uint32_t i = 2; i <= 24; i += 2) {
        uint32_t m, n;
        do {
            m = odd(i);
            n = odd(26 - i);
        } while ((uint64_t)m * n >> 24 != 1);
        int e = (int)below(20) - 10;
        uint32_t a = scaled(m, e), b = scaled(n, -e);
        emit_both(a, b, 0);
        emit_both(a, b, SIGN);
        emit_both(a, b, 1);
        emit_both(a, b, SIGN | 1);
        for (size_t j = 0; j < sizeof far / sizeof *far; j++) {
            emit_both(a, b, scaled(1, -far[j]));
            emit_both(a, b, SIGN | scaled(1, -far[j]));
        }
    }
}

/* Products of 48 digits whose last 24 are one more or one less than half, and summands of that one: a tie but for the last digit of 48. b is
 * what takes a to them modulo 2 ^ 24. */
static void beside_ties(void) {
    for (int n = 0; n < 30; n++) {
        for (int more = -1; more <= 1; more += 2) {
            uint32_t a, b;
            do {
                a = odd(24);
                uint32_t inverse = a; /* right in 3 digits; each step doubles them */
                for (int i = 0; i < 4; i++) {
                    inverse *= 2 - a * inverse;
                }
                b = ((UINT32_C(0x800000) + (uint32_t)more) * inverse) & 0xffffff;
            } while (!((uint64_t)a * b >> 47));
            uint32_t x = scaled(a, -23), y = scaled(b, -23), one = scaled(1, -46);
            emit_both(x, y, 0);
            emit_both(x, y, one);
            emit_both(x, y, one ^ SIGN);
            emit_both(x, y, scaled(1, -100));
            emit_both(x, y, scaled(1, -100) ^ SIGN);
        }
    }
}

/* the rounded product taken away, but for up to two last places */
static void cancellation(void) {
    for (int n = 0; n < 60; n++) {
        int e = (int)below(100) - 50, f = (int)below(100) - 50;
        uint32_t a = any(e), b = any(f), p = pattern(-(value(a) * value(b)));
        for (uint32_t d = 0; d < 5; d++) {
            emit(a, b, p + d - 2);
        }
        emit(a ^ SIGN, b, p ^ SIGN);
    }
}

/* products of at most 24 digits, alone, taken away whole, and beside a summand that leaves the sum exact */
static void exact(void) {
    for (uint32_t i = 1; i <= 23; i++) {
        for (int n = 0; n < 2; n++) {
            uint32_t m = odd(i), k = odd(24 - i);
            int e = (int)below(60) - 30, f = (int)below(60) - 30;
            uint32_t a = scaled(m, e), b = scaled(k, f), p = scaled(m * k, e + f);
            emit_both(a, b, 0);
            emit_both(a, b, p ^ SIGN);
            emit_both(a, b, scaled(1, e + f) ^ SIGN);
            emit_both(a, b, p);
        }
    }
}

/* results below 2 ^ -126, from normal factors and from subnormal ones */
static void subnormal(void) {
    static const uint32_t summands[] = {0, 0x80000000, 1, 0x80000001, 0x007fffff, 0x807fffff, 0x00800000, 0x80800000};
    enum { SUMMANDS = sizeof summands / sizeof *summands };
    for (int n = 0; n < 26; n++) {
        int f = -(int)below(60);
        uint32_t a = any(-126 - n + 1 - f), b = any(f);
        for (int i = 0; i < SUMMANDS; i++) {
            emit(a, b, summands[i]);
        }
    }
    /* odd halves of the smallest value are ties, and one last digit of b is beside them */
    static const uint32_t small[] = {1, 2, 3, 5, 0x7ffffd, 0x7fffff, 0x800001, 0xfffffd, 0xffffff};
    for (size_t i = 0; i < sizeof small / sizeof *small; i++) {
        for (uint32_t d = 0; d < 3; d++) {
            for (int j = 0; j < SUMMANDS; j++) {
                emit(small[i], 0x3effffff + d, summands[j]);
            }
        }
    }
    for (int n = 0; n < 60; n++) {
        uint32_t a = below(FRACTION + 1) >> below(23);
        emit_both(a, any((int)below(150) - 25), below(FRACTION + 1));
        emit_both(a, any((int)below(60) + 60), SIGN | any((int)below(100) - 90));
        emit_both(any((int)below(40) - 60), any((int)below(40) - 60), below(0x1000000) >> below(23));
    }
}

/* at 2 ^ 128 - 2 ^ 103, half a last place above the largest value, and beside it; and products far above with the other sign in the summand */
static void overflow(void) {
    static const uint32_t beside[] = {
        0, 1, 0x00800000, 0x3f800000, 0x4b000000, 0x66800000, 0x667fffff,
        0x66800001, 0x73000000, 0x72ffffff, 0x73000001, 0x7f7fffff, 0x7f7ffffe,
    };
    /* pairs whose product is 2 ^ 127, 2 ^ 128, 2 ^ 128 - 2 ^ 103 and the largest value, and one last digit beside these */
    uint32_t pairs[][2] = {
        {scaled(1, 63), scaled(1, 64)},
        {scaled(1, 64), scaled(1, 64)},
        {scaled(1, 127), scaled(1, 1)},
        {scaled(31, 50), scaled(1082401, 53)},
        {scaled(31, 50), scaled(1082401, 53) - 1},
        {scaled(31, 50), scaled(1082401, 53) + 1},
        {LARGEST, ONE},
        {LARGEST, ONE + 1},
        {LARGEST - 1, ONE},
        {scaled(4095, 52), scaled(4097, 52)},
        {scaled(1, 100), scaled(1, 100)},
        {LARGEST, LARGEST},
    };
    for (size_t i = 0; i < sizeof pairs / sizeof *pairs; i++) {
        for (size_t j = 0; j < sizeof beside / sizeof *beside; j++) {
            emit_both(pairs[i][0], pairs[i][1], beside[j]);
            emit_both(pairs[i][0], pairs[i][1], beside[j] ^ SIGN);
        }
    }
}

/* any digits, the summand's exponent within 52 of the product's */
static void near_exponents(void) {
    for (int d = -52; d <= 52; d++) {
        for (int n = 0; n < 3; n++) {
            int e = (int)below(60) - 30, f = (int)below(60) - 30;
            uint32_t s = below(2) << 31;
            emit(any(e), any(f) ^ s, any(e + f + d > 127 ? 127 : e + f + d < -126 ? -126 : e + f + d) ^ below(2) << 31);
        }
    }
}

static const struct {
    const char *name;
    void (*emit_all)(void);
} kinds[] = {
    {"marked", marked},
    {"signed zeros", signed_zeros},
    {"infinities and NaNs", specials},
    {"ties of the summand", ties_of_summand},
    {"ties of the product", ties_of_product},
    {"one digit beside a tie", beside_ties},
    {"cancellation", cancellation},
    {"exact products", exact},
    {"subnormal", subnormal},
    {"overflow", overflow},
    {"near exponents", near_exponents},
};

int main(void) {
    if (!__builtin_cpu_supports("fma")) {
        fprintf(stderr, "this processor has no fused multiply-add\n");
        return 1;
    }
    state = 24;
    for (size_t k = 0; k < sizeof kinds / sizeof *kinds; k++) {
        size_t before = count;
        kinds[k].emit_all();
        fprintf(stderr, "%-24s %5zu\n", kinds[k].name, count - before);
    }
    fprintf(stderr, "%-24s %5zu\n", "in all", count);
    if (count == MOST) {
        fprintf(stderr, "more vectors than there is room for\n");
        return 1;
    }
    return 0;
}
