/* fused_inputs.h: what fused_vectors.c and fused_compare.c share: three patterns, an f32 and its pattern, and one generator. */
#include <stdint.h>
#include <string.h>

typedef struct {
    uint32_t a, b, c;
} Input;

static uint64_t state;

/* splitmix64 */
static uint64_t next(void) {
    uint64_t z = (state += 0x9e3779b97f4a7c15u);
    z = (z ^ (z >> 30)) * 0xbf58476d1ce4e5b9u;
    z = (z ^ (z >> 27)) * 0x94d049bb133111ebu;
    return z ^ (z >> 31);
}

/* a number below n */
static uint32_t below(uint32_t n) {
    return (uint32_t)((next() >> 32) * n >> 32);
}

static float value(uint32_t bits) {
    float x;
    memcpy(&x, &bits, sizeof x);
    return x;
}

static uint32_t pattern(float x) {
    uint32_t bits;
    memcpy(&bits, &x, sizeof bits);
    return bits;
}
