/* The same algorithms in plain C, for comparison. */
#include <stdint.h>
#include "plain.h"

static uint32_t masked(uint32_t digit, uint32_t b) { return b & -digit; }

static uint32_t times_x(uint32_t p, uint32_t n, uint32_t r) {
    uint32_t doubled = r << 1;
    return doubled ^ masked(doubled >> n, p);
}

static uint32_t degree(uint32_t p) { return 31 - (uint32_t)__builtin_clz(p); }

static uint32_t remainder_of(uint32_t p, uint32_t n, uint64_t a) {
    uint32_t r = 0;
    if (a >> n == 0) return (uint32_t)a;
    for (int i = 63 - __builtin_clzll(a); i >= 0; i--) r = times_x(p, n, r) ^ (uint32_t)(a >> i & 1);
    return r;
}

static uint32_t multiple(uint32_t p, uint32_t n, uint32_t a, uint32_t b) {
    uint32_t r = 0;
    if (a == 0) return 0;
    for (int i = 31 - __builtin_clz(a); i >= 0; i--) r = times_x(p, n, r) ^ masked(a >> i & 1, b);
    return r;
}

uint32_t plain_product(uint32_t p, uint32_t a, uint32_t b) {
    if (p < 2) return 0;
    uint32_t n = degree(p);
    return multiple(p, n, a, remainder_of(p, n, b));
}

uint32_t plain_power_of_x(uint32_t p, uint64_t e) {
    if (p < 2) return 0;
    uint32_t n = degree(p), r = 1;
    if (e == 0) return 1;
    for (int i = 63 - __builtin_clzll(e); i >= 0; i--) {
        r = multiple(p, n, r, r);
        if (e >> i & 1) r = times_x(p, n, r);
    }
    return r;
}

uint32_t plain_polynomial_of(uint32_t cells, uint32_t vector) {
    if (cells == 0 || cells > 31 || vector >> cells != 0) return 0;
    uint32_t before = 0, current = 1;
    for (uint32_t k = 0; k < cells; k++) {
        uint32_t own = vector >> k & 1 ? current : 0;
        uint32_t next = current << 1 ^ own ^ before;
        before = current;
        current = next;
    }
    return current;
}

static uint32_t stepped(uint32_t cells, uint32_t vector, uint32_t s) {
    uint32_t mask = (1u << cells) - 1;
    return (s << 1 ^ (s & vector) ^ s >> 1) & mask;
}

uint32_t plain_steps(uint32_t cells, uint32_t vector, uint32_t state, uint32_t count) {
    if (cells == 0 || cells > 31 || vector >> cells != 0 || state >> cells != 0) return 0;
    if (plain_polynomial_of(cells, vector) == 0) return 0;
    for (uint32_t i = 0; i < count; i++) state = stepped(cells, vector, state);
    return state;
}

uint32_t plain_jump(uint32_t cells, uint32_t vector, uint32_t state, uint64_t length) {
    if (cells == 0 || cells > 31 || vector >> cells != 0 || state >> cells != 0) return 0;
    uint32_t residue = plain_power_of_x(plain_polynomial_of(cells, vector), length), sum = 0;
    for (uint32_t i = 0; i < cells; i++) {
        if (residue >> i & 1) sum ^= state;
        state = stepped(cells, vector, state);
    }
    return sum;
}

/* ---- the search: linear equations on the bits of y, solved by substitution, and a walk over the solutions */

#define UNKNOWNS 32
#define EQUATIONS 64

typedef struct {
    uint32_t word, bit;
} equation;

static uint64_t whole_product(uint32_t a, uint32_t b) {
    uint64_t r = 0;
    if (a == 0) return 0;
    for (int i = 31 - __builtin_clz(a); i >= 0; i--) r = r << 1 ^ (a >> i & 1 ? b : 0);
    return r;
}

/* p·y + y² + (x² + x)·(p·y)′ */
static uint64_t image(uint32_t p, uint32_t y) {
    uint64_t whole = whole_product(p, y), slope = whole >> 1 & 0x5555555555555555ull;
    return whole ^ whole_product(y, y) ^ slope << 2 ^ slope << 1;
}

static uint32_t value(equation e, uint32_t m) { return ((uint32_t)__builtin_popcount(e.word & m) ^ e.bit) & 1; }

static uint32_t evaluated(const equation *es, uint32_t m) {
    uint32_t word = 0;
    for (int j = UNKNOWNS - 1; j >= 0; j--) word = word << 1 | value(es[j], m);
    return word;
}

static equation chosen(const equation *es, uint32_t word) {
    equation sum = {0, 0};
    for (int j = 0; j < UNKNOWNS; j++)
        if (word >> j & 1) {
            sum.word ^= es[j].word;
            sum.bit ^= es[j].bit;
        }
    return sum;
}

typedef struct {
    uint32_t p, cells, base, directions[UNKNOWNS], words;
} span;

static int solved(span *s, equation *es) {
    uint64_t columns[UNKNOWNS] = {0}, constant = whole_product(s->p, s->p) ^ 1;
    for (uint32_t j = 0; j < s->cells; j++) columns[j] = image(s->p, 1u << j);
    for (uint32_t j = 0; j < UNKNOWNS; j++) es[j] = (equation){j < s->cells ? 1u << j : 0, 0};
    for (int k = 0; k < EQUATIONS; k++) {
        uint32_t word = 0;
        for (int j = UNKNOWNS - 1; j >= 0; j--) word = word << 1 | (uint32_t)(columns[j] >> k & 1);
        equation e = chosen(es, word);
        e.bit ^= (uint32_t)(constant >> k & 1);
        if (e.word == 0) {
            if (e.bit) return 0;
            continue;
        }
        uint32_t parameter = degree(e.word);
        for (int j = 0; j < UNKNOWNS; j++)
            if (es[j].word >> parameter & 1) {
                es[j].word ^= e.word;
                es[j].bit ^= e.bit;
            }
    }
    return 1;
}

static span opened(uint32_t p) {
    span s = {p, degree(p), 0, {0}, 0};
    equation es[UNKNOWNS];
    uint32_t dimension = 0;
    if (!solved(&s, es)) return s;
    s.base = evaluated(es, 0);
    for (uint32_t j = 0; j < s.cells; j++) {
        uint32_t direction = evaluated(es, 1u << j) ^ s.base;
        if (direction != 0) s.directions[dimension++] = direction;
    }
    s.words = 1u << dimension;
    return s;
}

/* The rules from p and y, the last cell first. */
static uint32_t undone(uint32_t p, uint32_t y, uint32_t cells) {
    uint32_t vector = 0;
    for (int k = (int)cells - 1; k >= 0; k--) {
        uint32_t rest = p ^ y << 1, rule = rest >> k & 1;
        vector = vector << 1 | rule;
        p = y;
        y = rest ^ (rule ? p : 0);
    }
    return vector;
}

/* The smallest vector from a number on, or none. */
static int least(const span *s, uint32_t from, uint32_t *found) {
    int any = 0;
    for (uint32_t t = 0; t < s->words; t++) {
        uint32_t y = s->base;
        for (uint32_t j = 0; j < UNKNOWNS; j++)
            if (t >> j & 1) y ^= s->directions[j];
        uint32_t vector = undone(s->p, y, s->cells);
        if (plain_polynomial_of(s->cells, vector) != s->p || vector < from) continue;
        if (!any || vector < *found) *found = vector;
        any = 1;
    }
    return any;
}

uint32_t plain_vectors(uint32_t p) {
    if (p < 2) return 0;
    span s = opened(p);
    uint32_t from = 0, vector, sum = 0;
    while (least(&s, from, &vector)) {
        sum ^= vector;
        from = vector + 1;
    }
    return sum;
}

/* All vectors tried, one after the other. */
static uint32_t tried_from(uint32_t k, uint32_t cells, uint32_t before, uint32_t current, uint32_t vector, uint32_t p) {
    if (k == cells) return current == p ? vector : 0;
    uint32_t next = current << 1 ^ before;
    return tried_from(k + 1, cells, current, next, vector, p) ^ tried_from(k + 1, cells, current, next ^ current, vector | 1u << k, p);
}

uint32_t tried_vectors(uint32_t p) { return p < 2 ? 0 : tried_from(0, degree(p), 0, 1, 0, p); }
