/* A plain interpreter of the instructions that bench/run.sh measures, as a yardstick of speed: a switch on the
 * word, and no translation.
 *
 *     gcc -O2 -o plain_interpreter plain_interpreter.c
 *     ./plain_interpreter IMAGE [STEPS]
 *
 * It runs the bare image IMAGE for at most STEPS instructions, 1,000,000 if left out, and prints how many it did
 * and how many a second. It trusts its image and has system calls only as ends. */
#include <stdint.h>
#include <stdio.h>
#include <stdlib.h>
#include <string.h>
#include <time.h>

enum end { RUNNING, FAULT, UNDECODED, CALL, BREAK, UDF };

struct segment {
    uint64_t at, len;
    uint8_t *bytes;
};

struct machine {
    uint64_t registers[31], stack_pointer, place;
    unsigned n, z, c, v;
    struct segment *segments;
    size_t count, code, data;
};

static uint64_t word_of(const uint8_t *bytes) {
    uint64_t word;
    memcpy(&word, bytes, 8);
    return word;
}

static int has(const struct segment *s, uint64_t at, uint64_t len) {
    return at - s->at < s->len && s->len - (at - s->at) >= len;
}

/* The bytes at an address; `last` is the segment that was found last. */
static uint8_t *bytes_at(struct machine *m, size_t *last, uint64_t at, uint64_t len) {
    struct segment *s = &m->segments[*last];
    if (has(s, at, len))
        return s->bytes + (at - s->at);
    for (size_t i = 0; i < m->count; i++)
        if (has(s = &m->segments[i], at, len)) {
            *last = i;
            return s->bytes + (at - s->at);
        }
    return NULL;
}

static uint64_t get(const struct machine *m, unsigned r, int stack) {
    return r < 31 ? m->registers[r] : stack ? m->stack_pointer : 0;
}

static void set(struct machine *m, unsigned r, int stack, unsigned sf, uint64_t value) {
    if (!sf)
        value = (uint32_t)value;
    if (r < 31)
        m->registers[r] = value;
    else if (stack)
        m->stack_pointer = value;
}

static int64_t sign(uint64_t value, unsigned bits) {
    return (int64_t)(value << (64 - bits)) >> (64 - bits);
}

/* a plus b, or a less b, and for s the flags. */
static uint64_t sum(struct machine *m, unsigned sf, unsigned less, unsigned s, uint64_t a, uint64_t b) {
    unsigned width = sf ? 64 : 32;
    if (!sf)
        a = (uint32_t)a, b = (uint32_t)b;
    if (less)
        b = sf ? ~b : (uint32_t)~b;
    __uint128_t all = (__uint128_t)a + b + less;
    uint64_t value = sf ? (uint64_t)all : (uint32_t)all;
    if (s) {
        m->n = value >> (width - 1);
        m->z = value == 0;
        m->c = (unsigned)(all >> width) & 1;
        m->v = (~(a ^ b) & (a ^ value)) >> (width - 1) & 1;
    }
    return value;
}

static enum end move_wide(struct machine *m, uint32_t word) {
    unsigned sf = word >> 31, opc = word >> 29 & 3, hw = word >> 21 & 3, rd = word & 31;
    uint64_t bits = (uint64_t)(word >> 5 & 0xffff) << 16 * hw, value = bits;
    if (opc == 1 || (!sf && hw > 1))
        return UNDECODED;
    if (opc == 0)
        value = ~bits;
    if (opc == 3)
        value = (get(m, rd, 0) & ~((uint64_t)0xffff << 16 * hw)) | bits;
    set(m, rd, 0, sf, value);
    return RUNNING;
}

static enum end immediate(struct machine *m, uint32_t word) {
    unsigned sf = word >> 31, less = word >> 30 & 1, s = word >> 29 & 1;
    uint64_t value;
    switch (word >> 23 & 7) {
    case 2:
        value = (uint64_t)(word >> 10 & 0xfff) << (word >> 22 & 1 ? 12 : 0);
        set(m, word & 31, !s, sf, sum(m, sf, less, s, get(m, word >> 5 & 31, 1), value));
        return RUNNING;
    case 5:
        return move_wide(m, word);
    default:
        return UNDECODED;
    }
}

static enum end registers(struct machine *m, uint32_t word) {
    unsigned sf = word >> 31, less = word >> 30 & 1, s = word >> 29 & 1, amount = word >> 10 & 63;
    uint64_t b = get(m, word >> 16 & 31, 0);
    if ((word >> 24 & 31) != 0x0b || word >> 21 & 1 || (!sf && amount > 31))
        return UNDECODED;
    if (!sf)
        b = (uint32_t)b;
    switch (word >> 22 & 3) {
    case 0: b <<= amount; break;
    case 1: b >>= amount; break;
    case 2: b = sf ? (uint64_t)((int64_t)b >> amount) : (uint32_t)((int32_t)b >> amount); break;
    default: return UNDECODED;
    }
    set(m, word & 31, 0, sf, sum(m, sf, less, s, get(m, word >> 5 & 31, 0), b));
    return RUNNING;
}

static enum end access(struct machine *m, uint32_t word) {
    unsigned size = word >> 30, opc = word >> 22 & 3, rn = word >> 5 & 31, rt = word & 31, kind = word >> 24 & 63;
    uint64_t base = get(m, rn, 1), at = base, value = 0;
    int64_t offset = sign(word >> 12 & 0x1ff, 9);
    unsigned index = word >> 10 & 3;
    if ((size == 3 && opc > 1) || (size == 2 && opc == 3))
        return UNDECODED;
    if (kind == 0x39)
        at = base + ((uint64_t)(word >> 10 & 0xfff) << size);
    else if (kind != 0x38 || word >> 21 & 1 || index == 2)
        return UNDECODED;
    else if (index != 1)
        at = base + offset;
    uint8_t *bytes = bytes_at(m, &m->data, at, 1u << size);
    if (!bytes)
        return FAULT;
    if (opc == 0) {
        value = get(m, rt, 0);
        memcpy(bytes, &value, 1u << size);
    } else {
        memcpy(&value, bytes, 1u << size);
        if (opc > 1)
            value = sign(value, 8u << size);
        set(m, rt, 0, opc != 3, value);
    }
    if (kind == 0x38 && index)
        set(m, rn, 1, 1, base + offset);
    return RUNNING;
}

static int holds(const struct machine *m, unsigned condition) {
    int yes;
    switch (condition >> 1) {
    case 0: yes = m->z; break;
    case 1: yes = m->c; break;
    case 2: yes = m->n; break;
    case 3: yes = m->v; break;
    case 4: yes = m->c && !m->z; break;
    case 5: yes = m->n == m->v; break;
    case 6: yes = m->n == m->v && !m->z; break;
    default: return 1;
    }
    return yes != (int)(condition & 1);
}

/* Branches and the system's instructions; `next` is the place behind the word. */
static enum end branch(struct machine *m, uint32_t word, uint64_t *next) {
    uint64_t value;
    switch (word >> 24) {
    case 0x14: case 0x15: case 0x16: case 0x17:
        *next = m->place + sign(word & 0x3ffffff, 26) * 4;
        return RUNNING;
    case 0x54:
        if (word >> 4 & 1)
            return UNDECODED;
        if (holds(m, word & 15))
            *next = m->place + sign(word >> 5 & 0x7ffff, 19) * 4;
        return RUNNING;
    case 0x34: case 0x35: case 0xb4: case 0xb5:
        value = get(m, word & 31, 0);
        if (!(word >> 31))
            value = (uint32_t)value;
        if ((value == 0) != (int)(word >> 24 & 1))
            *next = m->place + sign(word >> 5 & 0x7ffff, 19) * 4;
        return RUNNING;
    case 0xd4:
        return (word & 0xffe0001f) == 0xd4000001 ? CALL : (word & 0xffe0001f) == 0xd4200000 ? BREAK : UNDECODED;
    case 0xd5:
        return (word & 0xfffff01f) == 0xd503201f ? RUNNING : UNDECODED;
    default:
        return UNDECODED;
    }
}

static enum end step(struct machine *m) {
    uint32_t word;
    enum end end;
    const uint8_t *bytes = m->place % 4 ? NULL : bytes_at(m, &m->code, m->place, 4);
    uint64_t next = m->place + 4;
    if (!bytes)
        return FAULT;
    memcpy(&word, bytes, 4);
    switch (word >> 25 & 15) {
    case 8: case 9: end = immediate(m, word); break;
    case 5: end = registers(m, word); break;
    case 4: case 12: end = access(m, word); break;
    case 10: case 11: end = branch(m, word, &next); break;
    default: end = word >> 16 ? UNDECODED : UDF;
    }
    if (end == RUNNING)
        m->place = next;
    return end;
}

static uint8_t *whole(const char *name) {
    FILE *file = fopen(name, "rb");
    uint8_t *bytes = malloc(1 << 26);
    if (!file || !bytes || fread(bytes, 1, 1 << 26, file) < 40)
        exit(1);
    fclose(file);
    return bytes;
}

static void load(struct machine *m, const uint8_t *bytes) {
    uint64_t stack_at = word_of(bytes + 16), stack_size = word_of(bytes + 24);
    const uint8_t *next = bytes + 40;
    memset(m, 0, sizeof *m);
    m->place = word_of(bytes + 8);
    m->stack_pointer = stack_at + stack_size;
    m->count = word_of(bytes + 32) + 1;
    m->segments = calloc(m->count, sizeof *m->segments);
    m->segments[0] = (struct segment){stack_at, stack_size, calloc(1, stack_size)};
    for (size_t i = 1; i < m->count; i++) {
        struct segment *s = &m->segments[i];
        s->at = word_of(next);
        s->len = word_of(next + 8);
        s->bytes = malloc(s->len);
        memcpy(s->bytes, next + 16, s->len);
        next += 16 + s->len;
    }
}

int main(int count, char **words) {
    struct machine machine;
    struct timespec from, to;
    uint64_t steps = 0, most = count > 2 ? strtoull(words[2], NULL, 10) : 1000000;
    enum end end = RUNNING;
    if (count < 2)
        return 2;
    load(&machine, whole(words[1]));
    clock_gettime(CLOCK_MONOTONIC, &from);
    while (end == RUNNING && steps < most) {
        end = step(&machine);
        steps++;
    }
    clock_gettime(CLOCK_MONOTONIC, &to);
    double seconds = (to.tv_sec - from.tv_sec) + (to.tv_nsec - from.tv_nsec) * 1e-9;
    printf("steps=%llu end=%d seconds=%.4f per second=%.0f\n", (unsigned long long)steps, end, seconds, steps / seconds);
    return 0;
}
