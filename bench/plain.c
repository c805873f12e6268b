/* A plain interpreter of the CP1610: one step, row by row as document 01 has them. */
#include "plain.h"

enum { R4 = 4, R6 = 6, R7 = 7 };
enum { GRANTED = 3, INTERRUPTED = 4, EXECUTED = 5 };
enum { MEMORY_TOO_LONG = 1, HALTED = 2, UNSPECIFIED = 3, BAD_MAP = 14, NO_MAP = 255 };
enum part { ROM = 0, RAM16 = 1, RAM8 = 2, EMPTY = 3 };
enum { RANGE_WORDS = 3, MOST_RANGES = 16, LONGEST_MEMORY = 65536 };

/* What a row says beside its effect: its cycles, and whether a request is heard after it. */
struct charge {
    uint16_t cycles;
    bool heard;
};

static inline struct charge heard(uint16_t cycles) { return (struct charge){cycles, true}; }

static inline struct charge unheard(uint16_t cycles) { return (struct charge){cycles, false}; }

static inline uint64_t answer(uint64_t kind, uint16_t cycles) { return kind << 32 | cycles; }

static inline bool bit(unsigned n, unsigned word) { return word >> n & 1; }

/* The first range that has the address decides; one that none has is empty. */
static inline enum part part_at(const struct plain_board *b, uint16_t at) {
    for (const uint16_t *range = b->map, *end = b->map + b->map_length; range != end; range += RANGE_WORDS)
        if (range[0] <= at && at <= range[1])
            return (enum part)range[2];
    return EMPTY;
}

/* An empty word and one past the end read as $FFFF. */
static inline uint16_t peek(const struct plain_board *b, uint16_t at) {
    return at < b->length && part_at(b, at) != EMPTY ? b->words[at] : 0xFFFF;
}

/* 16-bit RAM takes the word, 8-bit RAM its low byte; anywhere else and past the end nothing happens. */
static inline void poke(const struct plain_board *b, uint16_t at, uint16_t word) {
    if (at >= b->length)
        return;
    switch (part_at(b, at)) {
    case RAM16: b->words[at] = word; break;
    case RAM8: b->words[at] = word & 0xFF; break;
    default: break;
    }
}

/* S from the bit given, Z from the whole word. */
static inline void set_sz(struct plain *p, unsigned sign, uint16_t result) {
    p->s = bit(sign, result);
    p->z = result == 0;
}

static inline uint16_t add(struct plain *p, uint16_t x, uint16_t y) {
    uint32_t sum = (uint32_t)x + y;
    uint16_t result = sum;
    p->c = bit(16, sum);
    p->o = bit(15, (x ^ result) & (y ^ result));
    set_sz(p, 15, result);
    return result;
}

/* C is set where there is no borrow. */
static inline uint16_t subtract(struct plain *p, uint16_t x, uint16_t y) {
    uint16_t result = x - y;
    p->c = x >= y;
    p->o = bit(15, (x ^ y) & (x ^ result));
    set_sz(p, 15, result);
    return result;
}

static inline uint16_t logic(struct plain *p, uint16_t result) {
    set_sz(p, 15, result);
    return result;
}

/* MOVR ADDR SUBR CMPR ANDR XORR and MVI ADD SUB CMP AND XOR, with the operand at hand. */
static inline void operate(struct plain *p, unsigned w, uint16_t operand) {
    unsigned d = w & 7;
    uint16_t x = p->r[d];
    switch (w >> 6 & 7) {
    case 2: p->r[d] = w < 0x200 ? logic(p, operand) : operand; break;
    case 3: p->r[d] = add(p, x, operand); break;
    case 4: p->r[d] = subtract(p, x, operand); break;
    case 5: subtract(p, x, operand); break;
    case 6: p->r[d] = logic(p, x & operand); break;
    default: p->r[d] = logic(p, x ^ operand); break;
    }
}

/* 280 to 3FF. The pointer moves before the destination operand is taken. */
static inline struct charge read_row(struct plain *p, const struct plain_board *b, unsigned w) {
    unsigned s = w >> 3 & 7;
    uint16_t at = p->r[s], word;
    struct charge charge = heard(p->d ? 10 : 8);
    if (s == 0) {
        word = peek(b, peek(b, p->r[R7]));
        p->r[R7]++;
        charge = heard(10);
    } else if (s < R4) {
        word = peek(b, at);
        if (p->d)
            word = (word & 0xFF) * 0x101;
    } else if (s == R6) {
        p->r[R6] = at - 1;
        word = peek(b, at - 1);
        charge = heard(11);
    } else {
        word = peek(b, at);
        p->r[s] = at + 1;
        if (p->d) {
            word = (word & 0xFF) | (peek(b, at + 1) & 0xFF) << 8;
            p->r[s] = at + 2;
        }
    }
    operate(p, w, word);
    return charge;
}

/* MVO, 240 to 27F. The value is taken before the pointer moves; a direct store of R7 has its two words behind it. */
static inline struct charge store_row(struct plain *p, const struct plain_board *b, unsigned w) {
    unsigned s = w >> 3 & 7, d = w & 7;
    if (s == 0) {
        uint16_t at = peek(b, p->r[R7]);
        p->r[R7]++;
        poke(b, at, p->r[d]);
        return unheard(11);
    }
    poke(b, p->r[s], p->r[d]);
    if (s >= R4)
        p->r[s]++;
    return unheard(9);
}

/* The condition of bits 3 to 0, or the external input that they number. */
static inline bool taken(const struct plain *p, unsigned w, unsigned external) {
    if (bit(4, w))
        return bit(w & 15, external);
    bool holds;
    switch (w & 7) {
    case 0: holds = true; break;
    case 1: holds = p->c; break;
    case 2: holds = p->o; break;
    case 3: holds = !p->s; break;
    case 4: holds = p->z; break;
    case 5: holds = p->s != p->o; break;
    case 6: holds = p->z || p->s != p->o; break;
    default: holds = p->s != p->c; break;
    }
    return holds != bit(3, w);
}

/* 200 to 23F. */
static inline struct charge branch_row(struct plain *p, const struct plain_board *b, unsigned w, unsigned external) {
    uint16_t operand = p->r[R7], displacement = peek(b, operand);
    p->r[R7] = operand + 1;
    if (!taken(p, w, external))
        return heard(7);
    p->r[R7] = bit(5, w) ? operand - displacement : operand + 1 + displacement;
    return heard(9);
}

/* 004, whose second word is known to be specified. */
static inline struct charge jump_row(struct plain *p, const struct plain_board *b) {
    uint16_t second = peek(b, p->r[R7]), third = peek(b, p->r[R7] + 1), back = p->r[R7] + 2;
    unsigned field = second >> 8 & 3;
    if (field < 3)
        p->r[R4 + field] = back;
    if ((second & 3) != 0)
        p->i = (second & 3) == 1;
    p->r[R7] = (second >> 2 & 63) << 10 | (third & 1023);
    return heard(12);
}

/* 000 to 007. */
static inline struct charge control_row(struct plain *p, const struct plain_board *b, unsigned w) {
    switch (w) {
    case 0: p->halted = true; break;
    case 2: p->i = true; break;
    case 3: p->i = false; break;
    case 4: return jump_row(p, b);
    case 6: p->c = false; break;
    case 7: p->c = true; break;
    default: break; /* SDBD is looked after by the step; TCI does nothing */
    }
    return unheard(4);
}

/* 008 to 03F: INCR DECR COMR NEGR ADCR, GSWD NOP SIN, RSWD. */
static inline struct charge single_row(struct plain *p, unsigned w) {
    unsigned d = w & 7;
    uint16_t x = p->r[d];
    switch (w >> 3) {
    case 1: p->r[d] = logic(p, x + 1); break;
    case 2: p->r[d] = logic(p, x - 1); break;
    case 3: p->r[d] = logic(p, ~x); break;
    case 4: p->r[d] = subtract(p, 0, x); break;
    case 5: p->r[d] = add(p, x, p->c); break;
    case 6:
        if (d < 4)
            p->r[d] = (p->s << 3 | p->z << 2 | p->o << 1 | p->c) * 0x1010;
        break;
    default:
        p->s = bit(7, x);
        p->z = bit(6, x);
        p->o = bit(5, x);
        p->c = bit(4, x);
        break;
    }
    return heard(6);
}

/* What goes out at the left: bit 15 to C, and by two bit 14 to O. */
static inline void out_left(struct plain *p, uint16_t x, bool twice) {
    p->c = bit(15, x);
    if (twice)
        p->o = bit(14, x);
}

/* What goes out at the right: bit 0 to C, and by two bit 1 to O. */
static inline void out_right(struct plain *p, uint16_t x, bool twice) {
    p->c = bit(0, x);
    if (twice)
        p->o = bit(1, x);
}

/* 040 to 07F, of R0 to R3. */
static inline struct charge shift_row(struct plain *p, unsigned w) {
    bool twice = bit(2, w), c = p->c, o = p->o;
    unsigned by = twice ? 2 : 1, sign = 7;
    uint16_t x = p->r[w & 3], right = x >> by, arithmetic = (int16_t)x >> by, v;
    switch (w >> 3 & 7) {
    case 0: v = twice ? (x & 0xFF) * 0x101 : x << 8 | x >> 8; break;
    case 1: v = x << by; sign = 15; break;
    case 2: v = twice ? x << 2 | c << 1 | o : x << 1 | c; sign = 15; out_left(p, x, twice); break;
    case 3: v = x << by; sign = 15; out_left(p, x, twice); break;
    case 4: v = right; break;
    case 5: v = arithmetic; break;
    case 6: v = twice ? right | o << 15 | c << 14 : right | c << 15; out_right(p, x, twice); break;
    default: v = arithmetic; out_right(p, x, twice); break;
    }
    p->r[w & 3] = v;
    set_sz(p, sign, v);
    return unheard(twice ? 8 : 6);
}

/* The instruction of opcode w, with R7 on the word after it. */
static inline struct charge execute(struct plain *p, const struct plain_board *b, unsigned w, unsigned external) {
    if (w >= 0x280)
        return read_row(p, b, w);
    if (w >= 0x240)
        return store_row(p, b, w);
    if (w >= 0x200)
        return branch_row(p, b, w, external);
    if (w >= 0x080) {
        operate(p, w, p->r[w >> 3 & 7]);
        return heard(w < 0x0C0 && (w & 7) >= R6 ? 7 : 6); /* MOVR into R6 or R7 */
    }
    if (w >= 0x040)
        return shift_row(p, w);
    return w >= 0x008 ? single_row(p, w) : control_row(p, b, w);
}

/* A jump whose second word ends in bits 3, or a stack read under D. */
static inline bool is_unspecified(const struct plain_board *b, uint16_t pc, unsigned w, bool d) {
    if (w == 4)
        return (peek(b, pc + 1) & 3) == 3;
    return d && w >= 0x280 && (w >> 3 & 7) == R6;
}

/* Each of the first 16 ranges has a kind, whether it decides or not. */
static bool is_map(const struct plain_board *b) {
    for (size_t i = 0; i + RANGE_WORDS <= b->map_length && i < MOST_RANGES * RANGE_WORDS; i += RANGE_WORDS)
        if (b->map[i + 2] > RAM8)
            return false;
    return b->map_length % RANGE_WORDS == 0;
}

static bool is_bad_map(const struct plain_board *b) {
    if (b->map_length > MOST_RANGES * RANGE_WORDS)
        return true;
    for (size_t i = 0; i < b->map_length; i += RANGE_WORDS)
        if (b->map[i] > b->map[i + 1])
            return true;
    return false;
}

uint64_t plain_refusal(const struct plain_board *b) {
    if (!is_map(b))
        return NO_MAP;
    if (b->length > LONGEST_MEMORY)
        return MEMORY_TOO_LONG;
    return is_bad_map(b) ? BAD_MAP : 0;
}

uint64_t plain_step(struct plain *p, const struct plain_board *b, uint32_t lines) {
    if (p->halted)
        return HALTED;
    bool intrm = bit(0, lines), busrq = bit(1, lines);
    bool pending = !intrm && (p->pending || p->level);
    bool grants = p->ready && !busrq, interrupts = p->ready && p->i && pending;
    uint16_t pc = p->r[R7];
    unsigned w = peek(b, pc) & 1023;
    if (!grants && !interrupts && is_unspecified(b, pc, w, p->d))
        return UNSPECIFIED;
    p->pending = pending;
    p->level = intrm;
    if (grants)
        return answer(GRANTED, 1);
    if (interrupts) {
        poke(b, p->r[R6], pc);
        p->r[R6]++;
        p->r[R7] = 0x1004;
        p->pending = p->ready = p->d = false;
        return answer(INTERRUPTED, 12);
    }
    p->r[R7] = pc + 1;
    struct charge charge = execute(p, b, w, lines >> 16);
    p->d = w == 1;
    p->ready = charge.heard;
    return answer(EXECUTED, charge.cycles);
}
