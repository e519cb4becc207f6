/* The bench program of documents 01 and 02 in C, to be timed beside the proved one. It prints the same bytes for every file. */
#include <stddef.h>
#include <stdint.h>
#include <string.h>
#include <unistd.h>

enum {
    MOST_COILS = 128,
    MOST_DISCRETES = 128,
    MOST_INPUTS = 512,
    MOST_HOLDING = 9999,
    MOST_TABLE = MOST_COILS + MOST_DISCRETES + MOST_INPUTS + MOST_HOLDING,
    MOST_BLOCKS = 128,
    MOST_SCANS = 1000,
    LONGEST_WHOLE = 100,
    MOST_HEAD = 7,
    RECORD = 15,
    MOST_FILE = MOST_HEAD + RECORD * MOST_BLOCKS + 1 + MOST_TABLE + 2,
    MOST_WORDS = MOST_FILE + 1, /* one more is enough to know that words are left over */
    TEXT = 65536,
    LINE = 32, /* no line is longer */
};

enum { AND = 1, OR, XOR, COMP, CMPR, MBIT, SENS, BROT };

/* ---- the file's words */

static uint16_t words[MOST_WORDS];
static size_t count; /* of the words */
static int odd;      /* whether a byte stands after them */

static void read_words(void) {
    static uint8_t bytes[2 * MOST_WORDS];
    size_t got = 0;
    while (got < sizeof bytes) {
        ssize_t more = read(0, bytes + got, sizeof bytes - got);
        if (more <= 0) {
            break;
        }
        got += (size_t)more;
    }
    count = got / 2;
    odd = got % 2;
    for (size_t k = 0; k < count; k++) {
        words[k] = (uint16_t)(bytes[2 * k] << 8 | bytes[2 * k + 1]);
    }
}

/* ---- the check: each word when it is reached, once, before the run */

struct sizes {
    uint32_t coils, discretes, inputs, holding;
};

static struct sizes sizes;
static uint32_t level, head, blocks, table, scans; /* head: the words before the blocks */

/* Classes as bits, so that a row holds a set of them. */
enum { C0 = 1 << 0, C1 = 1 << 1, C3 = 1 << 3, C4 = 1 << 4, C9 = 1 << 9 };

/* Limits by level, from 1. */
static const uint16_t most_constant[] = {0, 999, 9600};

struct rule {
    uint16_t top, middle, most[3], extra, pointer;
};

#define WHOLE {0, LONGEST_WHOLE, LONGEST_WHOLE}
#define SINGLE {0, 255, 600}
#define LOGIC {C0 | C1 | C3 | C4, C0 | C4, WHOLE, 0, 0}

static const struct rule rules[] = {
    [AND] = LOGIC,
    [OR] = LOGIC,
    [XOR] = LOGIC,
    [COMP] = LOGIC,
    [CMPR] = {C0 | C1 | C3 | C4, C4, WHOLE, 1, 0},
    [MBIT] = {C3 | C4 | C9, C0 | C4, SINGLE, 0, 1},
    [SENS] = {C3 | C4 | C9, C0 | C1 | C3 | C4, SINGLE, 0, 1},
    [BROT] = LOGIC,
};

struct verdict {
    uint32_t number;
    size_t place;
};

static const struct verdict done = {0, 0};

static uint32_t class_fault(uint32_t allowed, uint32_t class) {
    return class <= 9 && (allowed >> class & 1) ? 0 : 6;
}

static uint32_t offset(uint32_t class, uint32_t number) {
    return class <= 1 ? (number - 1) / 16 : number - 1;
}

static uint32_t size_of(uint32_t class) {
    switch (class) {
    case 0: return sizes.coils;
    case 1: return sizes.discretes;
    case 3: return sizes.inputs;
    default: return sizes.holding;
    }
}

static uint32_t before(uint32_t class) {
    switch (class) {
    case 0: return 0;
    case 1: return sizes.coils;
    case 3: return sizes.coils + sizes.discretes;
    default: return sizes.coils + sizes.discretes + sizes.inputs;
    }
}

static uint32_t number_fault(uint32_t class, uint32_t number, uint32_t length) {
    if (class == 9) {
        return number <= most_constant[level] ? 0 : 6;
    }
    if (number == 0) {
        return 6;
    }
    if (class <= 1 && number % 16 != 1) {
        return 7;
    }
    return offset(class, number) + length <= size_of(class) ? 0 : 8;
}

static uint32_t input_fault(uint32_t code, uint32_t number, uint32_t earlier) {
    uint32_t most = code <= 3 ? 16 * sizes.coils : code <= 5 ? 16 * sizes.discretes : earlier;
    if (code <= 1) {
        return number == 0 ? 0 : 9;
    }
    return 1 <= number && number <= most ? 0 : 9;
}

/* The refusal of word q of a record whose words before q were accepted, or 0. */
static uint32_t word_fault(const uint16_t *record, uint32_t q, uint32_t earlier) {
    uint32_t w = record[q];
    const struct rule *rule = q == 0 ? NULL : &rules[record[0]];
    switch (q) {
    case 0: return AND <= w && w <= BROT ? 0 : 4;
    case 1: return 1 <= w && w <= rule->most[level] ? 0 : 5;
    case 2: return class_fault(rule->top, w);
    case 3: return number_fault(record[2], w, rule->pointer ? 1 : record[1]);
    case 4: return class_fault(rule->middle, w);
    case 5: return number_fault(record[4], w, (uint32_t)record[1] + rule->extra);
    case 6:
    case 8:
    case 10: return w <= 8 ? 0 : 9;
    case 7:
    case 9:
    case 11: return input_fault(record[q - 1], w, earlier);
    default: return w <= 16 * sizes.coils ? 0 : 10;
    }
}

/* With count 5 the level stands after the sizes; with count 4 it is left out. */
static struct verdict check_head(void) {
    static const struct range {
        uint16_t least, most, refusal;
    } ranges[MOST_HEAD] = {
        {4, 5, 2}, {0, MOST_COILS, 3}, {0, MOST_DISCRETES, 3}, {0, MOST_INPUTS, 3}, {0, MOST_HOLDING, 3}, {1, 2, 3}, {0, MOST_BLOCKS, 2},
    };
    uint32_t told = count != 0 && words[0] == 5;
    head = told ? MOST_HEAD : MOST_HEAD - 1;
    level = told ? words[5] : 1;
    for (size_t i = 0; i < head; i++) {
        const struct range *range = &ranges[i < 5 || told ? i : i + 1];
        if (count <= i) {
            return (struct verdict){1, i + 1};
        }
        if (words[i] < range->least || range->most < words[i]) {
            return (struct verdict){range->refusal, i + 1};
        }
    }
    return done;
}

static struct verdict check_blocks(void) {
    for (uint32_t k = 0; k < blocks; k++) {
        size_t at = head + RECORD * (size_t)k;
        for (uint32_t q = 0; q < RECORD; q++) {
            if (count <= at + q) {
                return (struct verdict){1, at + q + 1};
            }
            uint32_t number = word_fault(words + at, q, k);
            if (number != 0) {
                return (struct verdict){number, at + q + 1};
            }
        }
    }
    return done;
}

static struct verdict check_tail(size_t image, size_t run) {
    if (count < image) {
        return (struct verdict){1, image};
    }
    if (words[image - 1] != table) {
        return (struct verdict){2, image};
    }
    if (count < run) {
        return (struct verdict){1, count + 1};
    }
    if (count == run) {
        return (struct verdict){1, run + 1};
    }
    if (words[run] != 1) {
        return (struct verdict){2, run + 1};
    }
    if (count == run + 1) {
        return (struct verdict){1, run + 2};
    }
    if (words[run + 1] < 1 || MOST_SCANS < words[run + 1]) {
        return (struct verdict){3, run + 2};
    }
    if (run + 2 < count || odd) {
        return (struct verdict){11, run + 3};
    }
    return done;
}

/* ---- the run's state: the table, then a word for each block's outputs, a cell for each block's constant, and a word that is
   written and never read. One array, so that an input, a pointer or a coil is an index wherever it stands. The slack lets four words be
   read where fewer are wanted. */

enum {
    OUTPUTS = MOST_TABLE,
    CONSTANTS = OUTPUTS + MOST_BLOCKS,
    NOWHERE = CONSTANTS + MOST_BLOCKS,
    STATE = NOWHERE + 1 + 4,
};

static uint16_t state[STATE];

/* Power where the masked word is not 0, turned round where flip is 1. */
struct input {
    uint16_t at, mask, flip;
};

struct coil {
    uint16_t at, mask;
};

struct block {
    uint16_t kind, n, held;
    uint16_t source, destination, pointer;
    struct input on[3];
    struct coil coil[3];
};

static struct block records[MOST_BLOCKS];

static uint16_t mask_of(uint32_t bit) {
    return (uint16_t)(32768u >> bit % 16);
}

static struct input input_of(uint32_t code, uint32_t number) {
    uint32_t bit = number - 1;
    switch (code) {
    case 0: return (struct input){0, 0, 0};
    case 1: return (struct input){0, 0, 1};
    case 2:
    case 3: return (struct input){(uint16_t)(bit / 16), mask_of(bit), code == 3};
    case 4:
    case 5: return (struct input){(uint16_t)(sizes.coils + bit / 16), mask_of(bit), code == 5};
    default: return (struct input){(uint16_t)(OUTPUTS + bit), (uint16_t)(1u << (code - 6)), 0};
    }
}

static struct coil coil_of(uint32_t number) {
    if (number == 0) {
        return (struct coil){NOWHERE, 1};
    }
    return (struct coil){(uint16_t)((number - 1) / 16), mask_of(number - 1)};
}

/* ---- text */

static char text[TEXT];
static size_t held;

static void flush(void) {
    size_t gone = 0;
    while (gone < held) {
        ssize_t more = write(1, text + gone, held - gone);
        if (more <= 0) {
            break;
        }
        gone += (size_t)more;
    }
    held = 0;
}

static inline char *put_number(char *to, uint32_t n) {
    uint32_t places = n < 10 ? 1 : n < 100 ? 2 : n < 1000 ? 3 : n < 10000 ? 4 : 5;
    switch (places) {
    case 5: to[4] = (char)('0' + n % 10); n /= 10; /* fall through */
    case 4: to[3] = (char)('0' + n % 10); n /= 10; /* fall through */
    case 3: to[2] = (char)('0' + n % 10); n /= 10; /* fall through */
    case 2: to[1] = (char)('0' + n % 10); n /= 10; /* fall through */
    default: to[0] = (char)('0' + n);
    }
    return to + places;
}

static void say(const char *word, uint32_t n, char end) {
    size_t length = strlen(word);
    memcpy(text + held, word, length);
    char *to = put_number(text + held + length, n);
    *to = end;
    held = (size_t)(to + 1 - text);
}

/* ---- the blocks' work, four words at a time */

static inline uint64_t four(const uint16_t *from) {
    uint64_t x;
    memcpy(&x, from, sizeof x);
    return x;
}

static inline void put_four(uint16_t *to, uint64_t x) {
    memcpy(to, &x, sizeof x);
}

/* All is read before anything is written: the result is made beside the table. */
static inline void combine(uint32_t kind, uint32_t s, uint32_t d, uint32_t n) {
    uint16_t result[LONGEST_WHOLE + 4];
    const uint16_t *a = state + s, *b = state + d;
    switch (kind) {
    case AND:
        for (uint32_t i = 0; i < n; i += 4) put_four(result + i, four(a + i) & four(b + i));
        break;
    case OR:
        for (uint32_t i = 0; i < n; i += 4) put_four(result + i, four(a + i) | four(b + i));
        break;
    case XOR:
        for (uint32_t i = 0; i < n; i += 4) put_four(result + i, four(a + i) ^ four(b + i));
        break;
    default:
        for (uint32_t i = 0; i < n; i += 4) put_four(result + i, ~four(a + i));
    }
    memcpy(state + d, result, n * sizeof *result);
}

/* The bit that left. The word at the end that takes a bit from beyond is made alone. */
static inline uint32_t move_one(uint32_t s, uint32_t d, uint32_t n, uint32_t left, uint32_t wrap) {
    uint16_t result[LONGEST_WHOLE + 4];
    const uint16_t *a = state + s;
    uint32_t first = a[0], last = a[n - 1];
    uint32_t leaves = left ? first >> 15 : last & 1;
    uint32_t enters = wrap & leaves;
    if (left) {
        for (uint32_t i = 0; i < n; i += 4) {
            put_four(result + i, (four(a + i) << 1 & 0xfffefffefffefffe) | (four(a + i + 1) >> 15 & 0x0001000100010001));
        }
        result[n - 1] = (uint16_t)(last << 1 | enters);
    } else {
        result[0] = (uint16_t)(first >> 1 | enters << 15);
        for (uint32_t i = 1; i < n; i += 4) {
            put_four(result + i, (four(a + i) >> 1 & 0x7fff7fff7fff7fff) | (four(a + i - 1) << 15 & 0x8000800080008000));
        }
    }
    memcpy(state + d, result, n * sizeof *result);
    return leaves;
}

static inline uint32_t first_one(uint32_t w) {
    return (uint32_t)__builtin_clz(w) - 16;
}

/* The first differing position above a pointer below 16n, or 0. */
static inline uint32_t first_difference(uint32_t s, uint32_t d, uint32_t n, uint32_t above) {
    const uint16_t *a = state + s, *b = state + d;
    uint32_t k = above / 16;
    uint32_t apart = (uint32_t)(a[k] ^ b[k]) & 0xffffu >> above % 16;
    while (apart == 0) {
        k++;
        while (k + 4 <= n && four(a + k) == four(b + k)) {
            k += 4;
        }
        if (n <= k) {
            return 0;
        }
        apart = (uint32_t)(a[k] ^ b[k]);
    }
    return 16 * k + first_one(apart) + 1;
}

static inline uint32_t bit_at(uint32_t s, uint32_t position) {
    return (uint32_t)state[s + (position - 1) / 16] >> (15 - (position - 1) % 16) & 1;
}

static inline void put_bit(uint32_t at, uint32_t mask, uint32_t on) {
    uint32_t w = state[at];
    state[at] = (uint16_t)(on ? w | mask : w & ~mask);
}

static inline uint32_t advanced(uint32_t at, uint32_t size) {
    return at < size ? at + 1 : 1;
}

static inline uint32_t power(const struct input *in) {
    return (uint32_t)((state[in->at] & in->mask) != 0) ^ in->flip;
}

/* The block's work and its coils; the outputs, top worth 1, middle 2, bottom 4, and each pair that a compare examined worth 8. */
static inline uint32_t run_block(const struct block *b) {
    uint32_t top = power(&b->on[0]), middle = power(&b->on[1]), bottom = power(&b->on[2]);
    uint32_t n = b->n, size = 16 * n, s = b->source, d = b->destination, p = b->pointer;
    uint32_t shown = 0, last = 0, examined = 0;
    switch (b->kind) {
    case CMPR:
        if (top) {
            uint32_t at = middle || size <= state[p] ? 0 : state[p];
            uint32_t found = first_difference(s, d, n, at);
            shown = found != 0;
            last = found != 0 && bit_at(s, found);
            uint32_t reached = found != 0 ? found : size;
            state[p] = (uint16_t)reached;
            examined = reached - at;
        } else if (middle) {
            state[p] = 0;
        }
        break;
    case MBIT:
        if (top) {
            uint32_t at = state[p];
            shown = middle;
            last = size < at;
            if (!last) {
                if (at != 0) {
                    put_bit(d + (at - 1) / 16, mask_of(at - 1), middle);
                }
                if (b->held && bottom) {
                    state[p] = (uint16_t)advanced(at, size);
                }
            }
        }
        break;
    case SENS: {
        uint32_t reset = b->held && bottom, increase = b->held && middle;
        uint32_t at = reset ? 1 : state[p];
        if (top) {
            last = size < at;
            if (!last) {
                shown = at != 0 && bit_at(s, at);
                if (increase) {
                    at = advanced(at, size);
                }
            }
        }
        if (b->held) {
            state[p] = (uint16_t)at;
        }
        break;
    }
    case BROT:
        if (top) {
            shown = move_one(s, d, n, middle, bottom);
        }
        break;
    default:
        if (top) {
            combine(b->kind, s, d, n);
        }
    }
    put_bit(b->coil[0].at, b->coil[0].mask, top);
    put_bit(b->coil[1].at, b->coil[1].mask, shown);
    put_bit(b->coil[2].at, b->coil[2].mask, last);
    return top | shown << 1 | last << 2 | examined << 3;
}

static void decode(void) {
    for (uint32_t k = 0; k < blocks; k++) {
        const uint16_t *w = words + head + RECORD * k;
        struct block *b = &records[k];
        uint32_t top = w[2] == 9 ? CONSTANTS + k : before(w[2]) + offset(w[2], w[3]);
        uint32_t middle = before(w[4]) + offset(w[4], w[5]);
        b->kind = w[0];
        b->n = w[1];
        b->held = w[2] == 4;
        b->source = (uint16_t)(b->kind == SENS ? middle : top);
        b->destination = (uint16_t)(b->kind == CMPR ? middle + 1 : middle);
        b->pointer = (uint16_t)(b->kind == CMPR ? middle : top);
        for (uint32_t i = 0; i < 3; i++) {
            b->on[i] = input_of(w[6 + 2 * i], w[7 + 2 * i]);
            b->coil[i] = coil_of(w[12 + i]);
        }
        if (w[2] == 9) {
            state[CONSTANTS + k] = w[3];
        }
    }
}

static void run(void) {
    static const char outputs[8][8] = {
        "0 0 0 ", "1 0 0 ", "0 1 0 ", "1 1 0 ", "0 0 1 ", "1 0 1 ", "0 1 1 ", "1 1 1 ",
    };
    for (uint32_t scan = 1; scan <= scans; scan++) {
        for (uint32_t k = 0; k < blocks; k++) {
            const struct block *b = &records[k];
            uint32_t out = run_block(b);
            state[OUTPUTS + k] = (uint16_t)out;
            if (TEXT - LINE < held) {
                flush();
            }
            char *to = text + held;
            to = put_number(to, scan);
            *to++ = ' ';
            to = put_number(to, k + 1);
            *to++ = ' ';
            memcpy(to, outputs[out % 8], sizeof outputs[out % 8]);
            to += 6;
            if (b->kind == CMPR) {
                to = put_number(to, state[b->pointer]);
                *to++ = ' ';
                to = put_number(to, out / 8);
                *to++ = '\n';
            } else if (b->kind == MBIT || b->kind == SENS) {
                to = put_number(to, state[b->pointer]);
                memcpy(to, " 0\n", 4);
                to += 3;
            } else {
                memcpy(to, "- 0\n", 4);
                to += 4;
            }
            held = (size_t)(to - text);
        }
    }
}

int main(void) {
    read_words();
    struct verdict verdict = check_head();
    if (verdict.number == 0) {
        sizes = (struct sizes){words[1], words[2], words[3], words[4]};
        blocks = words[head - 1];
        table = sizes.coils + sizes.discretes + sizes.inputs + sizes.holding;
        verdict = check_blocks();
    }
    size_t image = head + RECORD * (size_t)blocks + 1;
    size_t after = image + table;
    if (verdict.number == 0) {
        verdict = check_tail(image, after);
    }
    if (verdict.number != 0) {
        say("refused ", verdict.number, ' ');
        say("", (uint32_t)verdict.place, '\n');
    } else {
        scans = words[after + 1];
        memcpy(state, words + image, table * sizeof *state);
        decode();
        say("blocks ", blocks, ' ');
        say("words ", table, '\n');
        run();
        if (TEXT - LINE < held) {
            flush();
        }
        say("end ", scans, '\n');
    }
    flush();
    return 0;
}
