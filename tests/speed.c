/* The loops of the program `speed` in C: the card as a struct that is changed in place, every call written to be fast, from the pages and not from crates/.
 *
 *     cc -O3 -march=native tests/speed.c -o speed        (-mcpu=native on Arm)
 *     speed TIMES ROOM LOOP ..
 *
 * It writes the same lines, and so says what the program must write; `tests/speed.py` builds it, compares and times both. A call is never laid into its caller, since a host
 * would find these calls in a library.
 */
#include <inttypes.h>
#include <stdbool.h>
#include <stddef.h>
#include <stdint.h>
#include <stdio.h>
#include <stdlib.h>
#include <string.h>

#define CALL __attribute__((noinline))

enum { LONGEST = 1000000 };
#define DAY UINT64_C(864000000000)
#define SECOND UINT64_C(10000000)
#define NEVER UINT64_MAX

enum {
    DONE, NO_REGISTER, WRONG_DIRECTION, QUEUE_FULL, NO_START, TOO_LONG, NO_END, UNKNOWN_ID, WRONG_LENGTH, WRONG_BYTE, NO_MEANING, OUTSIDE_TIME, OUTSIDE_DIVIDER,
    OUTSIDE_STROBE, SHORT_ROW, OVER_A_DAY, PAST_9999, BAD_DIGIT, UNLAWFUL, NOT_SAVED, JAM_ON = 25
};
enum { STROBE_OFF, STROBE_DAILY, STROBE_EACH_SECOND };
enum { FORMAT_A, FORMAT_B, FORMAT_C, FORMAT_N, FORMAT_X };

struct settings {
    int32_t offset;
    uint8_t mode, format, modulation, clock, generator; /* modulation 1 is D, clock 1 external, generator 1 H */
};

struct card {
    uint64_t tick;
    uint16_t year, day;
    uint32_t strobe_ms;
    uint32_t count;
    uint16_t n1, n2; /* 0 and 0 for off */
    uint8_t strobe, control, mask, pending, level, vector;
    bool done, closed, jam;
    uint16_t missed;
    struct settings settings;
    uint16_t time_latch[5], event_latch[5];
    uint32_t fill;
    uint8_t queue[64];
};

/* ---- time */

static unsigned days_in(unsigned year)
{
    return year % 4 ? 365 : year % 100 ? 366 : year % 400 ? 365 : 366;
}

/* The two digits of a number below a hundred. */
#define TEN(t) 0x##t##0, 0x##t##1, 0x##t##2, 0x##t##3, 0x##t##4, 0x##t##5, 0x##t##6, 0x##t##7, 0x##t##8, 0x##t##9
static const uint8_t PAIRS[100] = {TEN(0), TEN(1), TEN(2), TEN(3), TEN(4), TEN(5), TEN(6), TEN(7), TEN(8), TEN(9)};

static unsigned pair(unsigned n)
{
    return PAIRS[n];
}

struct words {
    uint16_t w[5];
};

static struct words words_at(unsigned day, uint64_t tick)
{
    uint32_t seconds = (uint32_t)(tick / SECOND), fraction = (uint32_t)(tick % SECOND);
    uint32_t minutes = seconds / 60, hours = minutes / 60, high = fraction / 1000, low = fraction % 1000;
    struct words r;
    r.w[0] = (uint16_t)(day / 100);
    r.w[1] = (uint16_t)(pair(day % 100) << 8 | pair(hours));
    r.w[2] = (uint16_t)(pair(minutes % 60) << 8 | pair(seconds % 60));
    r.w[3] = (uint16_t)(pair(high / 100) << 8 | pair(high % 100));
    r.w[4] = (uint16_t)(pair(low / 10) << 8 | (low % 10) << 4);
    return r;
}

static int write_words(unsigned day, uint64_t tick, uint16_t words[5])
{
    if (day - 1 >= 366 || tick >= DAY) {
        memset(words, 0, 10);
        return OUTSIDE_TIME;
    }
    struct words r = words_at(day, tick);
    memcpy(words, r.w, 10);
    return DONE;
}

/* Five words as one number of sixteen digits, which has words 1 to 4, and word 0 beside it. A digit above 9 carries once 6 is added to each. */
static int words_refused(const uint16_t w[5])
{
    uint64_t x = (uint64_t)w[1] << 48 | (uint64_t)w[2] << 32 | (uint64_t)w[3] << 16 | w[4];
    uint64_t odd = x & UINT64_C(0x0f0f0f0f0f0f0f0f), even = x >> 4 & UINT64_C(0x0f0f0f0f0f0f0f0f);
    if (((odd + UINT64_C(0x0606060606060606)) | (even + UINT64_C(0x0606060606060606))) & UINT64_C(0x1010101010101010) || w[0] > 9 || w[4] & 15)
        return BAD_DIGIT;
    /* decimal digits compare as the numbers do */
    unsigned day = (unsigned)w[0] << 8 | w[1] >> 8;
    if (day - 1 >= 0x366 || (w[1] & 255) > 0x23 || w[2] > 0x59ff || (w[2] & 255) > 0x59)
        return OUTSIDE_TIME;
    return DONE;
}

static unsigned two(unsigned b)
{
    return b - 6 * (b >> 4);
}

static int read_words(const uint16_t w[5], unsigned *day, uint64_t *tick)
{
    int refused = words_refused(w);
    *day = 0;
    *tick = 0;
    if (refused)
        return refused;
    *day = w[0] * 100u + two(w[1] >> 8);
    uint64_t seconds = (two(w[1] & 255) * 60 + two(w[2] >> 8)) * 60 + two(w[2] & 255);
    uint32_t fraction = (two(w[3] >> 8) * 100 + two(w[3] & 255)) * 1000 + two(w[4] >> 8) * 10 + (w[4] >> 4 & 15);
    *tick = seconds * SECOND + fraction;
    return DONE;
}

/* ---- 18 */

static bool latch_lawful(const uint16_t w[5])
{
    uint64_t front;
    memcpy(&front, w, 8);
    return !(front | w[4]) || words_refused(w) == DONE;
}

static bool pair_means(unsigned format, unsigned modulation)
{
    /* A only D; C and X only M */
    return format == FORMAT_A ? modulation : !((format == FORMAT_C || format == FORMAT_X) && modulation);
}

static bool settings_lawful(const struct settings *s)
{
    return s->mode < 8 && 0x6f >> s->mode & 1 && s->format <= FORMAT_X && pair_means(s->format, s->modulation) && (s->modulation | s->clock | s->generator) <= 1 &&
        (uint32_t)s->offset + 9999999u <= 19999998u;
}

static bool offset_large(int32_t offset)
{
    return (uint32_t)offset + 9900u > 19800u;
}

/* Zeros, and behind them ones: from a place on that depends on the fill, they are what must be clear. */
static const uint8_t CLEAR[128] = {
    [64] = 255, 255, 255, 255, 255, 255, 255, 255, 255, 255, 255, 255, 255, 255, 255, 255, 255, 255, 255, 255, 255, 255, 255, 255, 255, 255, 255, 255, 255, 255, 255, 255,
    255, 255, 255, 255, 255, 255, 255, 255, 255, 255, 255, 255, 255, 255, 255, 255, 255, 255, 255, 255, 255, 255, 255, 255, 255, 255, 255, 255, 255, 255, 255, 255,
};

static bool queue_lawful(const struct card *c)
{
    if (c->fill > 64)
        return false;
    const uint8_t *clear = CLEAR + 64 - c->fill;
    uint64_t behind = 0;
    for (unsigned i = 0; i < 64; i += 8) {
        uint64_t bytes, mask;
        memcpy(&bytes, c->queue + i, 8);
        memcpy(&mask, clear + i, 8);
        behind |= bytes & mask;
    }
    return !behind;
}

static inline bool lawful(const struct card *c)
{
    if ((unsigned)(c->year - 1) >= 9999 || c->day < 1 || (c->day > 365 && c->day > days_in(c->year)) || c->tick >= DAY)
        return false;
    if (c->strobe > STROBE_EACH_SECOND || (c->strobe && c->strobe_ms >= (c->strobe == STROBE_DAILY ? 86400000u : 1000u)))
        return false;
    if ((c->n1 | c->n2) && (c->n1 < 2 || c->n2 < 2 || c->count >= (uint32_t)c->n1 * c->n2))
        return false;
    if ((c->mask | c->pending) > 31 || (c->level | c->control) > 7 || (c->closed && !(c->control & 4)))
        return false;
    if (!settings_lawful(&c->settings) || (c->jam && offset_large(c->settings.offset)))
        return false;
    return latch_lawful(c->time_latch) && latch_lawful(c->event_latch) && queue_lawful(c);
}

static CALL bool is_lawful(const struct card *c)
{
    return lawful(c);
}

/* ---- packets */

struct packet {
    char id;
    uint8_t first, second; /* of A, H, I and K */
    int32_t offset;
};

static bool packet_large(const struct packet *p)
{
    return p->id == 'G' && offset_large(p->offset);
}

/* Eight bytes, of which the first is a sign: the seven digits of the others, tested and added up together. */
static int read_offset(const uint8_t *data, int32_t *offset)
{
    uint64_t x;
    memcpy(&x, data, 8);
    unsigned sign = x & 255;
    x = (x & ~UINT64_C(0xff)) | '0';
    uint64_t digits = x ^ UINT64_C(0x3030303030303030);
    if (((digits + UINT64_C(0x7676767676767676)) | digits) & UINT64_C(0x8080808080808080) || (sign != '+' && sign != '-'))
        return WRONG_BYTE;
    digits = digits * 10 + (digits >> 8);
    uint64_t n = ((digits & UINT64_C(0x000000ff000000ff)) * (100 + (UINT64_C(1000000) << 32)) + (digits >> 16 & UINT64_C(0x000000ff000000ff)) * (1 + (UINT64_C(10000) << 32))) >> 32;
    *offset = sign == '-' ? -(int32_t)n : (int32_t)n;
    return DONE;
}

static int read_body(struct packet *p, char id, const uint8_t *data, size_t n)
{
    p->id = id;
    switch (id) {
    case 'A':
        if (n != 1)
            return WRONG_LENGTH;
        if ((unsigned)(data[0] - '0') > 7)
            return WRONG_BYTE;
        p->first = data[0] - '0';
        return 0x6f >> p->first & 1 ? DONE : NO_MEANING;
    case 'G':
        return n != 8 ? WRONG_LENGTH : read_offset(data, &p->offset);
    case 'H':
        if (n != 2)
            return WRONG_LENGTH;
        switch (data[0]) {
        case 'A': p->first = FORMAT_A; break;
        case 'B': p->first = FORMAT_B; break;
        case 'C': p->first = FORMAT_C; break;
        case 'N': p->first = FORMAT_N; break;
        case 'X': p->first = FORMAT_X; break;
        default: return WRONG_BYTE;
        }
        if (data[1] != 'M' && data[1] != 'D')
            return WRONG_BYTE;
        p->second = data[1] == 'D';
        return pair_means(p->first, p->second) ? DONE : NO_MEANING;
    case 'I':
        if (n != 1)
            return WRONG_LENGTH;
        p->first = data[0] == 'E';
        return data[0] == 'E' || data[0] == 'I' ? DONE : WRONG_BYTE;
    case 'K':
        if (n != 1)
            return WRONG_LENGTH;
        p->first = data[0] == 'H';
        return data[0] == 'H' || data[0] == 'B' ? DONE : WRONG_BYTE;
    default:
        return UNKNOWN_ID;
    }
}

static CALL int read_packet(struct packet *p, const uint8_t *row, size_t n)
{
    if (!n || row[0] != 0x01)
        return NO_START;
    size_t end = 1, looked = n < 41 ? n : 41;
    while (end < looked && row[end] != 0x17)
        end++;
    if (end == looked)
        return n < 41 ? NO_END : TOO_LONG;
    return end == 1 ? UNKNOWN_ID : read_body(p, (char)row[1], row + 2, end - 2);
}

static int put(uint8_t *row, size_t room, char id, unsigned b, size_t *bytes)
{
    if (room < 4)
        return SHORT_ROW;
    row[0] = 0x01, row[1] = (uint8_t)id, row[2] = (uint8_t)b, row[3] = 0x17;
    *bytes = 4;
    return DONE;
}

static int write_packet(const struct packet *p, uint8_t *row, size_t room, size_t *bytes)
{
    *bytes = 0;
    switch (p->id) {
    case 'A':
        if (p->first > 7)
            return WRONG_BYTE;
        return 0x6f >> p->first & 1 ? put(row, room, 'A', '0' + p->first, bytes) : NO_MEANING;
    case 'G': {
        uint32_t size = p->offset < 0 ? -(uint32_t)p->offset : (uint32_t)p->offset;
        if (size > 9999999)
            return WRONG_BYTE;
        if (room < 11)
            return SHORT_ROW;
        row[0] = 0x01, row[1] = 'G', row[2] = p->offset < 0 ? '-' : '+';
        row[3] = (uint8_t)('0' + size / 1000000), row[4] = (uint8_t)('0' + size / 100000 % 10), row[5] = (uint8_t)('0' + size / 10000 % 10);
        row[6] = (uint8_t)('0' + size / 1000 % 10), row[7] = (uint8_t)('0' + size / 100 % 10), row[8] = (uint8_t)('0' + size / 10 % 10);
        row[9] = (uint8_t)('0' + size % 10), row[10] = 0x17;
        *bytes = 11;
        return DONE;
    }
    case 'H':
        if (!pair_means(p->first, p->second))
            return NO_MEANING;
        if (room < 5)
            return SHORT_ROW;
        row[0] = 0x01, row[1] = 'H', row[2] = (uint8_t)"ABCNX"[p->first], row[3] = p->second ? 'D' : 'M', row[4] = 0x17;
        *bytes = 5;
        return DONE;
    case 'I': return put(row, room, 'I', p->first ? 'E' : 'I', bytes);
    default: return put(row, room, 'K', p->first ? 'H' : 'B', bytes);
    }
}

static void apply(struct settings *s, const struct packet *p)
{
    switch (p->id) {
    case 'A': s->mode = p->first; break;
    case 'G': s->offset = p->offset; break;
    case 'H': s->format = p->first, s->modulation = p->second; break;
    case 'I': s->clock = p->first; break;
    default: s->generator = p->first; break;
    }
}

/* ---- registers */

static int acknowledge(struct card *c, unsigned value)
{
    if (!(value & 0x80)) {
        if (value & 1)
            c->done = false;
        return DONE;
    }
    struct packet p;
    int refused = read_packet(&p, c->queue, c->fill);
    if (!refused && c->jam && packet_large(&p))
        refused = JAM_ON;
    if (!refused)
        apply(&c->settings, &p);
    c->done = !refused;
    memset(c->queue, 0, sizeof c->queue);
    c->fill = 0;
    return refused;
}

static void latch(uint16_t words[5], const struct card *c)
{
    struct words r = words_at(c->day, c->tick);
    memcpy(words, r.w, 10);
}

static CALL int write_register(struct card *c, unsigned reg, unsigned value)
{
    if (!lawful(c))
        return UNLAWFUL;
    switch (reg) {
    case 0: latch(c->time_latch, c); return DONE;
    case 11:
        c->control = value & 7;
        c->closed = c->closed && value & 4;
        return DONE;
    case 12: return acknowledge(c, value);
    case 13:
        if (c->fill == 64)
            return QUEUE_FULL;
        c->queue[c->fill++] = (uint8_t)value;
        return DONE;
    case 14: c->mask = value & 31; return DONE;
    case 15: c->pending &= (uint8_t)~value; return DONE;
    case 16: c->level = value & 7; return DONE;
    case 17: c->vector = (uint8_t)value; return DONE;
    case 18:
        c->closed = false;
        c->missed = 0;
        return DONE;
    default: return reg < 18 ? WRONG_DIRECTION : NO_REGISTER;
    }
}

static CALL int read_register(struct card *c, unsigned reg, uint16_t *value)
{
    *value = 0;
    if (!lawful(c))
        return UNLAWFUL;
    if (reg - 1 < 5) {
        *value = c->time_latch[reg - 1];
        return DONE;
    }
    if (reg - 6 < 5) {
        *value = c->event_latch[reg - 6];
        return DONE;
    }
    switch (reg) {
    case 0: latch(c->time_latch, c); return DONE;
    case 11: *value = c->control; return DONE;
    case 12: *value = c->done; return DONE;
    case 14: *value = c->mask; return DONE;
    case 15: *value = c->pending; return DONE;
    case 16: *value = c->level; return DONE;
    case 17: *value = c->vector; return DONE;
    case 18: *value = c->missed; return DONE;
    default: return reg == 13 ? WRONG_DIRECTION : NO_REGISTER;
    }
}

static CALL int write_block(struct card *c, const uint8_t *row, size_t n, size_t *taken)
{
    *taken = 0;
    if (!lawful(c))
        return UNLAWFUL;
    size_t room = 64 - c->fill, k = n < room ? n : room;
    memcpy(c->queue + c->fill, row, k);
    c->fill += (uint32_t)k;
    *taken = k;
    return k < n ? QUEUE_FULL : DONE;
}

static CALL int input_edge(struct card *c, bool falling)
{
    if (!lawful(c))
        return UNLAWFUL;
    if (!(c->control & 1) || falling != !!(c->control & 2))
        return DONE;
    if (c->closed) {
        c->missed += c->missed < 65535;
    } else {
        latch(c->event_latch, c);
        c->closed = c->control & 4;
    }
    c->pending |= 1;
    return DONE;
}

struct line {
    uint8_t number, level, vector;
    bool up;
};

static CALL struct line interrupt_line(const struct card *c)
{
    struct line l = {0};
    if (!lawful(c)) {
        l.number = UNLAWFUL;
    } else if (c->level && c->pending & c->mask) {
        l.up = true;
        l.level = c->level;
        l.vector = c->vector;
    }
    return l;
}

/* ---- setting */

static CALL int set_time(struct card *c, unsigned year, unsigned day, unsigned hour, unsigned minute, unsigned second)
{
    if (!lawful(c))
        return UNLAWFUL;
    if (year - 1 >= 9999 || day < 1 || (day > 365 && day > days_in(year)) || hour > 23 || minute > 59 || second > 59)
        return OUTSIDE_TIME;
    c->year = (uint16_t)year;
    c->day = (uint16_t)day;
    c->tick = ((hour * 60 + minute) * 60 + second) * SECOND;
    return DONE;
}

static CALL int set_strobe(struct card *c, unsigned kind, unsigned hour, unsigned minute, unsigned second, unsigned ms)
{
    if (!lawful(c))
        return UNLAWFUL;
    if (kind && (ms > 999 || (kind == STROBE_DAILY && (hour > 23 || minute > 59 || second > 59))))
        return OUTSIDE_STROBE;
    c->strobe = (uint8_t)kind;
    c->strobe_ms = kind == STROBE_DAILY ? ((hour * 60 + minute) * 60 + second) * 1000 + ms : kind ? ms : 0;
    return DONE;
}

static CALL int set_dividers(struct card *c, bool on, uint32_t n1, uint32_t n2)
{
    if (!lawful(c))
        return UNLAWFUL;
    if (on && (n1 - 2 > 65533 || n2 - 2 > 65533))
        return OUTSIDE_DIVIDER;
    c->n1 = on ? (uint16_t)n1 : 0;
    c->n2 = on ? (uint16_t)n2 : 0;
    c->count = 0;
    return DONE;
}

static CALL int reset(struct card *c)
{
    if (!lawful(c))
        return UNLAWFUL;
    struct card r = {.year = c->year, .day = c->day, .tick = c->tick, .jam = true};
    r.settings = c->settings;
    r.settings.clock = 0;
    r.settings.offset = 0;
    *c = r;
    return DONE;
}

static struct card fresh_card(void)
{
    return (struct card){.year = 1, .day = 1, .jam = true, .settings.format = FORMAT_B};
}

static CALL int save(const struct card *c, uint8_t *row, size_t room)
{
    if (!lawful(c))
        return UNLAWFUL;
    if (room < 5)
        return SHORT_ROW;
    const struct settings *s = &c->settings;
    uint64_t size = s->offset < 0 ? -(uint32_t)s->offset : (uint32_t)s->offset;
    uint64_t n = (uint64_t)s->mode << 37 | (uint64_t)s->format << 34 | (uint64_t)s->modulation << 33 | (uint64_t)s->clock << 32 | (uint64_t)s->generator << 31 |
        (uint64_t)(s->offset < 0) << 30 | size << 6;
    for (int i = 0; i < 5; i++)
        row[i] = (uint8_t)(n >> (32 - 8 * i));
    return DONE;
}

static CALL int load(struct card *c, const uint8_t *bytes, size_t count)
{
    if (!lawful(c))
        return UNLAWFUL;
    if (count != 5)
        return NOT_SAVED;
    uint64_t n = (uint64_t)bytes[0] << 32 | (uint32_t)bytes[1] << 24 | (uint32_t)bytes[2] << 16 | (uint32_t)bytes[3] << 8 | bytes[4];
    uint32_t size = n >> 6 & 0xffffff;
    bool minus = n >> 30 & 1;
    struct settings s = {.mode = n >> 37, .format = n >> 34 & 7, .modulation = n >> 33 & 1, .clock = n >> 32 & 1, .generator = n >> 31 & 1};
    s.offset = minus ? -(int32_t)size : (int32_t)size;
    if (!settings_lawful(&s) || (minus && !size) || n & 63)
        return NOT_SAVED;
    if (c->jam && offset_large(s.offset))
        return JAM_ON;
    c->settings = s;
    return DONE;
}

/* ---- waiting */

/* What falls next, as records: two beats in turn, each `span` after its own last one, and the periodic output. A single beat is two of twice its period. */
struct falls {
    uint64_t x, y, span, p, period;
};

static uint64_t on(uint64_t record)
{
    return record & ~UINT64_C(7);
}

static uint64_t least(uint64_t a, uint64_t b)
{
    return a < b ? a : b;
}

/* The beat that is next; on the tick of the periodic output they share a record. */
static uint64_t take_beat(struct falls *f)
{
    uint64_t record = f->x, later = record + f->span;
    if (f->p == on(record) + 1) {
        record++;
        f->p += f->period;
    }
    f->x = f->y;
    f->y = later;
    return record;
}

/* Where the periodic output comes often between two beats: whole runs of it. */
static size_t list_periods(struct falls *f, uint64_t end, uint64_t *row, size_t i, size_t room)
{
    while (i < room) {
        uint64_t limit = least(on(f->x), end);
        if (f->p < limit) {
            size_t n = (size_t)((limit - 1 - f->p) / f->period) + 1;
            if (n > room - i)
                n = room - i;
            uint64_t p = f->p, period = f->period;
            for (size_t stop = i + n; i < stop; i++, p += period)
                row[i] = p;
            f->p = p;
        } else if (f->x < end) {
            row[i++] = take_beat(f);
        } else {
            break;
        }
    }
    return i;
}

/* Pairs of beats. Eight pairs on, each record is eight periods above, which vectors can do. */
static void fill_pairs(uint64_t *row, size_t n, uint64_t x, uint64_t y, uint64_t span)
{
    size_t k = 0;
    for (; k < 2 * n && k < 16; k += 2, x += span, y += span) {
        row[k] = x;
        row[k + 1] = y;
    }
    for (; k < 2 * n; k++)
        row[k] = row[k - 16] + 8 * span;
}

/* Where many beats come between two of its falls: whole runs of pairs of beats. */
static size_t list_beats(struct falls *f, uint64_t end, uint64_t *row, size_t i, size_t room)
{
    while (i < room) {
        uint64_t limit = least(on(f->p), end);
        if (f->y < limit && room - i > 1) {
            size_t n = (room - i) / 2;
            if (f->y + (n - 1) * f->span >= limit)
                n = (size_t)((limit - 1 - f->y) / f->span) + 1;
            fill_pairs(row + i, n, f->x, f->y, f->span);
            f->x += n * f->span;
            f->y += n * f->span;
            i += 2 * n;
        } else if (f->p < on(f->x) && f->p < end) {
            row[i++] = f->p;
            f->p += f->period;
        } else if (f->x < end) {
            row[i++] = take_beat(f);
        } else {
            break;
        }
    }
    return i;
}

/* Where neither comes often before the other. */
static size_t list_both(struct falls *f, uint64_t end, uint64_t *row, size_t i, size_t room)
{
    uint64_t x = f->x, y = f->y, p = f->p;
    const uint64_t span = f->span, period = f->period;
    while (i < room) {
        uint64_t limit = least(on(x), end);
        while (p < limit) {
            row[i++] = p;
            p += period;
            if (i == room)
                goto full;
        }
        if (x >= end)
            break;
        uint64_t later = x + span;
        bool shared = p == limit + 1;
        row[i++] = x + shared;
        p += shared ? period : 0;
        x = y;
        y = later;
    }
full:
    f->x = x;
    f->y = y;
    f->p = p;
    return i;
}

/* All records below `end`, as far as there are places. */
static inline size_t list(struct falls *f, uint64_t end, uint64_t *row, size_t i, size_t room)
{
    if (f->period > 8 * f->span)
        return list_beats(f, end, row, i, room);
    if (f->period < 8 * SECOND / 16)
        return list_periods(f, end, row, i, room);
    return list_both(f, end, row, i, room);
}

struct waited {
    int number;
    uint64_t passed;
    size_t written;
};

static CALL struct waited wait_in_place(struct card *c, uint64_t ticks, uint64_t *row, size_t room)
{
    if (!lawful(c))
        return (struct waited){.number = UNLAWFUL};
    if (ticks > DAY)
        return (struct waited){.number = OVER_A_DAY};
    if (!room)
        return (struct waited){.number = SHORT_ROW};
    uint64_t tick = c->tick + ticks;
    if (tick >= DAY && c->year == 9999 && c->day == 365)
        return (struct waited){.number = PAST_9999};

    uint64_t fraction = c->tick % SECOND, second = SECOND - fraction, strobe = NEVER, daily = NEVER;
    uint64_t period = (uint64_t)c->n1 * c->n2, periodic = period ? period - c->count : NEVER / 16;
    struct falls f = {.x = 8 * second + 4, .y = 8 * (second + SECOND) + 4, .span = 16 * SECOND, .p = 8 * periodic + 1, .period = period ? 8 * period : NEVER / 2};
    if (c->strobe == STROBE_EACH_SECOND) {
        uint64_t at = c->strobe_ms * UINT64_C(10000);
        strobe = at > fraction ? at - fraction : at + second;
        if (at == 0) {
            f.x += 2;
            f.y += 2;
        } else {
            uint64_t s = 8 * strobe + 2;
            f.y = s < f.x ? f.x : s;
            f.x = s < f.x ? s : f.x;
            f.span = 8 * SECOND;
        }
    } else if (c->strobe == STROBE_DAILY) {
        uint64_t at = c->strobe_ms * UINT64_C(10000);
        strobe = at > c->tick ? at - c->tick : DAY - c->tick + at;
        daily = strobe;
    }

    uint64_t end = 8 * ticks + 8;
    size_t i = 0;
    if (daily > ticks) {
        i = list(&f, end, row, 0, room);
    } else {
        i = list(&f, 8 * daily, row, 0, room);
        if (i < room) {
            uint64_t record = 8 * daily + 2;
            if (f.p == 8 * daily + 1) {
                record++;
                f.p += f.period;
            }
            if (f.x == 8 * daily + 4) {
                record += 4;
                take_beat(&f);
            }
            row[i++] = record;
            daily = NEVER;
            i = list(&f, end, row, i, room);
        }
    }
    uint64_t passed = ticks;
    if (i == room && (f.p < end || f.x < end || daily <= ticks))
        passed = row[i - 1] / 8;

    c->pending |= (second <= passed) << 3 | (strobe <= passed) << 2 | (periodic <= passed) << 1;
    if (period)
        c->count = (uint32_t)(period - (f.p / 8 - passed));
    c->tick += passed;
    if (c->tick >= DAY) {
        c->tick -= DAY;
        if (c->day >= 365 && c->day == days_in(c->year)) {
            c->day = 1;
            c->year++;
        } else {
            c->day++;
        }
    }
    return (struct waited){.number = DONE, .passed = passed, .written = i};
}

struct waited_card {
    struct card card;
    struct waited waited;
};

/* The same, of a card by value. */
static CALL struct waited_card wait_by_value(struct card card, uint64_t ticks, uint64_t *row, size_t room)
{
    struct waited_card r;
    r.waited = wait_in_place(&card, ticks, row, room);
    r.card = card;
    return r;
}

/* ---- sums */

static uint64_t mixed(uint64_t sum, uint64_t answer)
{
    return (sum & 0xffffffff) * 31 + (answer & 0xffffffff);
}

static uint64_t with_wait(uint64_t sum, struct waited w, const uint64_t *row)
{
    sum = mixed(sum, (uint64_t)w.number);
    sum = mixed(sum, w.passed);
    sum = mixed(sum, w.written);
    return mixed(sum, w.written ? row[w.written - 1] : 0);
}

static uint64_t with_registers(uint64_t sum, struct card *c)
{
    for (unsigned reg = 1; reg < 18; reg++) {
        uint16_t value;
        sum = mixed(sum, (uint64_t)read_register(c, reg, &value));
        sum = mixed(sum, value);
    }
    return sum;
}

/* All that the saved form, a wait, registers and a time request show of a card. */
static uint64_t with_card(uint64_t sum, const struct card *card)
{
    struct card c = *card;
    uint8_t form[5] = {0};
    uint64_t row[4];
    uint16_t value;
    sum = mixed(sum, (uint64_t)save(&c, form, 5));
    for (int i = 0; i < 5; i++)
        sum = mixed(sum, form[i]);
    sum = with_wait(sum, wait_in_place(&c, SECOND, row, 4), row);
    c = *card;
    sum = with_registers(sum, &c);
    read_register(&c, 0, &value);
    return with_registers(sum, &c);
}

/* ---- cards to begin with */

static struct card card_with(unsigned strobe, unsigned ms, uint32_t n1, uint32_t n2)
{
    struct card c = fresh_card();
    set_time(&c, 2004, 45, 13, 7, 9);
    set_strobe(&c, strobe, 20, 15, 10, ms);
    set_dividers(&c, n1 != 0, n1, n2);
    return c;
}

/* Every part of it is set: a time in both latches, every pending bit but the one never raised, and four bytes in the queue, or none. */
static struct card busy_card(unsigned vector, bool queued)
{
    struct card c = card_with(STROBE_EACH_SECOND, 200, 2000, 2000);
    static const uint8_t bytes[4] = {1, 71, 45, 48};
    uint64_t row[8];
    uint16_t value;
    write_register(&c, 11, 1);
    write_register(&c, 14, 31);
    write_register(&c, 16, 3);
    write_register(&c, 17, vector);
    wait_in_place(&c, 11234567, row, 8);
    input_edge(&c, false);
    read_register(&c, 0, &value);
    for (int i = 0; queued && i < 4; i++)
        write_register(&c, 13, bytes[i]);
    return c;
}

/* ---- loops */

static CALL void fill_row(uint64_t *row, size_t room, uint64_t first)
{
    for (size_t i = 0; i < room; i++, first += 80000000)
        row[i] = first;
}

static uint64_t fills(uint64_t times, uint64_t *row, size_t room)
{
    uint64_t sum = 0;
    for (uint64_t i = 0; i < times; i++) {
        fill_row(row, room, sum & 0xffffffff);
        sum = mixed(sum, row[room - 1]);
    }
    return sum;
}

static uint64_t waits(struct card c, uint64_t times, uint64_t *row, size_t room)
{
    uint64_t sum = 0;
    for (uint64_t i = 0; i < times; i++) {
        struct waited_card w = wait_by_value(c, DAY, row, room);
        sum = with_wait(sum, w.waited, row);
        c = w.card;
    }
    return with_card(sum, &c);
}

static uint64_t waits_in_place(struct card c, uint64_t times, uint64_t *row, size_t room)
{
    uint64_t sum = 0;
    for (uint64_t i = 0; i < times; i++)
        sum = with_wait(sum, wait_in_place(&c, DAY, row, room), row);
    return with_card(sum, &c);
}

/* A name's numbers, behind its first space: dividers, 0 for off; the strobe's kind and its millisecond; the places of the row, 0 for all. */
static uint64_t waits_of(const char *name, uint64_t times, uint64_t *row, size_t room)
{
    unsigned long n[5] = {0};
    char *at = strchr(name, ' ');
    for (int i = 0; at && i < 5; i++)
        n[i] = strtoul(at, &at, 10);
    struct card c = card_with((unsigned)n[2], (unsigned)n[3], (uint32_t)n[0], (uint32_t)n[1]);
    if (n[4] && n[4] < room)
        room = n[4];
    return strncmp(name, "wait-in-place ", 14) ? waits(c, times, row, room) : waits_in_place(c, times, row, room);
}

static uint64_t words_loop(uint64_t times)
{
    uint64_t sum = 7;
    for (uint64_t i = 0; i < times; i++) {
        uint16_t w[5];
        write_words(1 + (sum & 255), sum, w);
        for (int k = 1; k < 5; k++)
            sum = mixed(sum, w[k]);
    }
    return sum;
}

static uint64_t read_words_loop(uint64_t times)
{
    uint64_t sum = 7;
    for (uint64_t i = 0; i < times; i++) {
        unsigned low = sum & 7, day;
        uint64_t tick;
        uint16_t w[5] = {0, (uint16_t)(0x4510 + low), (uint16_t)(0x0730 + low), (uint16_t)(0x1230 + low), (uint16_t)(0x5600 + low * 16)};
        read_words(w, &day, &tick);
        sum = mixed(mixed(sum, day), tick);
    }
    return sum;
}

static uint64_t lawful_loop(struct card a, struct card b, uint64_t times)
{
    struct card cards[2] = {a, b};
    uint64_t sum = 7;
    for (uint64_t i = 0; i < times; i++) {
        if (!is_lawful(&cards[sum & 1]))
            return sum;
        sum = mixed(sum, 1);
    }
    return sum;
}

static uint64_t line_loop(uint64_t times)
{
    struct card cards[2] = {busy_card(64, true), busy_card(66, true)};
    uint64_t sum = 7;
    for (uint64_t i = 0; i < times; i++) {
        struct line l = interrupt_line(&cards[sum & 1]);
        sum = mixed(mixed(sum, l.level), l.vector);
    }
    return sum;
}

static uint64_t mask_loop(struct card c, uint64_t times)
{
    uint64_t sum = 7;
    for (uint64_t i = 0; i < times; i++)
        sum = mixed(sum, (uint64_t)write_register(&c, 14, sum & 65535));
    return with_card(sum, &c);
}

/* INTSTAT, or, of the time, TIMEREQ and its five words in turn; each at another tick. */
static uint64_t read_loop(bool time, struct card c, uint64_t times)
{
    uint64_t sum = 7;
    for (uint64_t i = 0; i < times; i++) {
        uint16_t value;
        c.tick = sum;
        read_register(&c, time ? (unsigned)(i % 6) : 15, &value);
        sum = mixed(sum, value);
    }
    return with_card(sum, &c);
}

static uint64_t edge_loop(unsigned control, uint64_t times)
{
    struct card c = busy_card(64, true);
    uint64_t sum = 7;
    write_register(&c, 11, control);
    for (uint64_t i = 0; i < times; i++) {
        c.tick = sum;
        sum = mixed(sum, (uint64_t)input_edge(&c, false));
    }
    return with_card(sum, &c);
}

static uint64_t set_time_loop(struct card c, uint64_t times)
{
    uint64_t sum = 7;
    for (uint64_t i = 0; i < times; i++) {
        unsigned low = sum & 15;
        sum = mixed(sum, (uint64_t)set_time(&c, 2000 + low, 350 + low, low, low + 30, low + 40));
    }
    return with_card(sum, &c);
}

static uint64_t set_strobe_loop(struct card c, uint64_t times)
{
    uint64_t sum = 7;
    for (uint64_t i = 0; i < times; i++)
        sum = mixed(sum, (uint64_t)set_strobe(&c, STROBE_EACH_SECOND, 0, 0, 0, sum & 1023));
    return with_card(sum, &c);
}

static uint64_t set_dividers_loop(struct card c, uint64_t times)
{
    uint64_t sum = 7;
    for (uint64_t i = 0; i < times; i++) {
        uint32_t low = sum & 65535;
        sum = mixed(sum, (uint64_t)set_dividers(&c, true, low, low + 2));
    }
    return with_card(sum, &c);
}

static uint64_t reset_loop(struct card c, uint64_t times)
{
    uint64_t sum = 7;
    for (uint64_t i = 0; i < times; i++)
        sum = mixed(sum, (uint64_t)reset(&c));
    return with_card(sum, &c);
}

static uint64_t save_loop(struct card c, uint64_t times)
{
    uint64_t sum = 7;
    for (uint64_t i = 0; i < times; i++) {
        uint8_t form[5];
        save(&c, form, 5);
        sum = mixed(sum, (uint64_t)load(&c, form, 5));
    }
    return with_card(sum, &c);
}

/* Packet A is the shortest, and packet G the longest. */
static size_t packet_a(uint8_t bytes[11], uint64_t sum)
{
    uint8_t b[4] = {0x01, 'A', (uint8_t)('0' + (sum & 3)), 0x17};
    memcpy(bytes, b, 4);
    return 4;
}

static size_t packet_g(uint8_t bytes[11], uint64_t sum)
{
    uint8_t b[11] = {0x01, 'G', '-', '0', '0', '0', '9', '8', '7', (uint8_t)('0' + (sum & 3)), 0x17};
    memcpy(bytes, b, 11);
    return 11;
}

static uint64_t fed_loop(bool longest, uint64_t times)
{
    struct card c = busy_card(64, false);
    uint64_t sum = 7;
    for (uint64_t i = 0; i < times; i++) {
        uint8_t bytes[11];
        size_t n = longest ? packet_g(bytes, sum) : packet_a(bytes, sum);
        for (size_t k = 0; k < n; k++)
            write_register(&c, 13, bytes[k]);
        sum = mixed(sum, (uint64_t)write_register(&c, 12, 0x81));
    }
    return with_card(sum, &c);
}

static uint64_t block_loop(uint64_t times)
{
    struct card c = busy_card(64, false);
    uint64_t sum = 7;
    for (uint64_t i = 0; i < times; i++) {
        uint8_t bytes[11];
        size_t taken;
        write_block(&c, bytes, packet_g(bytes, sum), &taken);
        sum = mixed(sum, (uint64_t)write_register(&c, 12, 0x81));
    }
    return with_card(sum, &c);
}

static uint64_t read_packet_loop(uint64_t times)
{
    uint64_t sum = 7;
    for (uint64_t i = 0; i < times; i++) {
        uint8_t bytes[11];
        struct packet p;
        int number = read_packet(&p, bytes, packet_g(bytes, sum));
        sum = mixed(sum, number ? (uint64_t)number : p.id == 'G' ? (uint64_t)(p.offset < 0 ? -p.offset : p.offset) : 0);
    }
    return sum;
}

static uint64_t write_packet_loop(uint64_t times)
{
    uint64_t sum = 7;
    for (uint64_t i = 0; i < times; i++) {
        uint8_t bytes[11];
        size_t n;
        struct packet p = {.id = 'G', .offset = (int32_t)(sum & 4194303)};
        sum = mixed(sum, (uint64_t)write_packet(&p, bytes, 11, &n));
        sum = mixed(mixed(sum, bytes[8]), bytes[9]);
    }
    return sum;
}

static bool run(const char *name, uint64_t times, uint64_t *row, size_t room, uint64_t *sum)
{
    if (!strcmp(name, "fill")) *sum = fills(times, row, room);
    else if (!strncmp(name, "wait", 4)) *sum = waits_of(name, times, row, room);
    else if (!strcmp(name, "words")) *sum = words_loop(times);
    else if (!strcmp(name, "read-words")) *sum = read_words_loop(times);
    else if (!strcmp(name, "read-packet")) *sum = read_packet_loop(times);
    else if (!strcmp(name, "write-packet")) *sum = write_packet_loop(times);
    else if (!strcmp(name, "lawful-fresh")) *sum = lawful_loop(fresh_card(), card_with(STROBE_OFF, 0, 0, 0), times);
    else if (!strcmp(name, "lawful-busy")) *sum = lawful_loop(busy_card(64, true), busy_card(66, true), times);
    else if (!strcmp(name, "line")) *sum = line_loop(times);
    else if (!strcmp(name, "read-intstat")) *sum = read_loop(false, busy_card(64, true), times);
    else if (!strcmp(name, "read-time")) *sum = read_loop(true, busy_card(64, true), times);
    else if (!strcmp(name, "write-mask-fresh")) *sum = mask_loop(fresh_card(), times);
    else if (!strcmp(name, "write-mask-busy")) *sum = mask_loop(busy_card(64, true), times);
    else if (!strcmp(name, "edge-captured")) *sum = edge_loop(1, times);
    else if (!strcmp(name, "edge-passed")) *sum = edge_loop(0, times);
    else if (!strcmp(name, "set-time")) *sum = set_time_loop(busy_card(64, true), times);
    else if (!strcmp(name, "set-strobe")) *sum = set_strobe_loop(busy_card(64, true), times);
    else if (!strcmp(name, "set-dividers")) *sum = set_dividers_loop(busy_card(64, true), times);
    else if (!strcmp(name, "reset")) *sum = reset_loop(busy_card(64, true), times);
    else if (!strcmp(name, "save-load")) *sum = save_loop(busy_card(64, true), times);
    else if (!strcmp(name, "packet-a")) *sum = fed_loop(false, times);
    else if (!strcmp(name, "packet-g")) *sum = fed_loop(true, times);
    else if (!strcmp(name, "block-g")) *sum = block_loop(times);
    else return false;
    return true;
}

int main(int count, char **words)
{
    static uint64_t row[LONGEST];
    uint64_t times = count > 1 ? strtoull(words[1], NULL, 10) : 0;
    uint64_t places = count > 2 ? strtoull(words[2], NULL, 10) : 0;
    size_t room = places < 1 ? 1 : places > LONGEST ? LONGEST : (size_t)places;
    for (int i = 3; i < count; i++) {
        uint64_t sum;
        if (run(words[i], times, row, room, &sum))
            printf("%s %" PRIu64 "\n", words[i], sum);
        else
            printf("%s unknown\n", words[i]);
    }
}
