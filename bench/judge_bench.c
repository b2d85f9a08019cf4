/*
 * A benchmark of the checker, and a cross-check of its answers.
 *
 * Two checkers are written here in plain C for the purpose:
 *
 *   plain_judge   keeps the same compact record of a trace as the proved checker: what the rules still need of it.
 *                 It is what the proved checker is timed against.
 *   paired_judge  keeps all commands and looks at every pair of an earlier and a later one, as the rules are written.
 *                 It is slow, and serves only to compare answers.
 *
 * First random traces, most of them damaged, are judged by all three, and the packed answers are compared.
 * Then one legal trace of a million lines on the small sheet is judged by the proved and the plain checker in turn,
 * five times each, and the best time of each is told. All random numbers come from one fixed seed.
 *
 *     judge_bench           compares and times
 *     judge_bench --time    only times
 */
#define _GNU_SOURCE
#include "../c/dorwithel.h"

#include <inttypes.h>
#include <stdbool.h>
#include <stdio.h>
#include <stdlib.h>
#include <string.h>
#include <time.h>

enum { SHEET_BYTES = 120, LINE_BYTES = 27 };
enum { RCD, RP, RAS, RC, RRD, FAW, CCD, RTP, WR, WTR, RL, WL, BURST, TIMINGS };
enum { IDLE, ACTIVATE, PRECHARGE, READ, WRITE };

/* ---- formats ---- */

static uint8_t DIGITS[256]; /* the value of a byte as a digit, 255 where it is none */

static void make_digits(void)
{
    memset(DIGITS, 255, sizeof DIGITS);
    for (int i = 0; i < 16; i++)
        DIGITS[(uint8_t) "0123456789ABCDEF"[i]] = (uint8_t)i;
}

/* The number that so many digits stand for; false where a byte is no digit. */
static bool number(const uint8_t *bytes, int digits, uint32_t *value)
{
    uint32_t sum = 0;
    for (int i = 0; i < digits; i++) {
        uint8_t digit = DIGITS[bytes[i]];
        if (digit > 15)
            return false;
        sum = sum * 16 + digit;
    }
    *value = sum;
    return true;
}

struct sheet {
    uint32_t value[TIMINGS]; /* in cycles */
    uint32_t banks, rows, columns;
};

static uint64_t packed(uint64_t refusal, uint64_t rule, uint64_t low)
{
    return refusal << 56 | rule << 48 | low;
}

/* Reads a sheet line; the packed refusal, 0 where it is taken. */
static uint64_t read_sheet(const uint8_t *line, size_t bytes, struct sheet *sheet)
{
    uint32_t period, length[TIMINGS], least[TIMINGS];
    if (bytes != SHEET_BYTES || line[119] != '\n' || !number(line, 5, &period))
        return packed(20, 0, 0);
    for (int i = 0; i < TIMINGS; i++)
        if (!number(line + 5 + 8 * i, 6, &length[i]) || !number(line + 11 + 8 * i, 2, &least[i]))
            return packed(20, 0, 0);
    if (!number(line + 109, 2, &sheet->banks) || !number(line + 111, 5, &sheet->rows)
        || !number(line + 116, 3, &sheet->columns))
        return packed(20, 0, 0);
    if (period < 1 || period > 100000)
        return packed(1, 0, 0);
    for (int i = 0; i < TIMINGS; i++)
        if (length[i] > 10000000)
            return packed(2, 0, (uint64_t)i);
    for (int i = 0; i < TIMINGS; i++) {
        uint32_t cycles = (length[i] + period - 1) / period;
        sheet->value[i] = cycles > least[i] ? cycles : least[i];
        if (sheet->value[i] < 1 || sheet->value[i] > 255)
            return packed(3, 0, (uint64_t)i);
    }
    if (sheet->value[WL] > sheet->value[RL])
        return packed(4, 0, 0);
    if (sheet->banks < 1 || sheet->banks > 16 || sheet->rows < 1 || sheet->rows > 65536
        || sheet->columns < 1 || sheet->columns > 1024)
        return packed(5, 0, 0);
    return 0;
}

struct command {
    uint32_t cycle, kind, bank, row, column, requester, number;
};

/* Reads one trace line of 27 bytes; false where it is malformed. */
static bool read_command(const uint8_t *line, struct command *c)
{
    if (!number(line, 8, &c->cycle) || !number(line + 8, 1, &c->kind) || !number(line + 9, 1, &c->bank)
        || !number(line + 10, 4, &c->row) || !number(line + 14, 3, &c->column)
        || !number(line + 17, 1, &c->requester) || !number(line + 18, 8, &c->number) || line[26] != '\n')
        return false;
    switch (c->kind) {
    case IDLE:
        return c->bank == 0 && c->row == 0 && c->column == 0 && c->requester == 0 && c->number == 0;
    case ACTIVATE:
        return c->column == 0;
    case PRECHARGE:
        return c->row == 0 && c->column == 0;
    default:
        return c->kind <= WRITE;
    }
}

static uint32_t read_to_write(const struct sheet *s)
{
    return s->value[RL] + s->value[CCD] + 2 - s->value[WL];
}

static uint32_t write_to_read(const struct sheet *s)
{
    return s->value[WL] + s->value[BURST] + s->value[WTR];
}

static uint32_t write_to_precharge(const struct sheet *s)
{
    return s->value[WL] + s->value[BURST] + s->value[WR];
}

static bool outside(const struct sheet *s, const struct command *c)
{
    return c->bank >= s->banks || c->row >= s->rows || c->column >= s->columns;
}

/* ---- the plain checker, with a compact record ---- */

/* The cycle of what never happened: no gap after it reaches cycle 0. */
#define NEVER ((int64_t)-1000)

struct bank {
    int32_t open_row; /* -1 where the bank is closed */
    int64_t activate, precharge, read, write;
};

struct record {
    int64_t latest;
    struct bank banks[16];
    int64_t read, write;
    int64_t recent[4]; /* the last four activates, the newest first */
};

static void start(struct record *r)
{
    r->latest = r->read = r->write = NEVER;
    for (int i = 0; i < 16; i++)
        r->banks[i] = (struct bank){-1, NEVER, NEVER, NEVER, NEVER};
    for (int i = 0; i < 4; i++)
        r->recent[i] = NEVER;
}

/* The smallest rule that a command breaks, 0 where it breaks none. */
static unsigned broken_rule(const struct record *r, const struct sheet *s, const struct command *c)
{
    int64_t cycle = c->cycle;
    if (cycle <= r->latest)
        return 1;
    if (outside(s, c))
        return 2;
    const struct bank *b = &r->banks[c->bank];
    switch (c->kind) {
    case ACTIVATE:
        if (b->open_row >= 0)
            return 3;
        if (cycle < b->activate + s->value[RC])
            return 6;
        if (r->recent[0] != b->activate && cycle < r->recent[0] + s->value[RRD])
            return 7;
        if (cycle < b->precharge + s->value[RP])
            return 10;
        if (cycle < r->recent[3] + s->value[FAW])
            return 16;
        return 0;
    case PRECHARGE:
        if (b->open_row < 0)
            return 4;
        if (cycle < b->activate + s->value[RAS])
            return 8;
        if (cycle < b->read + s->value[RTP])
            return 14;
        if (cycle < b->write + write_to_precharge(s))
            return 15;
        return 0;
    case READ:
        if (b->open_row != (int32_t)c->row)
            return 5;
        if (cycle < b->activate + s->value[RCD])
            return 9;
        if (cycle < r->read + s->value[CCD])
            return 11;
        if (cycle < r->write + write_to_read(s))
            return 13;
        return 0;
    case WRITE:
        if (b->open_row != (int32_t)c->row)
            return 5;
        if (cycle < b->activate + s->value[RCD])
            return 9;
        if (cycle < r->write + s->value[CCD])
            return 11;
        if (cycle < r->read + read_to_write(s))
            return 12;
        return 0;
    default:
        return 0;
    }
}

static void take_in(struct record *r, const struct command *c)
{
    struct bank *b = &r->banks[c->bank];
    r->latest = c->cycle;
    switch (c->kind) {
    case ACTIVATE:
        b->open_row = (int32_t)c->row;
        b->activate = c->cycle;
        for (int i = 3; i > 0; i--)
            r->recent[i] = r->recent[i - 1];
        r->recent[0] = c->cycle;
        break;
    case PRECHARGE:
        b->open_row = -1;
        b->precharge = c->cycle;
        break;
    case READ:
        b->read = r->read = c->cycle;
        break;
    case WRITE:
        b->write = r->write = c->cycle;
        break;
    }
}

/* Never inlined, so that it is timed as a call of its own, as the other one is. */
__attribute__((noinline)) static uint64_t plain_judge(const uint8_t *sheet_line, size_t sheet_bytes,
                                                      const uint8_t *text, size_t bytes)
{
    struct sheet sheet;
    struct record record;
    if (bytes > 1073741824)
        return packed(19, 0, 0);
    uint64_t refused = read_sheet(sheet_line, sheet_bytes, &sheet);
    if (refused != 0)
        return refused;
    start(&record);
    size_t count = (bytes + LINE_BYTES - 1) / LINE_BYTES;
    for (size_t line = 0; line < count; line++) {
        struct command c;
        if (bytes - line * LINE_BYTES < LINE_BYTES || !read_command(text + line * LINE_BYTES, &c))
            return packed(16, 0, line);
        unsigned rule = broken_rule(&record, &sheet, &c);
        if (rule != 0)
            return packed(18, rule, line);
        take_in(&record, &c);
    }
    return count;
}

/* ---- the checker of all pairs ---- */

enum { MOST = 128 }; /* it takes so many lines at most */

/* The gap that a rule sets between two commands, 0 where it sets none. */
static uint32_t gap(unsigned rule, const struct sheet *s, const struct command *a, const struct command *b)
{
    bool same = a->bank == b->bank;
    bool column = b->kind == READ || b->kind == WRITE;
    switch (rule) {
    case 1:
        return 1;
    case 6:
        return a->kind == ACTIVATE && b->kind == ACTIVATE && same ? s->value[RC] : 0;
    case 7:
        return a->kind == ACTIVATE && b->kind == ACTIVATE && !same ? s->value[RRD] : 0;
    case 8:
        return a->kind == ACTIVATE && b->kind == PRECHARGE && same ? s->value[RAS] : 0;
    case 9:
        return a->kind == ACTIVATE && column && same ? s->value[RCD] : 0;
    case 10:
        return a->kind == PRECHARGE && b->kind == ACTIVATE && same ? s->value[RP] : 0;
    case 11:
        return column && a->kind == b->kind ? s->value[CCD] : 0;
    case 12:
        return a->kind == READ && b->kind == WRITE ? read_to_write(s) : 0;
    case 13:
        return a->kind == WRITE && b->kind == READ ? write_to_read(s) : 0;
    case 14:
        return a->kind == READ && b->kind == PRECHARGE && same ? s->value[RTP] : 0;
    case 15:
        return a->kind == WRITE && b->kind == PRECHARGE && same ? write_to_precharge(s) : 0;
    default:
        return 0;
    }
}

/* Whether the last of these commands breaks a rule after those before it. */
static bool breaks(unsigned rule, const struct sheet *s, const struct command *all, int last)
{
    const struct command *c = &all[last];
    bool open = false;
    uint32_t row = 0;
    int activates = 0;
    for (int i = 0; i < last; i++) {
        if (all[i].kind == ACTIVATE && all[i].bank == c->bank) {
            open = true;
            row = all[i].row;
        }
        if (all[i].kind == PRECHARGE && all[i].bank == c->bank)
            open = false;
    }
    switch (rule) {
    case 2:
        return outside(s, c);
    case 3:
        return c->kind == ACTIVATE && open;
    case 4:
        return c->kind == PRECHARGE && !open;
    case 5:
        return (c->kind == READ || c->kind == WRITE) && !(open && row == c->row);
    case 16:
        if (c->kind != ACTIVATE)
            return false;
        for (int i = last - 1; i >= 0; i--)
            if (all[i].kind == ACTIVATE && ++activates == 4)
                return (uint64_t)c->cycle < (uint64_t)all[i].cycle + s->value[FAW];
        return false;
    default:
        for (int i = 0; i < last; i++) {
            uint32_t needed = gap(rule, s, &all[i], c);
            if (needed != 0 && (uint64_t)c->cycle < (uint64_t)all[i].cycle + needed)
                return true;
        }
        return false;
    }
}

static uint64_t paired_judge(const uint8_t *sheet_line, size_t sheet_bytes, const uint8_t *text, size_t bytes)
{
    static struct command all[MOST];
    struct sheet sheet;
    uint64_t refused = read_sheet(sheet_line, sheet_bytes, &sheet);
    if (refused != 0)
        return refused;
    int line = 0;
    for (size_t at = 0; at < bytes; at += LINE_BYTES, line++) {
        if (bytes - at < LINE_BYTES || !read_command(text + at, &all[line]))
            return packed(16, 0, (uint64_t)line);
        for (unsigned rule = 1; rule <= 16; rule++)
            if (breaks(rule, &sheet, all, line))
                return packed(18, rule, (uint64_t)line);
    }
    return (uint64_t)line;
}

/* ---- random sheets and traces ---- */

static uint64_t state = 0x9E3779B97F4A7C15; /* the seed */

static uint32_t below(uint32_t limit)
{
    state ^= state << 13;
    state ^= state >> 7;
    state ^= state << 17;
    return (uint32_t)((state >> 32) % limit);
}

static void write_number(uint8_t *bytes, int digits, uint32_t value)
{
    for (int i = digits - 1; i >= 0; i--, value /= 16)
        bytes[i] = (uint8_t) "0123456789ABCDEF"[value % 16];
}

static void write_command(uint8_t *line, const struct command *c)
{
    write_number(line, 8, c->cycle);
    write_number(line + 8, 1, c->kind);
    write_number(line + 9, 1, c->bank);
    write_number(line + 10, 4, c->row);
    write_number(line + 14, 3, c->column);
    write_number(line + 17, 1, c->requester);
    write_number(line + 18, 8, c->number);
    line[26] = '\n';
}

/* A sheet that is accepted, each timing by its length, its least count or both. */
static void write_sheet(uint8_t *line)
{
    uint32_t period = 1 + below(below(2) ? 2000 : 100000);
    uint32_t most = below(8) == 0 ? 255 : 20;
    uint32_t latency = 1 + below(most);
    write_number(line, 5, period);
    for (int i = 0; i < TIMINGS; i++) {
        uint32_t value = 1 + below(most);
        if (i == RC || i == FAW) /* longer ones, or the other gaps mostly hide them */
            value = 1 + below(most < 64 ? 4 * most : 255);
        if (i == RL)
            value = latency;
        if (i == WL)
            value = 1 + below(latency);
        uint64_t length = (uint64_t)(value - 1) * period + 1 + below(period);
        uint32_t least = below(value + 1);
        if (below(2) || length > 10000000) {
            length = below(value) * (uint64_t)period;
            if (length > 10000000)
                length = 0;
            least = value;
        }
        write_number(line + 5 + 8 * i, 6, (uint32_t)length);
        write_number(line + 11 + 8 * i, 2, least);
    }
    write_number(line + 109, 2, 1 + below(16));
    write_number(line + 111, 5, 1 + below(below(2) ? 4 : 65536));
    write_number(line + 116, 3, 1 + below(1024));
    line[119] = '\n';
}

/* A legal trace: commands that fit the banks' states, each in the first cycle that the rules allow, or a little later. */
static void write_trace(const struct sheet *sheet, uint8_t *text, size_t lines, uint32_t first, uint32_t hurry)
{
    struct record record;
    uint32_t cycle = first;
    start(&record);
    for (size_t line = 0; line < lines; line++) {
        struct command c = {0};
        uint32_t bank = below(sheet->banks);
        int32_t row = record.banks[bank].open_row;
        uint32_t pick = below(20);
        if (pick > 0) {
            c.kind = row < 0 ? ACTIVATE : pick < 7 ? PRECHARGE : pick < 14 ? READ : WRITE;
            c.bank = bank;
            c.requester = below(16);
            c.number = (uint32_t)line;
        }
        if (c.kind == ACTIVATE)
            c.row = below(sheet->rows);
        if (c.kind == READ || c.kind == WRITE) {
            c.row = (uint32_t)row;
            c.column = below(sheet->columns);
        }
        c.cycle = cycle;
        if (below(hurry) == 0)
            c.cycle += below(10);
        while (broken_rule(&record, sheet, &c) != 0)
            c.cycle++;
        cycle = c.cycle + 1;
        take_in(&record, &c);
        write_command(text + line * LINE_BYTES, &c);
    }
}

/* Puts a number at or just beyond a limit into the sheet line, or another byte. */
static void damage_sheet(uint8_t *line, size_t *bytes)
{
    uint32_t place = below(TIMINGS);
    uint32_t at;
    switch (below(9)) {
    case 0:
        write_number(line, 5, below(2) ? 0 : 100000 + below(2));
        break;
    case 1:
        write_number(line + 5 + 8 * place, 6, 10000000 + below(2));
        break;
    case 2:
        write_number(line + 5 + 8 * place, 8, 0);
        break;
    case 3:
        write_number(line + 11 + 8 * place, 2, below(256));
        break;
    case 4:
        write_number(line + 109, 2, below(2) ? 0 : 16 + below(2));
        break;
    case 5:
        write_number(line + 111, 5, below(2) ? 0 : 65536 + below(2));
        break;
    case 6:
        write_number(line + 116, 3, below(2) ? 0 : 1024 + below(2));
        break;
    case 7:
        at = below(SHEET_BYTES);
        line[at] = (uint8_t)below(256);
        break;
    default:
        *bytes = below(SHEET_BYTES + 2);
        break;
    }
}

/* Damages a trace in one way. There is room for one more line behind it. */
static void damage_trace(uint8_t *text, size_t *bytes)
{
    size_t lines = *bytes / LINE_BYTES;
    if (lines < 2)
        return;
    size_t at = below((uint32_t)lines);
    uint8_t *line = text + at * LINE_BYTES;
    uint8_t other[LINE_BYTES];
    uint32_t cycle, byte;
    switch (below(10)) {
    case 0: /* any byte */
        byte = below((uint32_t)*bytes);
        text[byte] = (uint8_t)below(256);
        break;
    case 1: /* another digit */
        byte = below(26);
        write_number(line + byte, 1, below(16));
        break;
    case 2: /* another kind */
        write_number(line + 8, 1, below(6));
        break;
    case 3: /* another bank */
        write_number(line + 9, 1, below(16));
        break;
    case 4: /* a line twice or left out */
        if (below(2)) {
            memmove(line + LINE_BYTES, line, *bytes - at * LINE_BYTES);
            *bytes += LINE_BYTES;
        } else {
            memmove(line, line + LINE_BYTES, *bytes - (at + 1) * LINE_BYTES);
            *bytes -= LINE_BYTES;
        }
        break;
    case 5: /* two lines change places, all but their cycles */
        if (at > 0) {
            memcpy(other, line, LINE_BYTES);
            memcpy(line + 8, line - LINE_BYTES + 8, 18);
            memcpy(line - LINE_BYTES + 8, other + 8, 18);
        }
        break;
    case 6: /* cut off */
        *bytes = below((uint32_t)*bytes + 1);
        break;
    case 7: /* a byte too many */
        memmove(line + 1, line, *bytes - at * LINE_BYTES);
        *bytes += 1;
        break;
    default: /* from this line on, all come a few cycles sooner */
        if (!number(line, 8, &cycle) || cycle < 3)
            break;
        uint32_t sooner = 1 + below(3);
        for (; at < lines; at++)
            if (number(text + at * LINE_BYTES, 8, &cycle))
                write_number(text + at * LINE_BYTES, 8, cycle - sooner);
        break;
    }
}

/* ---- comparing and timing ---- */

/* Compares the answers to so many random cases; the count of those in which they differ. */
static unsigned compare(unsigned cases)
{
    static uint8_t text[(MOST + 1) * LINE_BYTES];
    unsigned refusals[21] = {0};
    unsigned rules[17] = {0};
    unsigned mismatches = 0;
    for (unsigned i = 0; i < cases; i++) {
        uint8_t line[SHEET_BYTES + 1];
        struct sheet sheet;
        size_t sheet_bytes = SHEET_BYTES;
        write_sheet(line);
        line[SHEET_BYTES] = '0';
        if (read_sheet(line, SHEET_BYTES, &sheet) != 0) {
            printf("a sheet made to be accepted is refused\n");
            return 1;
        }
        size_t lines = below(61);
        size_t bytes = lines * LINE_BYTES;
        uint32_t first = below(4) == 0 ? below(2000000000) : below(2);
        write_trace(&sheet, text, lines, first, 1 + below(8));
        uint32_t damages = below(8) == 0 ? 0 : 1 + below(2);
        for (uint32_t d = 0; d < damages; d++)
            damage_trace(text, &bytes);
        if (below(8) == 0)
            damage_sheet(line, &sheet_bytes);
        uint64_t proved = dorwithel_judge(line, sheet_bytes, text, bytes);
        uint64_t plain = plain_judge(line, sheet_bytes, text, bytes);
        uint64_t paired = paired_judge(line, sheet_bytes, text, bytes);
        if (proved != plain || proved != paired) {
            mismatches++;
            if (mismatches <= 5)
                printf("case %u: proved %016" PRIX64 ", plain %016" PRIX64 ", of pairs %016" PRIX64 "\n", i,
                       proved, plain, paired);
        }
        if (dorwithel_refusal(proved) <= 20)
            refusals[dorwithel_refusal(proved)]++;
        if (dorwithel_rule(proved) <= 16)
            rules[dorwithel_rule(proved)]++;
    }
    printf("compared: %u cases, %u mismatches\n", cases, mismatches);
    printf("  passes %u; refused", refusals[0]);
    for (int i = 1; i <= 20; i++)
        if (refusals[i] != 0)
            printf(" %d: %u", i, refusals[i]);
    printf("\n  rules broken");
    for (int i = 1; i <= 16; i++)
        printf(" %d: %u", i, rules[i]);
    printf("\n");
    return mismatches;
}

/* Processor time that this program has used, so that others on the machine disturb the figures less. */
static double seconds(void)
{
    struct timespec now;
    clock_gettime(CLOCK_PROCESS_CPUTIME_ID, &now);
    return (double)now.tv_sec + (double)now.tv_nsec / 1e9;
}

/* The small sheet at 1,250 ps, with 8 banks, 1,024 rows and 64 columns. */
static const uint8_t SMALL[] =
    "004E20000000300000003000000080000000B000000020000000C000000040000000400000005000000030000000500000004000000040800400040\n";

/* Times both checkers on one legal trace; 1 where an answer is wrong. */
static int time_both(size_t lines, int runs)
{
    struct sheet sheet;
    uint8_t *text = malloc(lines * LINE_BYTES);
    if (text == NULL || read_sheet(SMALL, SHEET_BYTES, &sheet) != 0) {
        printf("no trace to time\n");
        free(text);
        return 1;
    }
    write_trace(&sheet, text, lines, 1, 4);
    double proved_best = 1e9;
    double plain_best = 1e9;
    int wrong = 0;
    for (int run = 0; run < runs; run++) {
        double a = seconds();
        uint64_t proved = dorwithel_judge(SMALL, SHEET_BYTES, text, lines * LINE_BYTES);
        double b = seconds();
        uint64_t plain = plain_judge(SMALL, SHEET_BYTES, text, lines * LINE_BYTES);
        double c = seconds();
        if (b - a < proved_best)
            proved_best = b - a;
        if (c - b < plain_best)
            plain_best = c - b;
        if (proved != lines || plain != lines)
            wrong = 1;
    }
    free(text);
    printf("legal trace of %zu lines, best of %d runs%s\n", lines, runs, wrong ? ", WRONG ANSWERS" : ", both pass it");
    printf("  proved checker: %.0f lines a second\n", (double)lines / proved_best);
    printf("  plain C:        %.0f lines a second\n", (double)lines / plain_best);
    printf("  proved / plain: %.2f\n", plain_best / proved_best);
    return wrong;
}

int main(int argc, char **argv)
{
    bool only_time = argc == 2 && strcmp(argv[1], "--time") == 0;
    make_digits();
    unsigned mismatches = only_time ? 0 : compare(50000);
    int wrong = time_both(1000000, 5);
    return mismatches == 0 && wrong == 0 ? 0 : 1;
}
