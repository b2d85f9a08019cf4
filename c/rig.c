/*
 * A test rig's program: judges a trace file by a sheet line file.
 *
 *     rig SHEET-FILE TRACE-FILE    prints what was found; status 0 if the trace passes, 1 if not
 *     rig --self-test              judges built-in examples; status 0 if all answers are as they should be
 *
 * Status 2 says that the program could not do its work: bad usage, or a file that cannot be read.
 */
#define _GNU_SOURCE /* for MAP_ANONYMOUS and MAP_NORESERVE */
#include "dorwithel.h"

#include <inttypes.h>
#include <stdio.h>
#include <stdlib.h>
#include <string.h>
#include <sys/mman.h>

/* The longest trace that is judged, in bytes. */
#define LONGEST ((size_t)1073741824)

/* The sixteen rules in words; rule n stands at place n. */
static const char *const RULES[17] = {
    "no rule",
    "cycles rise from line to line",
    "bank, row and column are inside the chip",
    "an activate goes to a closed bank",
    "a precharge goes to an open bank",
    "a read or write goes to a bank that is open at its row",
    "activate to activate of the same bank: tRC",
    "activate to activate of another bank: tRRD",
    "activate to precharge of the same bank: tRAS",
    "activate to read or write of the same bank: tRCD",
    "precharge to activate of the same bank: tRP",
    "read to read, or write to write: tCCD",
    "read to write: RL + tCCD + 2 - WL",
    "write to read: WL + BURST + tWTR",
    "read to precharge of the same bank: tRTP",
    "write to precharge of the same bank: WL + BURST + tWR",
    "the fifth of five activates: tFAW after the first",
};

/* The thirteen timings in the sheet's order. */
static const char *const TIMINGS[13] = {
    "tRCD", "tRP", "tRAS", "tRC", "tRRD", "tFAW", "tCCD",
    "tRTP", "tWR", "tWTR", "RL", "WL", "BURST",
};

/* The name of the timing at a place of the sheet. */
static const char *timing(uint64_t place)
{
    return place < 13 ? TIMINGS[place] : "no timing";
}

/* Prints an answer in words. */
static void print_answer(uint64_t answer)
{
    unsigned refusal = dorwithel_refusal(answer);
    unsigned rule = dorwithel_rule(answer);
    uint64_t low = dorwithel_low(answer);

    switch (refusal) {
    case 0:
        printf("passes: %" PRIu64 " commands\n", low);
        break;
    case 1:
        printf("refused 1: the clock period is 0 or over 100,000 ps\n");
        break;
    case 2:
        printf("refused 2: the length of %s is over 10,000,000 ps\n", timing(low));
        break;
    case 3:
        printf("refused 3: the value of %s is not 1 to 255 cycles\n", timing(low));
        break;
    case 4:
        printf("refused 4: WL is over RL\n");
        break;
    case 5:
        printf("refused 5: a size of the chip is out of its limits\n");
        break;
    case 16:
        printf("refused 16: line %" PRIu64 " is malformed\n", low);
        break;
    case 18:
        printf("refused 18: line %" PRIu64 " breaks rule %u (%s)\n", low, rule,
               rule <= 16 ? RULES[rule] : "no rule");
        break;
    case 19:
        printf("refused 19: the trace is over 1,073,741,824 bytes\n");
        break;
    case 20:
        printf("refused 20: the sheet line is malformed\n");
        break;
    default:
        printf("refused %u\n", refusal);
        break;
    }
}

/* A file's bytes, at most `most` of them; the pointer is never null on success. */
static uint8_t *read_file(const char *path, size_t most, size_t *bytes)
{
    FILE *file = fopen(path, "rb");
    if (file == NULL) {
        perror(path);
        return NULL;
    }
    size_t room = 1 << 16;
    size_t used = 0;
    uint8_t *data = malloc(room);
    while (data != NULL && used < most) {
        if (used == room) {
            uint8_t *larger = realloc(data, 2 * room);
            if (larger == NULL) {
                free(data);
                data = NULL;
                break;
            }
            data = larger;
            room *= 2;
        }
        size_t wanted = room - used < most - used ? room - used : most - used;
        size_t got = fread(data + used, 1, wanted, file);
        used += got;
        if (got < wanted)
            break;
    }
    if (data == NULL) {
        fprintf(stderr, "%s: not enough memory\n", path);
    } else if (ferror(file)) {
        perror(path);
        free(data);
        data = NULL;
    }
    fclose(file);
    *bytes = used;
    return data;
}

/* Judges a trace file by a sheet line file. */
static int judge_files(const char *sheet_path, const char *trace_path)
{
    size_t sheet_bytes = 0;
    size_t trace_bytes = 0;
    /* one byte over the limits is read, so that what is too long shows */
    uint8_t *sheet = read_file(sheet_path, 121, &sheet_bytes);
    if (sheet == NULL)
        return 2;
    uint8_t *trace = read_file(trace_path, LONGEST + 1, &trace_bytes);
    if (trace == NULL) {
        free(sheet);
        return 2;
    }
    uint64_t answer = dorwithel_judge(sheet, sheet_bytes, trace, trace_bytes);
    free(trace);
    free(sheet);
    print_answer(answer);
    printf("%016" PRIX64 "\n", answer);
    return dorwithel_refusal(answer) == 0 ? 0 : 1;
}

/* The small sheet at 1,250 ps, with 8 banks, 1,024 rows and 64 columns. */
#define SMALL                                                                                     \
    "004E20000000300000003000000080000000B000000020000000C0000000400000004000000050000000300000005" \
    "00000004000000040800400040\n"

/* Two requests to one bank at different rows. */
#define TWO_ROWS                   \
    "00000001100007000000000000\n" \
    "00000004300007010000000000\n" \
    "00000009200000000100000000\n" \
    "0000000C100009000100000000\n" \
    "0000000F400009000100000000\n"

/* Four activates in four banks. */
#define FOUR_ACTIVATES             \
    "00000001100007000000000000\n" \
    "00000003110007000000000000\n" \
    "00000005120007000000000000\n" \
    "00000007130007000000000000\n"

/* An example and the answer that it is due. */
struct example {
    const char *name;
    const char *sheet_line;
    const char *text;
    uint64_t answer;
};

static const struct example EXAMPLES[] = {
    {"no lines", SMALL, "", 0x0000000000000000},
    {"five lines", SMALL, TWO_ROWS, 0x0000000000000005},
    {"five activates, one cycle early", SMALL,
     FOUR_ACTIVATES "0000000C140007000000000000\n", 0x1210000000000004},
    {"five activates in time", SMALL,
     FOUR_ACTIVATES "0000000D140007000000000000\n", 0x0000000000000005},
    {"a lower-case digit", SMALL,
     "00000001100007000000000000\n"
     "00000004300007010000000000\n"
     "00000009200000000100000000\n"
     "0000000c100009000100000000\n",
     0x1000000000000003},
    {"a broken last line", SMALL, TWO_ROWS "0000", 0x1000000000000005},
    {"tFAW too long",
     "004E20000000300000003000000080000000B000000029896810C0000000400000004000000050000000300000005"
     "00000004000000040800400040\n",
     TWO_ROWS, 0x0200000000000005},
    {"a sheet line without its line feed",
     "004E20000000300000003000000080000000B000000020000000C0000000400000004000000050000000300000005"
     "00000004000000040800400040",
     TWO_ROWS, 0x1400000000000000},
};

/* Compares an answer with the one that is due; 1 where they differ. */
static int differs(const char *name, uint64_t answer, uint64_t due)
{
    printf("%s: %016" PRIX64 ", ", name, answer);
    print_answer(answer);
    if (answer == due)
        return 0;
    printf("  WRONG, %016" PRIX64 " is due\n", due);
    return 1;
}

/* Judges zero bytes of this length. They are mapped and take up no memory until they are read. */
static int zeros_differ(const char *name, size_t bytes, uint64_t due)
{
    void *zeros = mmap(NULL, bytes, PROT_READ, MAP_PRIVATE | MAP_ANONYMOUS | MAP_NORESERVE, -1, 0);
    if (zeros == MAP_FAILED) {
        perror("mmap");
        return 1;
    }
    uint64_t answer = dorwithel_judge((const uint8_t *)SMALL, strlen(SMALL), zeros, bytes);
    munmap(zeros, bytes);
    return differs(name, answer, due);
}

static int self_test(void)
{
    int wrong = 0;
    int count = 0;
    for (size_t i = 0; i < sizeof EXAMPLES / sizeof EXAMPLES[0]; i++) {
        const struct example *e = &EXAMPLES[i];
        uint64_t answer = dorwithel_judge((const uint8_t *)e->sheet_line, strlen(e->sheet_line),
                                          (const uint8_t *)e->text, strlen(e->text));
        wrong += differs(e->name, answer, e->answer);
        count++;
    }
    wrong += zeros_differ("zero bytes, as many as are taken", LONGEST, 0x1000000000000000);
    wrong += zeros_differ("zero bytes, one more", LONGEST + 1, 0x1300000000000000);
    count += 2;
    printf("self-test: %d examples, %d wrong\n", count, wrong);
    return wrong == 0 ? 0 : 1;
}

int main(int argc, char **argv)
{
    if (argc == 2 && strcmp(argv[1], "--self-test") == 0)
        return self_test();
    if (argc == 3)
        return judge_files(argv[1], argv[2]);
    fprintf(stderr, "usage: rig SHEET-FILE TRACE-FILE, or rig --self-test\n");
    return 2;
}
