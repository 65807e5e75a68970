/* Links the box's part alone (box.rattle beside it) for second/measure: calls each entry point once on a stack that is painted first, and prints what the
 * call answered and how much of the paint is gone; `none` calls nothing, and what it took is the context's own.
 *
 * Standard input: a line with the number of sea lines; a line `TICK HEADING RE IM` for each; then the text of a difference table, component 1, full coverage.
 */
#include <inttypes.h>
#include <stdint.h>
#include <stdio.h>
#include <string.h>
#include <ucontext.h>

enum { CELLS = 12800, FLAGS = 6400, TEXT = 1 << 22, STACK = 1 << 18, PAINT = 0xa5 };

typedef struct {
    uint8_t small[4];
    uint32_t words[4];
    int32_t pair[2];
    size_t counts[2];
    uint32_t ticks[20];
    int32_t headings[4];
    uint8_t kept[160];
} record;

#define RECORD uint8_t *, uint32_t *, int32_t *, size_t *, uint32_t *, int32_t *, uint8_t *
#define OWN r.small, r.words, r.pair, r.counts, r.ticks, r.headings, r.kept
#define SEA size_t, uint32_t *, int32_t *, int32_t *, int32_t *

void flash_nothing(RECORD);
uint8_t flash_open(RECORD, int32_t *, size_t, uint8_t *, size_t, uint8_t, uint8_t, uint8_t);
uint8_t flash_piece(RECORD, int32_t *, size_t, uint8_t *, size_t, const uint8_t *, size_t);
uint8_t flash_close(RECORD, int32_t *, size_t, uint8_t *, size_t);
uint8_t flash_line(RECORD, int32_t *, size_t, size_t, uint8_t *);
uint8_t flash_proteus(RECORD, int32_t *, size_t, size_t, uint8_t *);
uint8_t flash_coefficient(RECORD, int32_t *, size_t, uint32_t *, int32_t *, int32_t *);
uint8_t flash_force(RECORD, int32_t *, size_t, SEA, uint64_t, int64_t *);
uint8_t flash_display(RECORD, int32_t *, size_t, SEA, uint64_t, double, double *);

static record r;
static int32_t cells[CELLS];
static uint8_t flags[FLAGS], text[TEXT];
static size_t length, lines;
static uint32_t ticks[64], nodes[2] = { 500, 700 };
static int32_t headings[64], re[64], im[64], at[2] = { 90000, 120000 }, parts[2];
static int64_t whole;
static double shown[2];
static uint8_t line[81], row[257], number;

static void call_none(void) { number = 0; }
static void call_nothing(void) { flash_nothing(OWN); number = 0; }
static void call_open(void) { number = flash_open(OWN, cells, CELLS, flags, FLAGS, 0, 1, 1); }
static void call_piece(void) { number = flash_piece(OWN, cells, CELLS, flags, FLAGS, text, length); }
static void call_close(void) { number = flash_close(OWN, cells, CELLS, flags, FLAGS); }
static void call_line(void) { number = flash_line(OWN, cells, CELLS, 4242, line); }
static void call_proteus(void) { number = flash_proteus(OWN, cells, CELLS, 4242, row); }
static void call_coefficient(void) { number = flash_coefficient(OWN, cells, CELLS, nodes, at, parts); }
static void call_force(void) { number = flash_force(OWN, cells, CELLS, lines, ticks, headings, re, im, 977, &whole); }
static void call_display(void) { number = flash_display(OWN, cells, CELLS, lines, ticks, headings, re, im, 977, 1.0, shown); }

static _Alignas(64) unsigned char stack[STACK];
static ucontext_t here, there;

static void on_paint(const char *name, void (*call)(void)) {
    memset(stack, PAINT, STACK);
    getcontext(&there);
    there.uc_stack.ss_sp = stack;
    there.uc_stack.ss_size = STACK;
    there.uc_link = &here;
    makecontext(&there, call, 0);
    swapcontext(&here, &there);
    size_t left = 0;
    while (left < STACK && stack[left] == PAINT) left++;
    left -= left % 8; /* the lowest byte of an address may be the paint's own */
    printf("stack %s %zu refused %d\n", name, (size_t)STACK - left, number);
}

int main(void) {
    if (scanf("%zu", &lines) != 1 || lines > 64) return 1;
    for (size_t i = 0; i < lines; i++)
        if (scanf("%" SCNu32 " %" SCNd32 " %" SCNd32 " %" SCNd32, &ticks[i], &headings[i], &re[i], &im[i]) != 4) return 1;
    while (getchar() != '\n') {}
    length = fread(text, 1, TEXT, stdin);
    on_paint("none", call_none);
    on_paint("nothing", call_nothing);
    on_paint("open", call_open);
    on_paint("piece", call_piece);
    on_paint("close", call_close);
    on_paint("line", call_line);
    on_paint("proteus", call_proteus);
    on_paint("coefficient", call_coefficient);
    on_paint("force", call_force);
    on_paint("display", call_display);
    uint64_t bits[2];
    memcpy(bits, shown, sizeof bits);
    printf("line %s\nproteus %s\n", line, row);
    printf("coefficient %" PRId32 " %" PRId32 "\nforce %" PRId64 "\nnewtons %" PRIu64 " %" PRIu64 "\n", parts[0], parts[1], whole, bits[0], bits[1]);
    return 0;
}
