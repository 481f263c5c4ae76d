/* The header and the archive alone. Prints the sheet of the S3M file on standard input. With the argument `null` it tries
 * NULL with length 0 everywhere, with `strikes` their order, with `closed` whether that file is closed, with `transposed`
 * its pitch an octave up, with `levels` volumes and pans about their limits, with `head` the punch head on its rows, with
 * `columns` its rows stored and restored, with `stack` how much stack the calls on that file take. */
#define _GNU_SOURCE
#include "lomqashe.h"
#include <math.h>
#include <stdio.h>
#include <stdlib.h>
#include <string.h>
#include <ucontext.h>

#define ROWS 50
#define RATE 60000

static uint8_t file[65536], counts[LOMQASHE_COUNTS_SIZE], opening[LOMQASHE_OPENING_SIZE], state[LOMQASHE_STATE_SIZE];
static uint8_t records[ROWS * LOMQASHE_RECORD_SIZE], line[LOMQASHE_LINE_SIZE], struck[LOMQASHE_STRIKES_SIZE];
static uint8_t registers[LOMQASHE_REGISTERS_SIZE];
static uint8_t columns[ROWS * LOMQASHE_RECORD_SIZE], restored[ROWS * LOMQASHE_RECORD_SIZE];
static size_t file_size, n_orders, n_samples, n_cells;
static uint8_t *orders, *samples, *cells;
static uint32_t answer;

static uint32_t at(const uint8_t *bytes)
{
    return bytes[0] | bytes[1] << 8 | (uint32_t)bytes[2] << 16 | (uint32_t)bytes[3] << 24;
}

static void check(int holds, const char *what)
{
    if (!holds) {
        fprintf(stderr, "header: %s: %#x\n", what, (unsigned)answer);
        exit(1);
    }
}

static void measure(void)
{
    answer = lomqashe_measure(file, file_size, counts, sizeof counts);
}

static void read_tables(void)
{
    answer = lomqashe_read(file, file_size, RATE, orders, n_orders, samples, n_samples, cells, n_cells, opening,
                           sizeof opening);
}

static void open_tune(void)
{
    answer = lomqashe_open(orders, n_orders, cells, n_cells, samples, n_samples, opening, sizeof opening, state,
                           sizeof state);
}

static void is_closed(void)
{
    answer = lomqashe_is_closed(orders, n_orders, cells, n_cells, samples, n_samples);
}

static void open_closed(void)
{
    answer = lomqashe_open_closed(orders, n_orders, cells, n_cells, samples, n_samples, opening, sizeof opening, state,
                                  sizeof state);
}

static void section(void)
{
    answer = lomqashe_section(orders, n_orders, cells, n_cells, samples, n_samples, state, sizeof state, ROWS, records,
                              sizeof records);
}

static void list_strikes(void)
{
    answer = lomqashe_strikes(records, LOMQASHE_RECORD_SIZE, struck, sizeof struck);
}

static void write_line(void)
{
    answer = lomqashe_line(records, LOMQASHE_RECORD_SIZE, line, sizeof line);
}

static void step(uint32_t command, const uint8_t *record)
{
    answer = lomqashe_head_step(registers, sizeof registers, command, record, record ? LOMQASHE_RECORD_SIZE : 0);
}

static void load_row(void)
{
    step(LOMQASHE_HEAD_LOAD, records);
}

static void store_rows(void)
{
    answer = lomqashe_store(records, sizeof records, ROWS, columns, sizeof columns);
}

static void restore_rows(void)
{
    answer = lomqashe_restore(columns, sizeof columns, ROWS, restored, sizeof restored);
}

/* Tables of the sizes that the counts ask for; NULL where that is 0. */
static void lend_tables(void)
{
    n_orders = at(counts);
    n_samples = at(counts + 4) * LOMQASHE_SAMPLE_SIZE;
    n_cells = at(counts + 8) * LOMQASHE_PATTERN_SIZE;
    orders = n_orders ? malloc(n_orders) : NULL;
    samples = n_samples ? malloc(n_samples) : NULL;
    cells = n_cells ? malloc(n_cells) : NULL;
}

static void give_tables_back(void)
{
    free(orders);
    free(samples);
    free(cells);
}

static void print_sheet(void)
{
    puts("order,pattern,row,held,speed,tempo,start,length,strikes");
    measure();
    check(LOMQASHE_REFUSAL(answer) == 0, "measure");
    lend_tables();
    read_tables();
    check(LOMQASHE_REFUSAL(answer) == 0, "read");
    open_tune();
    check(LOMQASHE_REFUSAL(answer) == 0, "open");
    unsigned rows = 0;
    do {
        section();
        check(LOMQASHE_REFUSAL(answer) == 0, "section");
        for (unsigned i = 0; i < LOMQASHE_ROWS(answer); i++) {
            uint32_t bytes = lomqashe_line(records + i * LOMQASHE_RECORD_SIZE, LOMQASHE_RECORD_SIZE, line, sizeof line);
            fwrite(line, 1, bytes, stdout);
        }
        rows += LOMQASHE_ROWS(answer);
    } while (!LOMQASHE_ENDED(answer));
    printf("end,%u,%lu\n", rows, (unsigned long)at(state + 24));
    give_tables_back();
}

static void expect_refusal(uint32_t given, uint32_t number, const char *what)
{
    answer = given;
    check(LOMQASHE_REFUSAL(given) == number && LOMQASHE_GIVEN(given) == 0, what);
}

/* A header with one order, no instrument and no pattern: its samples and cells are NULL. */
static void null_tables(void)
{
    memset(file, 0, 97);
    file[32] = 1;
    memcpy(file + 44, "SCRM\x40\x06\x7d", 7);
    file_size = 97;
    measure();
    check(answer == 0, "measure of an empty tune");
    lend_tables();
    check(n_samples == 0 && n_cells == 0, "its counts");
    read_tables();
    check(answer == 0, "read into NULL tables");
    open_tune();
    check(answer == 0, "open with NULL tables");
    is_closed();
    check(answer == 1, "an empty tune is closed");
    open_closed();
    check(answer == 0, "open_closed with NULL tables");
    answer = lomqashe_section(orders, n_orders, NULL, 0, NULL, 0, state, sizeof state, 0, NULL, 0);
    check(answer == 0, "a section of no rows into NULL");
    section();
    check(LOMQASHE_ROWS(answer) == 0 && LOMQASHE_ENDED(answer) == 1, "a section with NULL tables");
}

/* NULL where something is needed is a wrong length like any other. */
static void null_refusals(void)
{
    expect_refusal(lomqashe_measure(NULL, 0, counts, sizeof counts), 1, "measure of NULL");
    expect_refusal(lomqashe_measure(file, file_size, NULL, 0), 255, "measure into NULL");
    expect_refusal(lomqashe_read(NULL, 0, RATE, NULL, 0, NULL, 0, NULL, 0, opening, sizeof opening), 1, "read of NULL");
    expect_refusal(lomqashe_read(file, file_size, RATE, NULL, 0, NULL, 0, NULL, 0, opening, sizeof opening), 6,
                   "read into NULL orders");
    expect_refusal(lomqashe_read(file, file_size, RATE, NULL, 0, NULL, 0, NULL, 0, NULL, 0), 255, "read into NULL");
    expect_refusal(lomqashe_open(NULL, 0, NULL, 0, NULL, 0, opening, sizeof opening, state, sizeof state), 9,
                   "open of NULL orders");
    expect_refusal(lomqashe_open(orders, 1, NULL, 0, NULL, 0, NULL, 0, state, sizeof state), 255, "open of NULL");
    expect_refusal(lomqashe_open(orders, 1, NULL, 0, NULL, 0, opening, sizeof opening, NULL, 0), 255, "open into NULL");
    expect_refusal(lomqashe_is_closed(NULL, 0, NULL, 0, NULL, 0), 9, "is_closed of NULL orders");
    expect_refusal(lomqashe_open_closed(NULL, 0, NULL, 0, NULL, 0, opening, sizeof opening, state, sizeof state), 9,
                   "open_closed of NULL orders");
    expect_refusal(lomqashe_open_closed(orders, 1, NULL, 0, NULL, 0, NULL, 0, state, sizeof state), 255,
                   "open_closed of NULL");
    expect_refusal(lomqashe_open_closed(orders, 1, NULL, 0, NULL, 0, opening, sizeof opening, NULL, 0), 255,
                   "open_closed into NULL");
    expect_refusal(lomqashe_section(NULL, 0, NULL, 0, NULL, 0, state, sizeof state, 0, NULL, 0), 9,
                   "section of NULL orders");
    expect_refusal(lomqashe_section(orders, 1, NULL, 0, NULL, 0, NULL, 0, 0, NULL, 0), 255, "section from NULL");
    expect_refusal(lomqashe_section(orders, 1, NULL, 0, NULL, 0, state, sizeof state, 1, NULL, 0), 12,
                   "section into NULL");
    expect_refusal(lomqashe_strikes(NULL, 0, struck, sizeof struck), 13, "strikes of NULL");
    expect_refusal(lomqashe_strikes(records, LOMQASHE_RECORD_SIZE, NULL, 0), 13, "strikes into NULL");
    expect_refusal(lomqashe_line(NULL, 0, line, sizeof line), 13, "line of NULL");
    expect_refusal(lomqashe_line(records, LOMQASHE_RECORD_SIZE, NULL, 0), 13, "line into NULL");
    expect_refusal(lomqashe_head_step(NULL, 0, LOMQASHE_HEAD_CLEAR, NULL, 0), 15, "head_step on NULL");
    expect_refusal(lomqashe_head_step(NULL, 0, 256, NULL, 0), 255, "head_step on NULL by no byte");
    expect_refusal(lomqashe_head_step(registers, sizeof registers, LOMQASHE_HEAD_LOAD, NULL, 0), 13, "load of NULL");
    step(LOMQASHE_HEAD_CLEAR, NULL);
    check(answer == 0 && registers[0] == LOMQASHE_HEAD_CLEAR, "clear with NULL");
    expect_refusal(lomqashe_store(NULL, 0, 0, NULL, 0), 16, "store of NULL");
    expect_refusal(lomqashe_store(NULL, 0, 1, columns, LOMQASHE_RECORD_SIZE), 16, "store of a record at NULL");
    expect_refusal(lomqashe_store(records, LOMQASHE_RECORD_SIZE, 1, NULL, 0), 16, "store into NULL");
    expect_refusal(lomqashe_restore(NULL, 0, 0, NULL, 0), 16, "restore of NULL");
    expect_refusal(lomqashe_restore(NULL, 0, 1, records, LOMQASHE_RECORD_SIZE), 16, "restore of columns at NULL");
    expect_refusal(lomqashe_restore(columns, LOMQASHE_RECORD_SIZE, 1, NULL, 0), 16, "restore into NULL");
}

/* Struck channels by frequency: equal ones by number, those that are not a number last. Channel 9 on are not struck. */
static void strikes_in_order(void)
{
    static const float frequencies[] = {-NAN, 8363, 0, INFINITY, -0.0f, 4181.5f, -INFINITY, -1, 8363};
    static const uint8_t expected[LOMQASHE_STRIKES_SIZE] = {6, 7, 2, 4, 5, 1, 8, 3, 0};
    records[16] = 0xff;
    records[17] = 1;
    for (size_t k = 0; k < sizeof frequencies / sizeof *frequencies; k++)
        memcpy(records + 24 + 16 * k, frequencies + k, 4);
    memset(struck, 0xa5, sizeof struck);
    list_strikes();
    check(answer == 9 && memcmp(struck, expected, sizeof struck) == 0, "strikes in order");
}

/* The file's tune is closed, and open_closed() makes the state of open(); with S00 in its first cell it does not, and writes
 * nothing. */
static void closed_tunes(void)
{
    uint8_t opened[LOMQASHE_STATE_SIZE];
    measure();
    lend_tables();
    read_tables();
    open_tune();
    memcpy(opened, state, sizeof state);
    memset(state, 0xa5, sizeof state);
    is_closed();
    check(answer == 1, "is_closed");
    open_closed();
    check(answer == 0 && memcmp(opened, state, sizeof state) == 0, "open_closed");
    cells[3] = 19;
    cells[4] = 0;
    is_closed();
    check(answer == 0, "is_closed with S00");
    state[0] = 0xa5;
    memcpy(opened, state, sizeof state);
    open_closed();
    expect_refusal(answer, 14, "open_closed with S00");
    check(memcmp(opened, state, sizeof state) == 0, "the state where open_closed refuses");
    give_tables_back();
}

/* The note of channel 0 on the file's first row, by a transposition. */
static void expect_pitch(uint8_t transposition, float expected)
{
    float frequency;
    opening[144] = transposition;
    open_tune();
    check(answer == 0 && state[64 + 45] == transposition, "open of a transposed channel");
    section();
    memcpy(&frequency, records + 24, 4);
    check(LOMQASHE_REFUSAL(answer) == 0 && frequency == expected, "pitch of a transposed channel");
    check(records[24 + 12] == 0x40 && state[64 + 45] == transposition, "last note of a transposed channel");
}

/* Middle C at c5 8363 in channel 0; others are not transposed. Outside -24 to 24 it is refused, and nothing is written. */
static void transposed(void)
{
    static const uint8_t outside[] = {25, 127, 128, 231}, none[32];
    uint8_t before[LOMQASHE_STATE_SIZE];
    measure();
    lend_tables();
    read_tables();
    check(answer == 0 && memcmp(opening + 144, none, sizeof none) == 0, "transpositions of a file");
    expect_pitch(0, 8363);
    expect_pitch(12, 16726);
    expect_pitch(256 - 12, 4181.5f);
    open_tune();
    for (size_t i = 0; i < sizeof outside; i++) {
        memcpy(before, state, sizeof state);
        opening[144 + 31] = outside[i];
        open_tune();
        expect_refusal(answer, 10, "open of a transposition out of the span");
        open_closed();
        expect_refusal(answer, 10, "open_closed of a transposition out of the span");
        check(memcmp(before, state, sizeof state) == 0, "the state where open refuses");
        state[64 + 31 * 80 + 45] = outside[i];
        section();
        expect_refusal(answer, 11, "section of a transposition out of the span");
        state[64 + 31 * 80 + 45] = 0;
    }
    give_tables_back();
}

/* A channel's volume and pan at their limits, and above: refused, and nothing is written. */
static void levels(void)
{
    static const struct {
        uint8_t adlib, volume, pan, refusal;
    } cases[] = {{0, 63, 15, 0}, {1, 64, 15, 0}, {0, 64, 15, 17}, {1, 65, 15, 17}, {0, 200, 8, 17}, {0, 0, 16, 17}};
    uint8_t before[LOMQASHE_STATE_SIZE];
    measure();
    lend_tables();
    read_tables();
    for (size_t i = 0; i < sizeof cases / sizeof *cases; i++) {
        uint8_t *channel = state + 64 + 31 * 80;
        open_tune();
        channel[17] = cases[i].volume;
        channel[18] = cases[i].pan;
        channel[42] = cases[i].adlib;
        memcpy(before, state, sizeof state);
        section();
        check(LOMQASHE_REFUSAL(answer) == cases[i].refusal, "a level about its limit");
        check(answer >> 24 == 0 || memcmp(before, state, sizeof state) == 0, "the state where a level is refused");
    }
    give_tables_back();
}

/* The registers are these: command, status, and mask and start of a record. */
static void expect_head(uint8_t command, uint8_t status, const uint8_t *record, const char *what)
{
    check(answer == 0 && registers[0] == command && registers[1] == status, what);
    check(registers[2] == 0 && registers[3] == 0, what);
    check(memcmp(registers + 4, record + 16, 4) == 0 && memcmp(registers + 8, record + 8, 8) == 0, what);
}

/* A step on registers with another byte: refused, and nothing is written. */
static void expect_head_refusal(size_t at, uint8_t byte, uint32_t command, size_t record_size, uint32_t number)
{
    uint8_t before[LOMQASHE_REGISTERS_SIZE], kept = registers[at];
    registers[at] = byte;
    memcpy(before, registers, sizeof registers);
    expect_refusal(lomqashe_head_step(registers, sizeof registers, command, records, record_size), number, "head_step");
    check(memcmp(before, registers, sizeof registers) == 0, "the registers where head_step refuses");
    registers[at] = kept;
}

static void head_refusals(void)
{
    for (uint32_t command = 0; command < 5; command++) {
        for (unsigned bit = 2; bit < 7; bit++)
            expect_head_refusal(1, (uint8_t)(1 << bit), command, 0, 15);
        expect_head_refusal(2, 1, command, LOMQASHE_RECORD_SIZE, 15);
        expect_head_refusal(3, 0x80, command, LOMQASHE_RECORD_SIZE, 15);
        expect_head_refusal(2, 1, command + 256, 0, 255);
        expect_head_refusal(0, 0, command + 256, LOMQASHE_RECORD_SIZE, 255);
    }
    for (uint8_t status = 0; status < 4; status++) {
        expect_head_refusal(1, status, LOMQASHE_HEAD_LOAD, LOMQASHE_RECORD_SIZE - 1, 13);
        expect_head_refusal(1, status, LOMQASHE_HEAD_LOAD, LOMQASHE_RECORD_SIZE + 1, 13);
    }
    expect_refusal(lomqashe_head_step(registers, 15, LOMQASHE_HEAD_LOAD, records, 0), 15, "15 registers");
    expect_refusal(lomqashe_head_step(records, 17, LOMQASHE_HEAD_STRIKE, NULL, 0), 15, "17 registers");
}

/* The file's first two rows: the second is late, and taken behind the strike. */
static void punch_head(void)
{
    const uint8_t *first = records, *second = records + LOMQASHE_RECORD_SIZE;
    measure();
    lend_tables();
    read_tables();
    open_tune();
    section();
    check(LOMQASHE_ROWS(answer) > 1 && memcmp(first + 8, second + 8, 12) != 0, "two rows");
    step(LOMQASHE_HEAD_LOAD, first);
    expect_head(LOMQASHE_HEAD_LOAD, LOMQASHE_HEAD_LOADED, first, "load");
    step(LOMQASHE_HEAD_LOAD, second);
    expect_head(LOMQASHE_HEAD_LOAD, LOMQASHE_HEAD_LOADED | LOMQASHE_HEAD_LATE, first, "late load");
    step(LOMQASHE_HEAD_STRIKE, NULL);
    expect_head(LOMQASHE_HEAD_STRIKE, LOMQASHE_HEAD_LATE | LOMQASHE_HEAD_INTERRUPT, first, "strike");
    step(LOMQASHE_HEAD_LOAD, second);
    expect_head(LOMQASHE_HEAD_LOAD, LOMQASHE_HEAD_LOADED | LOMQASHE_HEAD_LATE | LOMQASHE_HEAD_INTERRUPT, second,
                "load again");
    step(LOMQASHE_HEAD_CLEAR, NULL);
    expect_head(LOMQASHE_HEAD_CLEAR, LOMQASHE_HEAD_LOADED, second, "clear");
    head_refusals();
    step(LOMQASHE_HEAD_STRIKE, NULL);
    step(LOMQASHE_HEAD_CLEAR, NULL);
    step(LOMQASHE_HEAD_STRIKE, NULL);
    expect_head(LOMQASHE_HEAD_STRIKE, 0, second, "strike where nothing is loaded");
    step(255, NULL);
    expect_head(255, 0, second, "another command");
    give_tables_back();
}

/* Both calls refuse, and write nothing. */
static void expect_column_refusals(size_t in_size, uint32_t m, size_t out_size)
{
    uint8_t before[sizeof columns];
    memset(columns, 0xa5, sizeof columns);
    memcpy(before, columns, sizeof columns);
    expect_refusal(lomqashe_store(records, in_size, m, columns, out_size), 16, "store");
    expect_refusal(lomqashe_restore(records, in_size, m, columns, out_size), 16, "restore");
    check(memcmp(before, columns, sizeof columns) == 0, "the output where store or restore refuses");
}

static void column_refusals(void)
{
    static const size_t others[] = {0, 1, 535, 537, 2 * 536 - 1, 2 * 536 + 1, 3 * 536, 4 * 536};
    for (size_t i = 0; i < sizeof others / sizeof *others; i++) {
        expect_column_refusals(others[i], 2, 2 * 536);
        expect_column_refusals(2 * 536, 2, others[i]);
        expect_column_refusals(others[i], 2, others[i]);
    }
    expect_column_refusals(0, 0, 0);
    expect_column_refusals(536, 0, 536);
    expect_column_refusals(536, 65537, 536);
    expect_column_refusals(536, 0x20000001, 536);
    expect_column_refusals(536, UINT32_MAX, 536);
}

/* 65,536 records are one too many, in memory that would hold them. */
static void most_records(void)
{
    size_t size = 65536 * (size_t)LOMQASHE_RECORD_SIZE;
    uint8_t *in = calloc(2, size), *out = in + size;
    check(in != NULL, "memory for 65,536 records");
    in[65534 * LOMQASHE_RECORD_SIZE] = 7;
    expect_refusal(lomqashe_store(in, size, 65536, out, size), 16, "store of 65,536");
    expect_refusal(lomqashe_restore(in, size, 65536, out, size), 16, "restore of 65,536");
    size -= LOMQASHE_RECORD_SIZE;
    answer = lomqashe_store(in, size, 65535, out, size);
    check(answer == 0 && out[65533] == 0 && out[65534] == 7 && out[65535] == 0, "store of 65,535");
    memset(in, 0xa5, size);
    answer = lomqashe_restore(out, size, 65535, in, size);
    check(answer == 0 && in[65533 * LOMQASHE_RECORD_SIZE] == 0 && in[65534 * LOMQASHE_RECORD_SIZE] == 7,
          "restore of 65,535");
    free(in);
}

/* The file's rows in column order and back; speeds 6, 6 and 3 are 6, 0 and -3. Bytes behind the columns stay. */
static void column_order(void)
{
    const size_t m = 3, size = 3 * LOMQASHE_RECORD_SIZE;
    static const uint8_t speeds[] = {6, 0, 253};
    measure();
    lend_tables();
    read_tables();
    open_tune();
    section();
    check(LOMQASHE_ROWS(answer) == m, "three rows");
    memset(columns, 0xa5, sizeof columns);
    memset(restored, 0xa5, sizeof restored);
    answer = lomqashe_store(records, size, m, columns, size);
    check(answer == 0 && columns[size] == 0xa5 && memcmp(columns + 4 * m, speeds, m) == 0, "store");
    for (size_t c = 0; c < LOMQASHE_RECORD_SIZE; c++)
        for (size_t r = 0; r < m; r++) {
            uint8_t before = r ? records[(r - 1) * LOMQASHE_RECORD_SIZE + c] : 0;
            check(columns[c * m + r] == (uint8_t)(records[r * LOMQASHE_RECORD_SIZE + c] - before), "a stored byte");
        }
    answer = lomqashe_restore(columns, size, m, restored, size);
    check(answer == 0 && restored[size] == 0xa5 && memcmp(restored, records, size) == 0, "restore");
    answer = lomqashe_restore(records, size, m, restored, size);
    check(answer == 0 && memcmp(restored, records, size) != 0, "restore of what is not stored");
    answer = lomqashe_store(restored, size, m, columns, size);
    check(answer == 0 && memcmp(columns, records, size) == 0, "store behind restore");
    column_refusals();
    most_records();
    give_tables_back();
}

#define STACK 65536
#define MOST_STACK 32768
#define PAINT 0xa5

static uint8_t stack[STACK];
static ucontext_t here, there;

/* How much of a painted stack a call changes. */
static size_t stack_of(void (*call)(void))
{
    size_t clean = 0;
    memset(stack, PAINT, STACK);
    getcontext(&there);
    there.uc_stack.ss_sp = stack;
    there.uc_stack.ss_size = STACK;
    there.uc_link = &here;
    makecontext(&there, call, 0);
    swapcontext(&here, &there);
    while (clean < STACK && stack[clean] == PAINT)
        clean++;
    return STACK - clean;
}

/* The second section starts where the first stopped. */
static void stacks(void)
{
    void (*calls[])(void) = {read_tables,  is_closed,  open_closed, open_tune,  section,     section,
                             list_strikes, write_line, load_row,    store_rows, restore_rows};
    check(stack_of(measure) <= MOST_STACK, "stack of measure");
    lend_tables();
    for (size_t i = 0; i < sizeof calls / sizeof *calls; i++) {
        size_t used = stack_of(calls[i]);
        check(LOMQASHE_REFUSAL(answer) == 0 && used <= MOST_STACK, "stack of a call");
    }
    give_tables_back();
}

int main(int argc, char **argv)
{
    file_size = fread(file, 1, sizeof file, stdin);
    if (argc < 2) {
        print_sheet();
    } else if (strcmp(argv[1], "strikes") == 0) {
        strikes_in_order();
    } else if (strcmp(argv[1], "closed") == 0) {
        closed_tunes();
    } else if (strcmp(argv[1], "transposed") == 0) {
        transposed();
    } else if (strcmp(argv[1], "levels") == 0) {
        levels();
    } else if (strcmp(argv[1], "head") == 0) {
        punch_head();
    } else if (strcmp(argv[1], "columns") == 0) {
        column_order();
    } else if (strcmp(argv[1], "stack") == 0) {
        stacks();
    } else {
        null_tables();
        null_refusals();
        give_tables_back();
    }
    return 0;
}
