/*
 * Tries both calls on one run at every length of its input and at every length of the statement's buffer, 0 and
 * NULL among them, on an input that is one byte too long, and on a run that is as large as one may be: all of it in
 * a thread that has just MARGIN_STACK_BYTES of stack. Ends with 0 where each answer is as it has to be.
 */
#include "margin.h"

#include <pthread.h>
#include <stdarg.h>
#include <stdio.h>
#include <stdlib.h>
#include <string.h>

#define MOST_LINES 1024
#define MOST_PRICES 256
#define MOST_POINTS 64
#define TODAY 9000

static uint8_t run[MARGIN_MOST_INPUT + 1];
static size_t run_len;
static uint8_t statement[MARGIN_MOST_STATEMENT];

static void check(int holds, const char *what, size_t at)
{
    if (!holds) {
        fprintf(stderr, "%s, at %zu\n", what, at);
        exit(1);
    }
}

/* Whether a refusal has these parts. */
static int tells(margin_refusal r, unsigned number, unsigned layer, size_t line)
{
    return r.number == number && r.layer == layer && r.line == line && r.cell == 0 && r.reference == 0;
}

/* Both calls on copies that end where their memory ends; the buffer begins as bytes 0xAA. */
static int64_t tried(size_t run_len, size_t room, margin_refusal *refusal)
{
    uint8_t *sheets = malloc(run_len);
    uint8_t *text = malloc(room);
    uint8_t *again = malloc(room);
    check((sheets || !run_len) && ((text && again) || !room), "no memory", room);
    if (run_len)
        memcpy(sheets, run, run_len);
    if (room) {
        memset(text, 0xAA, room);
        memset(again, 0xAA, room);
    }
    memset(refusal, 0xAA, sizeof *refusal);

    int64_t answer = margin_run_told(sheets, run_len, text, room, refusal);
    check(margin_run(sheets, run_len, again, room) == answer, "the two calls answer apart", run_len);
    check(!room || memcmp(text, again, room) == 0, "the two calls write apart", run_len);
    size_t written = answer < 0 ? 0 : (size_t)answer;
    check(written <= room, "a statement beyond its buffer", room);
    for (size_t i = written; i < room; i++)
        check(text[i] == 0xAA, "a byte behind the statement is changed", i);
    check(!written || memcmp(text, statement, written) == 0, "another statement", room);
    check(answer < 0 ? answer == -(int64_t)refusal->number : tells(*refusal, 0, 0, 0), "a refusal told wrongly", run_len);
    free(sheets);
    free(text);
    free(again);
    return answer;
}

/* Adds text at the end of the run. */
static void add(const char *format, ...)
{
    va_list parts;
    va_start(parts, format);
    int len = vsnprintf((char *)run + run_len, sizeof run - run_len, format, parts);
    va_end(parts);
    check(len > 0 && (size_t)len < sizeof run - run_len, "the largest run is too long", run_len);
    run_len += (size_t)len;
}

/* The ISIN of country XS with a number: the letters and digits are doubled from the right, every second one. */
static const char *isin(unsigned number)
{
    static char text[13];
    int sum = 0;
    snprintf(text, sizeof text, "XS%09u", number);
    const char digits[] = {3, 3, 2, 8}; /* X is 33, and S is 28 */
    for (int place = 0; place < 13; place++) {
        int digit = place < 4 ? digits[place] : text[place - 2] - '0';
        int weighed = place % 2 == 0 ? 2 * digit : digit;
        sum += weighed / 10 + weighed % 10;
    }
    text[11] = (char)('0' + (10 - sum % 10) % 10);
    text[12] = 0;
    return text;
}

/* As many lines, prices and points as a run may have; each line makes a row, and none comes in its order. */
static void make_largest_run(void)
{
    run_len = 0;
    add("DAY;1\nTODAY;NEXT;MODE;CURVE\n%u;%u;N;L\nEND;1\n", TODAY, TODAY + 1);
    add("PAR;1\nTRANCHE;PCT\n1;50\n2;100\n3;150\n4;200\n5;400\n6;800\nEND;6\nCRV;1\nTERM;RATE\n");
    for (unsigned point = 1; point <= MOST_POINTS; point++)
        add("%u;%u\n", 6 * point, 200 + point);
    add("END;%u\nPRC;1\nISIN;PRICE;MATURITY\n", MOST_POINTS);
    for (unsigned number = 0; number < MOST_PRICES; number++)
        add("%s;%u;%u\n", isin(number), 950000 + number, TODAY + 1 + 20 * number);
    add("END;%u\nPOS;1\nREF;ISIN;SIDE;BLOCK;TITLES;CASH;DATE\n", MOST_PRICES);
    for (unsigned place = 0; place < MOST_LINES; place++) {
        unsigned reference = 1 + place * 389 % MOST_LINES;
        char block = "TFHC"[place / MOST_PRICES];
        add("%u;%s;%c;%c;%u;%u;%u\n", reference, isin(place % MOST_PRICES), "BS"[place % 2], block,
            block == 'C' ? 0 : 1000 + place, 1000000 + place, TODAY);
    }
    add("END;%u\n", MOST_LINES);
}

static void try_largest_run(void)
{
    make_largest_run();
    int64_t whole = margin_run(run, run_len, statement, sizeof statement);
    check(whole > 0, "the largest run is refused", run_len);
    size_t lines = 0;
    for (int64_t at = 0; at < whole; at++)
        lines += statement[at] == '\n';
    check(lines == MOST_LINES + 4, "the largest statement has another count of lines", lines);
    margin_refusal refusal;
    check(tried(run_len, (size_t)whole, &refusal) == whole, "a statement fits its own length", run_len);
    check(tried(run_len, (size_t)whole - 1, &refusal) == -MARGIN_REFUSED_LENGTH, "a statement fits no such buffer", 0);
    check(tried(run_len - 1, (size_t)whole, &refusal) < 0, "a run cut short is accepted", run_len);
}

static void try_run(void)
{
    int64_t whole = margin_run(run, run_len, statement, sizeof statement);
    check(whole > 0, "the run is refused", run_len);
    margin_refusal refusal;
    for (size_t len = 0; len < run_len; len++)
        check(tried(len, sizeof statement, &refusal) < 0, "a run cut short is accepted", len);
    for (size_t room = 0; room < (size_t)whole; room++) {
        check(tried(run_len, room, &refusal) == -MARGIN_REFUSED_LENGTH, "a statement fits no such buffer", room);
        check(tells(refusal, MARGIN_REFUSED_LENGTH, MARGIN_LAYER_RUN, 0), "a refusal told wrongly", room);
    }
    check(tried(run_len, (size_t)whole, &refusal) == whole, "a statement fits its own length", run_len);
    check(tried(MARGIN_MOST_INPUT + 1, sizeof statement, &refusal) == -MARGIN_REFUSED_LENGTH, "a long run is accepted", 0);

    check(margin_run_told(NULL, 0, NULL, 0, &refusal) == -MARGIN_REFUSED_MARK, "no bytes are no run", 0);
    check(tells(refusal, MARGIN_REFUSED_MARK, MARGIN_LAYER_SHEET, 1), "a refusal told wrongly", 0);
    check(margin_run(run, run_len, NULL, 0) == -MARGIN_REFUSED_LENGTH, "no buffer holds a statement", 0);
}

static void *try_all(void *nothing)
{
    try_run();
    try_largest_run();
    return nothing;
}

int main(int argc, char **argv)
{
    FILE *file = argc == 2 ? fopen(argv[1], "rb") : NULL;
    check(file != NULL, "usage: margin_edges RUN", 0);
    run_len = fread(run, 1, sizeof run, file);
    check(!ferror(file) && run_len < sizeof run, "the run is not read", run_len);

    pthread_attr_t small;
    pthread_t thread;
    check(pthread_attr_init(&small) == 0 && pthread_attr_setstacksize(&small, MARGIN_STACK_BYTES) == 0, "no such stack", 0);
    check(pthread_create(&thread, &small, try_all, NULL) == 0, "no thread", 0);
    check(pthread_join(thread, NULL) == 0, "the thread does not end", 0);
    return 0;
}
