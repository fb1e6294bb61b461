/*
 * Reads the five sheets of a run from a file or from standard input, and prints the statement of the account,
 * or in words why there is none. Ends with 0, with 1 where the run is refused, with 2 where it is not read.
 */
#include "margin.h"

#include <inttypes.h>
#include <stdio.h>

/* one byte more than a run may have, so that a longer one is seen to be too long */
static uint8_t input[MARGIN_MOST_INPUT + 1];
static uint8_t statement[MARGIN_MOST_STATEMENT];

static const char *cause(unsigned number)
{
    switch (number) {
    case MARGIN_REFUSED_MARK: return "the sheet's mark or version is not the awaited one";
    case MARGIN_REFUSED_COLUMNS: return "a needed column is missing or stands twice, or there are too many";
    case MARGIN_REFUSED_CELL_COUNT: return "the row has another count of cells than the sheet has columns";
    case MARGIN_REFUSED_VALUE: return "the value is outside its form or range";
    case MARGIN_REFUSED_TRAILER: return "the trailer is missing or wrong, bytes follow the last sheet, or there is not just one day";
    case MARGIN_REFUSED_KEY_PRESENT: return "the key stands twice";
    case MARGIN_REFUSED_DATE: return "the date is outside its days";
    case MARGIN_REFUSED_TITLES: return "the titles of the ISIN and block together pass 2,000,000";
    case MARGIN_REFUSED_FULL: return "no place is free";
    case MARGIN_REFUSED_NO_PRICE: return "the ISIN has no price";
    case MARGIN_REFUSED_NO_PERCENTAGE: return "the tranche has no margin percentage";
    case MARGIN_REFUSED_NO_RATE: return "the curve has no rate for the term";
    case MARGIN_REFUSED_LENGTH: return "the input or the statement is too long";
    default: return "unknown";
    }
}

static void print_refusal(const margin_refusal *refusal)
{
    fprintf(stderr, "refused %u", (unsigned)refusal->number);
    switch (refusal->layer) {
    case MARGIN_LAYER_SHEET: fprintf(stderr, " by a sheet"); break;
    case MARGIN_LAYER_BOOK: fprintf(stderr, " by the book"); break;
    case MARGIN_LAYER_MARGIN: fprintf(stderr, " by the margin"); break;
    }
    if (refusal->line != 0)
        fprintf(stderr, ", line %zu", refusal->line);
    if (refusal->cell != 0)
        fprintf(stderr, ", cell %zu", refusal->cell);
    if (refusal->reference != 0)
        fprintf(stderr, ", position %" PRIu32, refusal->reference);
    fprintf(stderr, ": %s\n", cause(refusal->number));
}

int main(int argc, char **argv)
{
    FILE *file = argc > 1 ? fopen(argv[1], "rb") : stdin;
    if (file == NULL) {
        perror(argv[1]);
        return 2;
    }
    size_t input_len = fread(input, 1, sizeof input, file);
    if (ferror(file)) {
        perror("reading the run");
        return 2;
    }

    margin_refusal refusal;
    int64_t answer = margin_run_told(input, input_len, statement, sizeof statement, &refusal);
    if (answer < 0) {
        print_refusal(&refusal);
        return 1;
    }
    size_t written = (size_t)answer;
    if (fwrite(statement, 1, written, stdout) != written || fflush(stdout) != 0) {
        perror("writing the statement");
        return 2;
    }
    return 0;
}
