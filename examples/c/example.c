/* The library from C: a search and its refusal, a search with factors, one with a table of shares, one among released boats, a Spent
 * one worked over, a listing, a card written and checked, a sheet of scale cells, a sheet in its other edition, two sheets on one allowance.
 * Files are built in memory. */
#include <inttypes.h>
#include <stdbool.h>
#include <stdio.h>
#include <string.h>

#include "dofitrano.h"

/* Three boats of two columns: (0,0), (4,0), (0,4). Body, then the trailer: back, boats, columns, letters. */
static const uint8_t book[] = {
    0, 0, 0, 0, 4, 0, 0, 0, 0, 0, 4, 0,
    12, 0, 0, 0, 3, 0, 2, 0, 'W', 'B', 'K', '1'
};

/* Target (1,1); back, columns, steps, tolerance 1, letters. */
static const uint8_t sheet[] = {
    1, 0, 1, 0,
    4, 0, 0, 0, 2, 0, 9, 0, 1, 0, 0, 0, 'W', 'S', 'H', '1'
};
#define STEPS_AT 10

/* The same target, the second column counted twice: the factors 1 and 2 stand after the values. 2 steps, tolerance 1. */
static const uint8_t factored[] = {
    1, 0, 1, 0, 1, 2,
    6, 0, 0, 0, 2, 0, 2, 0, 1, 0, 0, 0, 'W', 'S', 'H', '2'
};

static const char *verdict_name(uint32_t verdict)
{
    switch (verdict) {
    case DOFITRANO_WITHIN: return "within";
    case DOFITRANO_BEYOND: return "beyond";
    case DOFITRANO_SPENT: return "spent";
    default: return "none";
    }
}

static void print_reply(dofitrano_reply r)
{
    printf("refusal %" PRIu32 "\n", r.refusal);
    printf("verdict %s\n", verdict_name(r.verdict));
    printf("steps %" PRIu32 "\n", r.steps);
    printf("weight %" PRIu32 "\n", r.weight);
    printf("distance %" PRIu64 "\n", r.distance);
    printf("gap %" PRIu64 "\n", r.gap);
    printf("floor %" PRId64 "\n", r.floor);
    printf("shortfall %" PRIu64 "\n", r.shortfall);
}

static void search(const uint8_t *the_sheet, size_t length)
{
    /* One slot more than there are boats: the search leaves it alone. */
    uint16_t shares[4] = { 7, 7, 7, 7 };
    print_reply(dofitrano_search(book, sizeof book, the_sheet, length, shares, 4));
    printf("slots %u %u %u %u\n", shares[0], shares[1], shares[2], shares[3]);
}

static void list(void)
{
    /* Long enough for any listing, so that 0, a buffer too short, is never given back. */
    uint8_t text[DOFITRANO_LISTING_MOST];
    size_t length = dofitrano_listing(book, sizeof book, sheet, sizeof sheet, text, sizeof text);
    fwrite(text, 1, length, stdout);
}

static void write_and_check(void)
{
    uint8_t card[DOFITRANO_CARD_MOST];
    uint16_t shares[3] = { 7, 7, 7 };
    dofitrano_card_reply written = dofitrano_write_card(book, sizeof book, sheet, sizeof sheet, card, sizeof card);
    printf("refusal %" PRIu32 ", bytes %zu\n", written.reply.refusal, written.bytes);
    for (size_t i = 0; i < written.bytes; i++)
        printf("%02x", card[i]);
    printf("\n");
    dofitrano_reply checked = dofitrano_check_card(book, sizeof book, sheet, sizeof sheet, card, written.bytes, shares, 3);
    printf("checked, refusal %" PRIu32 ", %s, slots %u %u %u\n", checked.refusal, verdict_name(checked.verdict),
           shares[0], shares[1], shares[2]);
    card[2]++; /* one share more */
    checked = dofitrano_check_card(book, sizeof book, sheet, sizeof sheet, card, written.bytes, shares, 3);
    printf("checked with one share more, refusal %" PRIu32 "\n", checked.refusal);
}

/* No released set: every boat may be used. */
static const dofitrano_released every_boat = { false, { 0 } };

/* Later steps count for less: the first gives 2 shares, the others 1 each. The card is checked with its table and without it. */
static void lend_a_table(void)
{
    const uint16_t table[] = { 2, 1, 1 };
    uint16_t shares[4] = { 7, 7, 7, 7 };
    uint8_t card[DOFITRANO_CARD_MOST];
    print_reply(dofitrano_search_with(book, sizeof book, sheet, sizeof sheet, every_boat, true, table, 3, shares, 4));
    printf("slots %u %u %u %u\n", shares[0], shares[1], shares[2], shares[3]);
    dofitrano_card_reply written =
        dofitrano_write_card_with(book, sizeof book, sheet, sizeof sheet, every_boat, true, table, 3, card, sizeof card);
    printf("refusal %" PRIu32 ", bytes %zu\n", written.reply.refusal, written.bytes);
    dofitrano_reply checked = dofitrano_check_card_with(book, sizeof book, sheet, sizeof sheet, every_boat, true, table, 3,
                                                        card, written.bytes, shares, 4);
    printf("checked with its table, refusal %" PRIu32 ", %s\n", checked.refusal, verdict_name(checked.verdict));
    checked = dofitrano_check_card_with(book, sizeof book, sheet, sizeof sheet, every_boat, false, table, 3,
                                        card, written.bytes, shares, 4);
    printf("checked without it, refusal %" PRIu32 "\n", checked.refusal);
    /* An empty table is not the same as none. */
    print_reply(dofitrano_search_with(book, sizeof book, sheet, sizeof sheet, every_boat, true, table, 0, shares, 4));
}

/* Boats 1 and 2 are released, bits 1 and 2 of the first byte; no table is lent. The card of the whole book rests on boat 0. */
static void search_among(void)
{
    const dofitrano_released two = { true, { 6 } };
    const dofitrano_released none = { true, { 0 } };
    const uint16_t table[] = { 0 };
    uint16_t shares[4] = { 7, 7, 7, 7 };
    uint8_t card[DOFITRANO_CARD_MOST];
    print_reply(dofitrano_search_with(book, sizeof book, sheet, sizeof sheet, two, false, table, 0, shares, 4));
    printf("slots %u %u %u %u\n", shares[0], shares[1], shares[2], shares[3]);
    dofitrano_card_reply written =
        dofitrano_write_card_with(book, sizeof book, sheet, sizeof sheet, two, false, table, 0, card, sizeof card);
    dofitrano_reply checked = dofitrano_check_card_with(book, sizeof book, sheet, sizeof sheet, two, false, table, 0,
                                                        card, written.bytes, shares, 4);
    printf("checked, refusal %" PRIu32 ", %s\n", checked.refusal, verdict_name(checked.verdict));
    written = dofitrano_write_card(book, sizeof book, sheet, sizeof sheet, card, sizeof card);
    checked = dofitrano_check_card_with(book, sizeof book, sheet, sizeof sheet, two, false, table, 0,
                                        card, written.bytes, shares, 4);
    printf("the whole book's card, refusal %" PRIu32 "\n", checked.refusal);
    dofitrano_reply refused = dofitrano_search_with(book, sizeof book, sheet, sizeof sheet, none, false, table, 0, shares, 4);
    printf("no boat released, refusal %" PRIu32 "\n", refused.refusal);
}

/* Boats 1 and 2 are released, and their search ends Spent: up to 10 moves. Then a sheet with factors, of 4 steps and tolerance 0; no move
 * allowed; and the whole book, whose search ends Within. */
static void work_over(void)
{
    const dofitrano_released two = { true, { 6 } };
    const uint16_t table[] = { 0 };
    uint16_t shares[4] = { 7, 7, 7, 7 };
    uint8_t card[DOFITRANO_CARD_MOST], longer[sizeof factored];
    dofitrano_card_reply worked = dofitrano_work_over(book, sizeof book, sheet, sizeof sheet, two, 10, card, sizeof card);
    print_reply(worked.reply);
    printf("bytes %zu\n", worked.bytes);
    for (size_t i = 0; i < worked.bytes; i++)
        printf("%02x", card[i]);
    printf("\n");
    dofitrano_reply checked = dofitrano_check_card_with(book, sizeof book, sheet, sizeof sheet, two, false, table, 0,
                                                        card, worked.bytes, shares, 4);
    printf("checked, refusal %" PRIu32 ", %s, slots %u %u %u %u\n", checked.refusal, verdict_name(checked.verdict),
           shares[0], shares[1], shares[2], shares[3]);
    memcpy(longer, factored, sizeof factored);
    longer[STEPS_AT + 2] = 4;
    longer[STEPS_AT + 4] = 0;
    worked = dofitrano_work_over(book, sizeof book, longer, sizeof longer, every_boat, 10, card, sizeof card);
    printf("factors 1 2, 4 steps, refusal %" PRIu32 ", %s, %" PRIu64 " %" PRIu64 ", bytes %zu\n", worked.reply.refusal,
           verdict_name(worked.reply.verdict), worked.reply.distance, worked.reply.gap, worked.bytes);
    worked = dofitrano_work_over(book, sizeof book, sheet, sizeof sheet, two, 0, card, sizeof card);
    printf("no move, refusal %" PRIu32 "\n", worked.reply.refusal);
    worked = dofitrano_work_over(book, sizeof book, sheet, sizeof sheet, every_boat, 10, card, sizeof card);
    printf("the whole book, refusal %" PRIu32 "\n", worked.reply.refusal);
}

/* A weighing in units of 10 kilograms and a net in units of 4: the cells of the two columns. */
static void weigh(void)
{
    const uint8_t kinds[] = { DOFITRANO_WEIGHED, DOFITRANO_NET };
    const double first[] = { 1000000.1, 5.5 };
    const double second[] = { 999975.6, 0.0 };
    const uint32_t units[] = { 10, 4 };
    dofitrano_values found = dofitrano_sheet_values(book, sizeof book, kinds, 2, first, 2, second, 2, units, 2);
    printf("refusal %" PRIu32 ", values %d %d\n", found.refusal, found.values[0], found.values[1]);
    dofitrano_sheet made = dofitrano_scale_sheet(book, sizeof book, kinds, 2, first, 2, second, 2, units, 2, 9, 1);
    printf("refusal %" PRIu32 ", bytes %zu\n", made.refusal, made.length);
    for (size_t i = 0; i < made.length; i++)
        printf("%02x", made.bytes[i]);
    printf("\n");
    /* The second cell is missing. */
    made = dofitrano_scale_sheet(book, sizeof book, kinds, 1, first, 1, second, 1, units, 1, 9, 1);
    printf("refusal %" PRIu32 ", bytes %zu\n", made.refusal, made.length);
}

/* The sheet in its other edition, and one whose factors are not all 1, which has none. */
static void convert(void)
{
    uint8_t other[sizeof sheet + 2];
    dofitrano_edition_reply made = dofitrano_other_edition(sheet, sizeof sheet, other, sizeof other);
    printf("refusal %" PRIu32 ", edition %" PRIu32 ", bytes %zu\n", made.refusal, made.edition, made.bytes);
    for (size_t i = 0; i < made.bytes; i++)
        printf("%02x", other[i]);
    printf("\n");
    made = dofitrano_other_edition(factored, sizeof factored, other, sizeof other);
    printf("refusal %" PRIu32 ", edition %" PRIu32 ", bytes %zu\n", made.refusal, made.edition, made.bytes);
}

/* The sheet and the one with factors back to back, on an allowance of 4 steps: two rounds. */
static void share(void)
{
    uint8_t sheets[sizeof sheet + sizeof factored];
    dofitrano_sheet_record queue[2] = { { .length = sizeof sheet }, { .length = sizeof factored } };
    uint16_t shares[2 * DOFITRANO_QUEUE_SLOTS] = { 0 };
    memcpy(sheets, sheet, sizeof sheet);
    memcpy(sheets + sizeof sheet, factored, sizeof factored);
    printf("refusal %" PRIu32 "\n", dofitrano_run_queue(queue, 2, book, sizeof book, sheets, sizeof sheets, 4, shares, sizeof shares / sizeof *shares));
    for (int i = 0; i < 2; i++) {
        const uint16_t *own = shares + i * DOFITRANO_QUEUE_SLOTS;
        printf("asked %" PRIu32 ", used %" PRIu32 ", finished %d, %s, %" PRIu64 " %" PRIu64 ", slots %u %u %u\n",
               queue[i].asked, queue[i].used, queue[i].finished, verdict_name(queue[i].verdict), queue[i].distance, queue[i].gap, own[0], own[1], own[2]);
    }
    printf("refusal %" PRIu32 "\n", dofitrano_run_queue(queue, 2, book, sizeof book, sheets, sizeof sheets, 1, shares, sizeof shares / sizeof *shares));
}

int main(void)
{
    printf("search, 9 steps\n");
    search(sheet, sizeof sheet);

    uint8_t no_steps[sizeof sheet];
    memcpy(no_steps, sheet, sizeof sheet);
    no_steps[STEPS_AT] = 0;
    printf("search, 0 steps\n");
    search(no_steps, sizeof no_steps);

    printf("search, factors 1 2\n");
    search(factored, sizeof factored);

    printf("table 2 1 1\n");
    lend_a_table();

    printf("released 1 2\n");
    search_among();

    printf("work over\n");
    work_over();

    printf("listing\n");
    list();
    printf("card\n");
    write_and_check();
    printf("cells\n");
    weigh();
    printf("editions\n");
    convert();
    printf("queue\n");
    share();
    return 0;
}
