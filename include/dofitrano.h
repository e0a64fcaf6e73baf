/* Dofitrano: mixtures of boats that come near a target, as a library for C.
 *
 * `tools/library` builds target/staticlib/libdofitrano.a, which has these functions. Each of them is proved to do what
 * its contract says (crates/exported_search_c, exported_queue_c, exported_cards_c and exported_files_c), for every content
 * of the files. No proof covers what a C program passes, so the caller must see to the following:
 *
 *   - A list or a buffer passes as a pointer and a length. The pointer is not null, also where the length is 0; it is
 *     aligned for its type; and all elements that the length says can be read, or read and written where there is no
 *     `const`. A length counts elements and not bytes.
 *   - What a function writes to does not overlap anything else that is passed in the same call. Files that are only
 *     read may overlap one another.
 *   - Nothing else writes to what was passed while the call runs.
 *   - The prototypes here are those of the library that is linked. The gate compares this file with the library's code
 *     (tests/check_header.py); nothing compares it with the library that is linked.
 *
 * The functions keep no pointer and no state between calls, and allocate nothing. */
#ifndef DOFITRANO_H
#define DOFITRANO_H

#include <stdbool.h>
#include <stddef.h>
#include <stdint.h>

#ifdef __cplusplus
extern "C" {
#endif

/* Numbers that refuse a call. The first that applies in the call's own order is given back, and every list and buffer passed is as
 * it was. Each function says its order. */
enum dofitrano_refusal {
    DOFITRANO_ACCEPTED = 0,
    /* the fleet book */
    DOFITRANO_BOOK_LENGTH = 1,   /* shorter than 12 or longer than 40,000 bytes */
    DOFITRANO_BOOK_LETTERS = 2,  /* letters not WBK1 */
    DOFITRANO_BOOK_BOATS = 3,    /* boats outside 1 to 256 */
    DOFITRANO_BOOK_COLUMNS = 4,  /* columns outside 1 to 64 */
    DOFITRANO_BOOK_BACK = 5,     /* back is not 2 x boats x columns, or reaches before the first byte */
    DOFITRANO_BOOK_VALUE = 6,    /* a value outside -2,000 to 2,000 */
    /* the sheet */
    DOFITRANO_SHEET_LENGTH = 11,    /* shorter than 16 or longer than 40,000 bytes */
    DOFITRANO_SHEET_LETTERS = 12,   /* letters not WSH1 or WSH2 */
    DOFITRANO_SHEET_COLUMNS = 13,   /* columns differ from the book's */
    DOFITRANO_SHEET_STEPS = 14,     /* steps outside 1 to 360 */
    DOFITRANO_SHEET_TOLERANCE = 15, /* tolerance above 1,024,000,000 */
    DOFITRANO_SHEET_BACK = 16,      /* back is not 2 x columns (WSH2: 3 x columns), or reaches before the first byte */
    DOFITRANO_SHEET_VALUE = 17,     /* a value outside -2,000 to 2,000 */
    DOFITRANO_SHEET_FACTORS = 46,   /* the columns' factors total 0 or more than 64; tested right after 17 */
    DOFITRANO_EDITION_FACTOR = 47,  /* a sheet WSH2 that is to be WSH1 has a factor other than 1 */
    DOFITRANO_EDITION_OUTPUT = 48,  /* output shorter than the other edition, or that longer than 40,000 bytes */
    /* the calling program */
    DOFITRANO_SHARE_LIST = 21,  /* share list shorter than the number of boats; of a queue, than 256 slots a sheet */
    DOFITRANO_CARD_BUFFER = 22, /* card buffer shorter than the card */
    DOFITRANO_QUEUE_SHEETS = 44,    /* sheets of a queue outside 1 to 16, or lengths that do not total the buffer */
    DOFITRANO_QUEUE_ALLOWANCE = 45, /* an allowance below the number of sheets or above 5,760 */
    /* a table of shares that is lent */
    DOFITRANO_TABLE_LENGTH = 49, /* no entry, or more than 360 */
    DOFITRANO_TABLE_ENTRY = 50,  /* an entry of 0, or one whose square is above twice the running total that includes it */
    DOFITRANO_TABLE_TOTAL = 51,  /* a final total above 64,980 */
    /* the card */
    DOFITRANO_CARD_LENGTH = 31,    /* shorter than 36 or longer than 40,000 bytes */
    DOFITRANO_CARD_LETTERS = 32,   /* letters not WCD1 or WCD2 */
    DOFITRANO_CARD_SIZES = 33,     /* boats or columns differ from the book's */
    DOFITRANO_CARD_STEPS = 34,     /* verdict outside 1 to 3, or steps used 0 or above the steps asked */
    DOFITRANO_CARD_BACK = 35,      /* back 0, no multiple of 4, above 4 x boats, or before the first byte */
    DOFITRANO_CARD_BOATS = 36,     /* boats not strictly ascending, a boat not in the book or not released, or a share of 0 */
    DOFITRANO_CARD_SHARES = 37,    /* more boats than steps used, or shares not totalling W of those steps */
    DOFITRANO_CARD_UNTRUE = 38,    /* E, G or the verdict, judged by the test of the letters, untrue of the shares */
    DOFITRANO_CARD_TOLERANCE = 39, /* tolerance differs from the sheet's */
    /* the scale cells */
    DOFITRANO_CELL_UNWEIGHED = 41, /* a cell not weighed */
    DOFITRANO_CELL_READING = 42,   /* a reading not finite, or a net beyond 1,048,576 kilograms either way */
    DOFITRANO_CELL_UNIT = 43,      /* kilograms per unit outside 1 to 10,000, or a value outside -2,000 to 2,000 */
    /* the released set */
    DOFITRANO_RELEASED_SET = 52, /* empty, or names a boat that the book does not have; tested after 6 */
    /* a Spent run worked over */
    DOFITRANO_WORK_VERDICT = 53, /* the search does not end Spent */
    DOFITRANO_WORK_MOVES = 54,   /* moves allowed outside 1 to 1,000 */
    /* one book from two */
    DOFITRANO_MERGE_COLUMNS = 55, /* the books' columns differ */
    DOFITRANO_MERGE_BOATS = 56,   /* a merged book of more than 256 boats */
    DOFITRANO_MERGE_BUFFER = 57,  /* book buffer shorter than the merged book */

    DOFITRANO_REPORT_CARDS = 58 /* cards of a report outside 1 to 64; no function of this header gives it */
};

enum dofitrano_verdict {
    DOFITRANO_WITHIN = 1, /* the squared distance is at most the tolerance */
    DOFITRANO_BEYOND = 2, /* the squared distance of every mixture is above the tolerance */
    DOFITRANO_SPENT = 3   /* neither was shown by the last step asked */
};

/* The answer of a call. Where the call is refused, every field but `refusal` is 0: there is no answer to give. */
typedef struct dofitrano_reply {
    uint32_t refusal;   /* the number that refuses the call, 0 for an answer */
    uint32_t verdict;   /* 1 Within, 2 Beyond, 3 Spent */
    uint32_t steps;     /* t, the steps used */
    uint32_t weight;    /* W, the total of the shares: t (t + 1) / 2, or that of the first t entries of a lent table */
    uint64_t distance;  /* E: the squared distance, each column times the sheet's factor for it, is E / W^2 */
    uint64_t gap;       /* G: the gap is G / W^2 */
    int64_t floor;      /* of Beyond: E - 2 G, which may be below 0; else 0 */
    uint64_t shortfall; /* of Spent: E - tolerance x W^2; else 0 */
} dofitrano_reply;

/* Searches a mixture of the book's boats near the sheet's target. Refuses by 1 to 17, then 46, then 21. Where it answers, the first
 * slots of `shares` are the boats' shares, one a boat and 0 for an unused boat; later slots are as they were. A sheet WSH2 has a factor
 * for each column, by which every squared distance counts it; with WSH1 every factor is 1. All functions here take either. */
dofitrano_reply dofitrano_search(const uint8_t *book, size_t book_length,
                                 const uint8_t *sheet, size_t sheet_length,
                                 uint16_t *shares, size_t slots);

/* The reply of a call that writes a card. Where the call is refused, `bytes` is 0: nothing was written. */
typedef struct dofitrano_card_reply {
    dofitrano_reply reply; /* the answer on the card, or the number that refuses the call */
    size_t bytes;          /* the bytes of the card that was written */
} dofitrano_card_reply;

/* A card has at most 4 bytes a boat and 36 more: a buffer of this length is never too short. */
#define DOFITRANO_CARD_MOST 1060

/* Makes the search itself and writes its card, of the edition WCD2, to the first bytes of `output`; later bytes are as they were.
 * Refuses by 1 to 17, then 46, then 22. */
dofitrano_card_reply dofitrano_write_card(const uint8_t *book, size_t book_length,
                                          const uint8_t *sheet, size_t sheet_length,
                                          uint8_t *output, size_t output_length);

/* Checks a card, of either edition, against its book and sheet without a search, by the sheet's factors. Refuses by 1 to 17, then 46,
 * then 21, then 31 to 39. Where it accepts, it replies with the card's answer and fills the first slots of `shares` with the card's
 * shares as dofitrano_search does. */
dofitrano_reply dofitrano_check_card(const uint8_t *book, size_t book_length,
                                     const uint8_t *sheet, size_t sheet_length,
                                     const uint8_t *card, size_t card_length,
                                     uint16_t *shares, size_t slots);

/* The boats that a call may use, by the numbers of the book: with `limited` true those that the bits of `boats` name, bit b of byte k,
 * b = 0 the lowest, for boat 8 k + b; with `limited` false all of them, and `boats` is not read. */
typedef struct dofitrano_released {
    bool limited;
    uint8_t boats[32];
} dofitrano_released;

/* A set of released boats and a table of shares may be handed to the search, the card writer and the card check.
 *
 * With `released.limited` true the call refuses a set that is empty or names a boat that the book does not have, by 52, after 1 to 6 and
 * ahead of the sheet's numbers. The search then starts at the lowest released boat, and scores, G, D^2, bounds and verdicts are of the
 * released boats alone. Shares stay numbered as in the book, 0 for every other boat; 21, 33 and 35 go by the whole book. The card check
 * refuses a card that rests on a boat that is not released, by 36. Two accepted books of the same counts with the same released rows
 * give the same replies, slots and bytes, whatever their other rows are; the time that a call takes is not covered.
 *
 * With `lent` true step k takes entry k of the table in place of k, and W is the table's running total. A table has 1 to 360 entries,
 * each above 0 with a square of at most twice the running total that includes it, of a total of at most 64,980. The call refuses by 49,
 * 50 or 51 first; a table of no entry is refused by 49. A sheet that asks for more steps than the table has entries counts as asking for
 * their number, also in 34 and 38; 14 judges the sheet's own number.
 *
 * With `released.limited` and `lent` false neither is read, and the call does what its namesake without them does. Nothing on a card says
 * which set or table made it: keep them beside the card. */
dofitrano_reply dofitrano_search_with(const uint8_t *book, size_t book_length,
                                      const uint8_t *sheet, size_t sheet_length,
                                      dofitrano_released released,
                                      bool lent, const uint16_t *table, size_t entries,
                                      uint16_t *shares, size_t slots);

dofitrano_card_reply dofitrano_write_card_with(const uint8_t *book, size_t book_length,
                                               const uint8_t *sheet, size_t sheet_length,
                                               dofitrano_released released,
                                               bool lent, const uint16_t *table, size_t entries,
                                               uint8_t *output, size_t output_length);

/* An accepted card vouches for what it says with this set and this table, whichever made it. */
dofitrano_reply dofitrano_check_card_with(const uint8_t *book, size_t book_length,
                                          const uint8_t *sheet, size_t sheet_length,
                                          dofitrano_released released,
                                          bool lent, const uint16_t *table, size_t entries,
                                          const uint8_t *card, size_t card_length,
                                          uint16_t *shares, size_t slots);

/* Makes the search and, where it ends Spent, works its mixture over by at most so many moves: each takes the best whole number of shares
 * from the boat of greatest score to the boat of least, both of those that hold some, and lowers E. It stops where that number is 0 or the
 * moves are made. W stays and no boat joins. Writes the card of the result, of the edition WCD2, to the first bytes of `output`; later bytes
 * are as they were. The reply is the answer of the result, E, G and verdict taken anew. dofitrano_check_card_with accepts the card with the
 * same set. Refuses by 1 to 17 and 46, with 52 of a set after 6, then by 53, 54 and 22. Use it after Spent, before asking for more steps. */
dofitrano_card_reply dofitrano_work_over(const uint8_t *book, size_t book_length,
                                         const uint8_t *sheet, size_t sheet_length,
                                         dofitrano_released released, uint32_t moves,
                                         uint8_t *output, size_t output_length);

/* A part of one of two cards: its body and trailer, without front text. Where the call is refused, an empty part of the first. */
typedef struct dofitrano_choice {
    uint32_t refusal; /* the number that refuses the call, 0 for a choice */
    uint32_t card;    /* 1 the first card, 2 the second */
    size_t offset;    /* where the part starts in that card */
    size_t length;    /* its bytes, up to the card's end */
} dofitrano_choice;

/* The better of two cards for one book and sheet: the one whose squared distance E / W^2 is the lesser, compared exactly; of equal
 * ones the first. Refuses by 1 to 17, then 46, then 31 to 39 of the first card, then 31 to 39 of the second. Where it chooses, the part
 * is a card that dofitrano_check_card accepts, with the same answer and shares. */
dofitrano_choice dofitrano_better_card(const uint8_t *book, size_t book_length,
                                       const uint8_t *sheet, size_t sheet_length,
                                       const uint8_t *first, size_t first_length,
                                       const uint8_t *second, size_t second_length);

/* A listing has at least one and at most so many bytes: a buffer of this length is never too short. */
#define DOFITRANO_LISTING_MOST 4096

/* Makes the search and lists its answer, or the number that refuses the files, as lines of text. Gives back the listing's length
 * in bytes, which are the first of `output`; there is no 0 byte after it, and later bytes are as they were. A buffer shorter than the
 * listing is left as it was, and 0 is given back. */
size_t dofitrano_listing(const uint8_t *book, size_t book_length,
                         const uint8_t *sheet, size_t sheet_length,
                         uint8_t *output, size_t output_length);

/* What a scale gives for one column. Any other number counts as unweighed. */
enum dofitrano_cell {
    DOFITRANO_UNWEIGHED = 0,
    DOFITRANO_NET = 1,    /* `first` is the net in kilograms; `second` is not read */
    DOFITRANO_WEIGHED = 2 /* `first` is the gross, `second` the tare; the net is their difference as a double */
};

/* The values of scale cells. Where the call is refused, every value is 0. */
typedef struct dofitrano_values {
    uint32_t refusal;   /* the number that refuses the call, 0 for values */
    int16_t values[64]; /* one a column of the book, 0 past its last column */
} dofitrano_values;

/* The sheet values of scale cells: cell i is kinds[i], first[i], second[i] and units[i], the kilograms of one unit. As many cells
 * are read as the book has columns, at most 64; one that a list is too short for counts as unweighed. The exact net is rounded to
 * whole kilograms, those over the unit to the value, halves to even. Refuses by 1 to 6, then cell by cell by 41, 42 and 43. */
dofitrano_values dofitrano_sheet_values(const uint8_t *book, size_t book_length,
                                        const uint8_t *kinds, size_t kind_count,
                                        const double *first, size_t first_count,
                                        const double *second, size_t second_count,
                                        const uint32_t *units, size_t unit_count);

/* A sheet WSH1, which has no factors, has at most so many bytes without front text. */
#define DOFITRANO_SHEET_MOST 144

/* A sheet by value. Where the call is refused, `length` and every byte are 0. */
typedef struct dofitrano_sheet {
    uint32_t refusal;                    /* the number that refuses the call, 0 for a sheet */
    size_t length;                       /* the bytes of the sheet, the first of `bytes` */
    uint8_t bytes[DOFITRANO_SHEET_MOST]; /* 0 behind them */
} dofitrano_sheet;

/* The sheet, WSH1, whose target is the values of the cells, with these steps and this tolerance: dofitrano_search and the others take it
 * with the same book. Refuses by 1 to 6, then cell by cell by 41, 42 and 43, then by 14, then by 15. */
dofitrano_sheet dofitrano_scale_sheet(const uint8_t *book, size_t book_length,
                                      const uint8_t *kinds, size_t kind_count,
                                      const double *first, size_t first_count,
                                      const double *second, size_t second_count,
                                      const uint32_t *units, size_t unit_count,
                                      uint32_t steps, uint32_t tolerance);

/* The reply of a sheet's conversion. Where the call is refused, `edition` and `bytes` are 0: nothing was written. */
typedef struct dofitrano_edition_reply {
    uint32_t refusal; /* the number that refuses the call, 0 where a sheet was written */
    uint32_t edition; /* the edition that was written: 1 of WSH2, 2 of WSH1 */
    size_t bytes;     /* its bytes */
} dofitrano_edition_reply;

/* Writes a sheet in its other edition to the first bytes of `output`, by its letters: WSH1 into WSH2 with every factor 1, WSH2 into WSH1
 * where every factor is 1. Front text is carried over; later bytes are as they were. Refuses by 11 to 17, 13 for columns outside 1 to 64,
 * then 46, then 47, then 48. Converted back, the result is the same bytes; every other function here does the same with both. */
dofitrano_edition_reply dofitrano_other_edition(const uint8_t *sheet, size_t sheet_length,
                                                uint8_t *output, size_t output_length);

/* One fleet book from two. Where the call is refused, `length` is 0: nothing was written. */
typedef struct dofitrano_merged {
    uint32_t refusal; /* the number that refuses the call, 0 for a book */
    size_t length;    /* the bytes of the book that was written */
} dofitrano_merged;

/* A book has at most 2 bytes for each of 256 x 64 values and 12 more without front text: a buffer of this length is never too short. */
#define DOFITRANO_BOOK_MOST 32780

/* Writes one book from two to the first bytes of `output`, without front text: the rows of `first` in order, then each row of `second`
 * that equals no row before it; later bytes are as they were. Refuses by 1 to 6 of the first book, then of the second, then by 55, 56
 * and 57. The boats of the first book keep their numbers, and the mixtures are those of the boats of both. */
dofitrano_merged dofitrano_merge_books(const uint8_t *first, size_t first_length,
                                       const uint8_t *second, size_t second_length,
                                       uint8_t *output, size_t output_length);

/* What a queue says of one sheet. The caller gives `length`; the rest is written. */
typedef struct dofitrano_sheet_record {
    uint32_t asked;    /* the steps that the sheet asks for */
    uint32_t used;     /* the steps that it took */
    bool finished;     /* whether it has a verdict of its own, and not that of an allowance that was gone */
    uint64_t distance; /* E after the steps that it took */
    uint64_t gap;      /* G after them */
    uint32_t verdict;  /* 1 Within, 2 Beyond, 3 Spent; 3 also where the allowance cut the sheet off */
    uint32_t length;   /* the bytes of the sheet */
} dofitrano_sheet_record;

/* How many slots of the share list each sheet of a queue has. */
#define DOFITRANO_QUEUE_SLOTS 256

/* Runs 1 to 16 sheets, which stand back to back in `sheets`, on one allowance of steps: in each round every unfinished sheet, in queue
 * order, takes one step, until all have a verdict or the allowance is gone. Sheet i has the slots from 256 i on, and the first of them get
 * its shares, one a boat; other slots are as they were. What is written of a sheet is what dofitrano_search gives for it with its steps set
 * to those that it used. Refuses by 1 to 6, 44, 45, then each sheet in order by 11 to 17 and 46, then 21, and gives back that number; every
 * record and slot is then as it was. */
uint32_t dofitrano_run_queue(dofitrano_sheet_record *queue, size_t sheet_count,
                             const uint8_t *book, size_t book_length,
                             const uint8_t *sheets, size_t sheets_length,
                             uint32_t allowance,
                             uint16_t *shares, size_t slots);

#ifdef __cplusplus
}
#endif

#endif
