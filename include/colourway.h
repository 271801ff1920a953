/*
 * The proved operations for C and C++, x86-64. At the repository's top, with program.c for your own file:
 *
 *     (cd crates/exports && rt lib)
 *     cc -Iinclude program.c crates/exports/out/libexports.a
 *
 * The first proves the library and writes it. It needs memcpy, memmove and memset of the C library, which cc links by
 * itself, and nothing else.
 *
 * Terms, with document 01's words in brackets. A text (sheet) is rows by columns symbols (yarn numbers), one byte each,
 * row by row. A pattern (motif) is height by width symbols, laid out likewise. A window is the height by width part of
 * a text at a corner (row, column); rows and columns count from 0. A bijection (renaming) pairs pattern symbols with
 * text symbols, one to one. A mismatch (clash) is two cells that are alike on one side only, in the pattern or in the
 * window. The listing has every window once, found or refused. At a scale k (document 02's coarse cloth) the pattern is
 * enlarged: each of its cells is drawn as k by k cells. The enlarged pattern has k x height by k x width cells, and its
 * cell (i, j) is the pattern's cell (i / k, j / k), rounded down. It is stored nowhere.
 *
 * Nothing is asked of the values: an input that makes no sense is refused by its number. Of pointers C asks what it
 * always does: one that stands with a length points to as many entries, one that is declared [N] to N of them; none is
 * NULL, also where the length is 0; what is not const overlaps nothing else that is passed: to compose a bijection with
 * itself, pass a copy of its columns as the other one. No function allocates, keeps anything between calls, or touches
 * more than it is lent, so calls on different buffers may run at the same time.
 *
 * A function that can refuse returns COLOURWAY_ACCEPTED or the number of the refusal. A refusal writes what document 01
 * says that it returns, where that is said below, and changes nothing else.
 *
 * Stack. From its caller's frame down a call touches, at most:
 *
 *     colourway_search                                        18 KiB
 *     colourway_count                                         15 KiB
 *     colourway_list                                          22 KiB
 *     colourway_search_scaled                                 19 KiB
 *     colourway_search_scales                                 25 KiB
 *     colourway_check                                         15 KiB
 *     colourway_one_window                                     7 KiB
 *     colourway_bijection_compose                              8 KiB
 *     colourway_bijection_pair                                 4 KiB
 *     colourway_bijection_invert                               3 KiB
 *     colourway_distinct_counts                                2 KiB
 *     colourway_strip_links                                    1 KiB
 *     all others                                             512 bytes
 *
 * Search, count and list take about that much whatever the size of their text, list also where it refuses by 16 or 11.
 * The figures are measured and not proved: the lowest byte touched of a painted stack, rounded up, with the library as
 * the kit named in README.md compiles it. They are from texts of 255 by 255 of eight kinds and patterns with sides from
 * 1 to 255, accepted and refused by 2, of search, list and the searches at scales also by 11, of list by 16; those of
 * bijections from empty, full and damaged columns. A test runs every operation in a thread of 64 KiB. What memcpy,
 * memmove and memset take is in them, but not the 4 KiB that the dynamic linker takes once, at the first call of each,
 * in a program that binds lazily (-Wl,-z,now spares them).
 *
 * The first draft of document 01, in full:
 *
 *     #include <stdio.h>
 *     #include "colourway.h"
 *
 *     int main(void) {
 *         const uint8_t text[6] = {7, 7, 3, 3, 7, 7}, pattern[4] = {1, 1, 2, 1};
 *         uint16_t links[4], counts[2], fields[7];
 *         uint8_t flags[2], listing[64];
 *         size_t totals[3], at[1] = {0};
 *         uint8_t why = colourway_search(text, 6, 2, 3, pattern, 4, 2, 2,
 *             links, 4, counts, 2, flags, 2, listing, 64, totals);
 *         if (why != COLOURWAY_ACCEPTED) {
 *             printf("refused %d\n", why);
 *             return 1;
 *         }
 *         while (colourway_read(listing, totals[2], at[0], fields, at) == COLOURWAY_ACCEPTED)
 *             printf("kind %d: %d %d ..\n", fields[0], fields[1], fields[2]);
 *         printf("%zu found, %zu refused, %zu bytes\n", totals[0], totals[1], totals[2]);
 *         return 0;
 *     }
 *
 * It prints a line for each of the kinds 1, 2, 2, 3 and 5, and then '1 found, 1 refused, 21 bytes'.
 *
 * The search also comes in two: count, allocate, list. So the listing gets just the room that it needs, and none where
 * the number of matches is enough. With <stdlib.h>, and no array listing, in place of the call above:
 *
 *         uint8_t why = colourway_count(text, 6, 2, 3, pattern, 4, 2, 2,
 *             links, 4, counts, 2, flags, 2, totals);
 *         if (why != COLOURWAY_ACCEPTED)
 *             return 1;
 *         uint8_t *listing = malloc(totals[2]);
 *         if (listing == NULL)
 *             return 1;
 *         why = colourway_list(text, 6, 2, 3, pattern, 4, 2, 2,
 *             flags, 2, listing, totals[2], totals);
 *
 * A pattern of 1 by 2 cells, 1 2, at scale 2 is 1 1 2 2 / 1 1 2 2. It matches the left one of the two windows of this
 * text, and again one found, one refused and 21 bytes are printed:
 *
 *         const uint8_t text[10] = {7, 7, 3, 3, 3, 7, 7, 3, 3, 3}, pattern[2] = {1, 2};
 *         uint16_t links[8], counts[2];
 *         uint8_t why = colourway_search_scaled(text, 10, 2, 5, pattern, 2, 1, 2, 2,
 *             links, 8, counts, 2, flags, 2, listing, 64, totals);
 */
#ifndef COLOURWAY_H
#define COLOURWAY_H

#include <stddef.h>
#include <stdint.h>

#ifdef __cplusplus
extern "C" {
#endif

/*
 * The refusals by number: document 01's, and those that document 02's requests add. Each is given when its condition
 * holds and no earlier one in the order of its function does.
 */
enum colourway_refusal {
    /* Nothing is refused. */
    COLOURWAY_ACCEPTED = 0,
    /* The program alone: fewer than 4 size bytes. */
    COLOURWAY_SIZES_MISSING = 1,
    /* A side is 0 or above 255. */
    COLOURWAY_SIDE_RANGE = 2,
    /* The cells given are not rows x columns in number. */
    COLOURWAY_CELL_COUNT = 3,
    /* The pattern, window or strip is taller or wider than the text. Never given at a scale: there it is 17. */
    COLOURWAY_TOO_LARGE = 4,
    /* The corner, or the strip's column, is beyond the last at which the window or strip fits. */
    COLOURWAY_CORNER_OUTSIDE = 5,
    /* The listing has the wrong form: an unknown kind, a cut record; for the check also a kind that is not due, a
       missing record, or bytes left over. */
    COLOURWAY_LISTING_FORM = 6,
    /* The listing has a record of right form that states what is not so. */
    COLOURWAY_LISTING_FALSE = 7,
    /* The program alone: text or pattern has more than 16,384 cells. */
    COLOURWAY_TOO_MANY_CELLS = 8,
    /* The links buffer is shorter than rows x width; at a scale the width is the enlarged pattern's. */
    COLOURWAY_LINKS_BUFFER_SHORT = 9,
    /* The flags (marks) or the counts (tallies) buffer is shorter than the number of windows. */
    COLOURWAY_WINDOW_BUFFER_SHORT = 10,
    /* The listing buffer is shorter than the listing; at every scale, than all listings together. */
    COLOURWAY_LISTING_BUFFER_SHORT = 11,
    /* The pattern symbol already has another image (mate). */
    COLOURWAY_HAS_OTHER_IMAGE = 12,
    /* The text symbol is already another's image. */
    COLOURWAY_HAS_OTHER_PREIMAGE = 13,
    /* The columns of a bijection disagree or hold a number above 256. */
    COLOURWAY_COLUMNS_DISAGREE = 14,
    /* The cursor is at or past the end of the listing. */
    COLOURWAY_CURSOR_SPENT = 15,
    /* The flag (mark) of some window is not the truth: not 1 where the pattern matches, or not 0 where it does not. */
    COLOURWAY_FLAGS_FALSE = 16,
    /* The scale is 0, or the enlarged pattern is taller or wider than the text; at every scale: no scale fits. */
    COLOURWAY_SCALE_UNFIT = 17
};

/*
 * The links of the strip of that width whose first column is left: for each of its rows x width positions, row by row,
 * the distance back to the nearest earlier position of the strip with the same symbol, or 0. They go to the first rows
 * x width entries of links; the rest stay. Refused by 2, 3, 4, 5, 9, in this order.
 */
uint8_t colourway_strip_links(
    const uint8_t *text, size_t text_length,
    size_t rows, size_t columns,
    size_t width, size_t left,
    uint16_t *links, size_t links_length);

/*
 * The number of different symbols in each window of height by width cells (its tally), row by row of corners. They go
 * to the first entries of counts, one a window, of which there are (rows - height + 1) x (columns - width + 1); the
 * rest stay. Refused by 2, 3, 4, 10, in this order.
 */
uint8_t colourway_distinct_counts(
    const uint8_t *text, size_t text_length,
    size_t rows, size_t columns,
    size_t height, size_t width,
    uint16_t *counts, size_t counts_length);

/*
 * The symbol in cell (i, j) of the window at corner (row, column) of a text with rows of row_width cells, or 256 where
 * the cell lies past the text's end. A column beyond the row width leads into the next row. Never refused.
 */
uint16_t colourway_window_cell(
    const uint8_t *text, size_t text_length,
    uint8_t row_width,
    uint8_t row, uint8_t column,
    uint8_t i, uint8_t j);

/*
 * The set of a pattern's symbols, as four words: bit k of word i is 1 where symbol 64 i + k is in the set. Never
 * refused.
 */
void colourway_symbols(
    const uint8_t *pattern, size_t pattern_length,
    uint64_t words[4]);

/* How many symbols are in a set. Never refused. */
uint32_t colourway_symbols_size(const uint64_t words[4]);

/* The lowest symbol of a set, or 256 where it has none. Never refused. */
uint32_t colourway_symbols_lowest(const uint64_t words[4]);

/* Takes symbol v out of a set; a set without it stays as it is. Never refused. */
void colourway_symbols_without(uint64_t words[4], uint8_t v);

/*
 * A bijection is two columns: entry a of forward is the image (mate) of pattern symbol a, entry c of backward the
 * preimage of text symbol c, and 256 stands for none. Refused, an operation leaves the columns as they were.
 */

/* Makes the columns those of the bijection with no pair, whatever they held. Never refused. */
void colourway_bijection_empty(uint16_t forward[256], uint16_t backward[256]);

/*
 * Pairs (mates) the pattern symbol a with the text symbol c. The same pair again changes nothing. Refused by 14, 12,
 * 13, in this order.
 */
uint8_t colourway_bijection_pair(
    uint16_t forward[256], uint16_t backward[256],
    uint8_t a, uint8_t c);

/* Exchanges the columns. Refused by 14. */
uint8_t colourway_bijection_invert(uint16_t forward[256], uint16_t backward[256]);

/*
 * First the bijection in forward and backward, then the other one: a is paired with c wherever the first gives b at a
 * and the other c at b. The answer takes the place of the first. Refused by 14 if either earns it. The other columns
 * may not be those of the first: pass a copy to compose a bijection with itself.
 */
uint8_t colourway_bijection_compose(
    uint16_t forward[256], uint16_t backward[256],
    const uint16_t other_forward[256], const uint16_t other_backward[256]);

/*
 * Whether the pattern matches the window of its size at corner (row, column). A match leaves in forward and backward
 * the bijection that pairs just the pattern's symbols, and three zeros in mismatch. Otherwise mismatch has 3 (alike in
 * the pattern only) or 4 (alike in the window only), the earlier cell and the later one, each by its position in the
 * pattern, row by row; the columns are those of the bijection with no pair. Refused by 2, 3, 4, 5, in this order, which
 * leave columns and mismatch as they were.
 */
uint8_t colourway_one_window(
    const uint8_t *text, size_t text_length,
    size_t rows, size_t columns,
    const uint8_t *pattern, size_t pattern_length,
    size_t height, size_t width,
    size_t row, size_t column,
    uint16_t forward[256], uint16_t backward[256],
    size_t mismatch[3]);

/*
 * Compares the pattern with every window of the text and lists the answers, row by row of corners. Totals are found,
 * refused, and the listing's length: with d different symbols in the pattern, found x (3 + 3 d) + refused x 7 + 5
 * bytes.
 *
 * Lent are links, at least rows x width entries, in which it leaves zeros; counts and flags (marks), at least an entry
 * a window, of which there are (rows - height + 1) x (columns - width + 1): counts are as colourway_distinct_counts
 * leaves them, a flag is 1 for found and 0 for refused; and the listing. What lies beyond stays.
 *
 * Refused by 2, 3, 4, 9, 10, 11, in this order. 11 writes the length needed to totals[2] and leaves totals[0] and
 * totals[1]; links, counts and flags are as after an accepted search, and the listing buffer is untouched. The others
 * leave everything.
 *
 * The search is colourway_count followed by colourway_list on the flags that it left: the number, totals and every
 * buffer. Where the count refuses, that is the search's answer. It never gives 16.
 */
uint8_t colourway_search(
    const uint8_t *text, size_t text_length,
    size_t rows, size_t columns,
    const uint8_t *pattern, size_t pattern_length,
    size_t height, size_t width,
    uint16_t *links, size_t links_length,
    uint16_t *counts, size_t counts_length,
    uint8_t *flags, size_t flags_length,
    uint8_t *listing, size_t listing_length,
    size_t totals[3]);

/*
 * The first half of the search: compares the pattern with every window of the text and lists nothing. Totals are found,
 * refused, and the length that the listing would have.
 *
 * Lent are links, counts and flags (marks), each as long as for the search. It leaves in them what the search does.
 *
 * Refused by 2, 3, 4, 9, 10, in this order, which leave everything.
 */
uint8_t colourway_count(
    const uint8_t *text, size_t text_length,
    size_t rows, size_t columns,
    const uint8_t *pattern, size_t pattern_length,
    size_t height, size_t width,
    uint16_t *links, size_t links_length,
    uint16_t *counts, size_t counts_length,
    uint8_t *flags, size_t flags_length,
    size_t totals[3]);

/*
 * The second half of the search: writes the listing of a text and a pattern from the flags (marks) of its windows,
 * which colourway_count left or which come from elsewhere. Totals and listing are those of the search. The flags are
 * only read.
 *
 * Refused by 2, 3, 4, 10, 16, 11, in this order: 10 where the flags are fewer than the windows; 16 where the flag of
 * some window is not the truth, which is 1 where the pattern matches it and 0 where it does not, and never 2 to 255.
 * All windows are judged before the listing's room is, and what lies behind the last window's flag counts for nothing.
 * 11 writes the length needed to totals[2] and leaves all else. The others leave everything.
 */
uint8_t colourway_list(
    const uint8_t *text, size_t text_length,
    size_t rows, size_t columns,
    const uint8_t *pattern, size_t pattern_length,
    size_t height, size_t width,
    const uint8_t *flags, size_t flags_length,
    uint8_t *listing, size_t listing_length,
    size_t totals[3]);

/*
 * The search at a scale: compares the enlarged pattern with every window of its size, and lists the answers, row by row
 * of corners. Number, totals and every buffer are those of colourway_search for a text and a stored pattern of scale x
 * height by scale x width cells; but no enlarged pattern is stored, not even a row of it. A mismatch names its cells by
 * row and column in the enlarged pattern. Pairs are the pattern's own symbols, and d in the listing's length is their
 * number. At scale 1 it is the search, but for 17 in place of 4.
 *
 * Lent are links, at least rows x (scale x width) entries, in which it leaves zeros; counts and flags (marks), at least
 * an entry a window, of which there are (rows - scale x height + 1) x (columns - scale x width + 1); and the listing.
 * What lies beyond stays.
 *
 * Refused by 2, 3, 17, 9, 10, 11, in this order. 2 and 3 are of the pattern as it is given; 17 where the scale is 0 or
 * the enlarged pattern is taller or wider than the text, however large the scale; 4 is never given. 11 writes the
 * length needed to totals[2] and leaves totals[0] and totals[1]; links, counts and flags are as after an accepted call,
 * and the listing buffer is untouched. The others leave everything.
 */
uint8_t colourway_search_scaled(
    const uint8_t *text, size_t text_length,
    size_t rows, size_t columns,
    const uint8_t *pattern, size_t pattern_length,
    size_t height, size_t width,
    size_t scale,
    uint16_t *links, size_t links_length,
    uint16_t *counts, size_t counts_length,
    uint8_t *flags, size_t flags_length,
    uint8_t *listing, size_t listing_length,
    size_t totals[3]);

/*
 * The search at every scale that fits, from 1 to K, the lesser of rows / height and columns / width, rounded down. The
 * listings of colourway_search_scaled stand one after the other, that of scale 1 first, each with its own closing.
 * Totals are the sums of found, refused and length. They may be above 65,535, while a closing counts the windows of its
 * own scale, in two bytes each as ever.
 *
 * Lent are links, at least rows x (K x width) entries; counts and flags (marks), at least as many entries as there are
 * windows at scale 1; and the listing. Each scale writes counts and flags afresh from their start, and a larger one has
 * fewer windows. So afterwards the entries of scale K come first, behind them what scale K - 1 left, and so on: entry p
 * is that of window p at the largest scale that has more than p windows. Links are 0 as far as rows x (K x width). What
 * lies beyond stays.
 *
 * Refused by 2, 3, 17, 9, 10, 11, in this order: 17 where the pattern itself is taller or wider than the text; 9 at
 * scale K; 10 at scale 1; 11 where the listing buffer is shorter than all listings together. 11 writes that sum of
 * lengths to totals[2] and leaves totals[0] and totals[1]; links, counts and flags are as after an accepted call, and
 * the listing buffer is untouched. The others leave everything.
 */
uint8_t colourway_search_scales(
    const uint8_t *text, size_t text_length,
    size_t rows, size_t columns,
    const uint8_t *pattern, size_t pattern_length,
    size_t height, size_t width,
    uint16_t *links, size_t links_length,
    uint16_t *counts, size_t counts_length,
    uint8_t *flags, size_t flags_length,
    uint8_t *listing, size_t listing_length,
    size_t totals[3]);

/*
 * The record at the place at of a listing. Fields get its kind and its numbers, then zeros; next gets the place after
 * it:
 *
 *     1 found       window row, column
 *     2 pair        pattern symbol, text symbol
 *     3 mismatch    alike in the pattern only: window row, column; earlier cell row, column; later cell row, column
 *     4 mismatch    alike in the window only: as 3
 *     5 closing     found, refused
 *
 * Refused by 15, 6, in this order, which return the cursor's place: next gets at, and the fields stay.
 */
uint8_t colourway_read(
    const uint8_t *listing, size_t listing_length,
    size_t at,
    uint16_t fields[7],
    size_t next[1]);

/*
 * Whether a listing, whoever wrote it, is one of this text and this pattern. Totals are found and refused. Any true
 * mismatch will do. The listing is all of listing_length bytes: after a search, pass the length that it returned.
 *
 * Refused by 2, 3, 4, in this order, and then by 6 or 7, whichever the first bad record earns. 6 and 7 write to
 * totals[0] the place of the first byte of that record, or the listing's length where a record is missing, and leave
 * totals[1]. The others leave both.
 */
uint8_t colourway_check(
    const uint8_t *text, size_t text_length,
    size_t rows, size_t columns,
    const uint8_t *pattern, size_t pattern_length,
    size_t height, size_t width,
    const uint8_t *listing, size_t listing_length,
    size_t totals[2]);

#ifdef __cplusplus
}
#endif

#endif
