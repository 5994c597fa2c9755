/* Torrivask's C face: the board, the fill, the sheet, and the float routines. Link with libtorrivask.a (rt lib in crates/torrivask), x86-64.
 *
 * Every function answers 0, or the number of a refusal. A refusal writes its place to *place and nothing else that was lent; an answer
 * of 0 leaves *place as it was. A list is a pointer and its length, in elements or rows; at length 0 nothing is read or written through the
 * pointer, which may be NULL. No other pointer may be. A bool is 0 or 1. Nothing that is lent may overlap.
 */
#ifndef TORRIVASK_H
#define TORRIVASK_H

#include <stdbool.h>
#include <stddef.h>
#include <stdint.h>

#ifdef __cplusplus
extern "C" {
#endif

/* ---- The board, the fill, the sheet
 *
 * A sheet is bytes (docs/SHEET.md): a space, 256 tracks and 1,024 items at most, and so 22,034 bytes at most. As numbers it is rows, a tag
 * and the number beside it for each of:
 *    space, six numbers: constraint (1 definite; 2 min-content, 3 max-content), inner size (1 given; 0 absent); then stretch, 0 or 1; last
 *       the axis, 0 inline (columns) or 1 block (rows)
 *    track, four: minimum (1 fixed; 2 auto, 3 min-content, 4 max-content), maximum (1 fixed, 5 fit-content, 6 fr in thousandths; 2 auto,
 *       3 min-content, 4 max-content)
 *    item, seven: first start + 65536 * span, both below 65536; then minimum, min-content and max-content contribution (each 1 given;
 *       0 absent)
 * The tags behind a semicolon carry no number, and the one beside them is 0. So no number ever says that something is absent.
 *
 * Refusals. 1 to 5 front to back: the first byte at fault decides, and the place is a byte of the sheet. Then 6 to 10 by number, each of 7
 * to 10 at its lowest record: the space is 0, track t is 1 + t, item i is 1 + tracks + i.
 *    1  a count or a record is not wholly there; the sheet's length
 *    2  bytes follow the items; the first of them
 *    3  the space's count is not 1, or more tracks or items than above; the count's first byte
 *    4  a tag, a stretch or an axis that is not listed; its byte
 *    5  a number beside a tag that carries none is not 0; its first byte
 *    6  too few sizes, rows or bytes are lent; place 0
 *    7  a number over its limit: 65,535 for fixed sizes, fit-content arguments and contributions, 100,000 for factors, 16,777,215 for
 *       spaces
 *    8  span 0, or start + span over the number of tracks
 *    9  a contribution is absent, in an item that spans a track that is not fixed at both ends
 *   10  a contribution is below an earlier one, in such an item
 *   11  retired: no call gives it, and no later refusal takes it
 *   12  the lists of a fill are of unequal length, or longer than 256; place 0
 */

/* The numbers of a space's row, and the bytes of the longest sheet. Declare rows and buffers by these names: where a sheet grows, a caller
 * that is compiled again grows with it. The row had five numbers before the axis came: a caller that is not compiled again lends one too
 * few, and neither compiler nor linker says so. */
#define TORRIVASK_SPACE_NUMBERS 6
#define TORRIVASK_LONGEST_SHEET 22034

/* axes, the last number of a space's row. The axis makes a difference only under min-content without an inner size: fr tracks then grow in
 * the block axis as under max-content, and stay at their bases in the inline axis. */
#define TORRIVASK_INLINE 0u
#define TORRIVASK_BLOCK 1u

/* Sizes a sheet, in dots. Base and growth limit of track t become sizes[t]; those past the tracks keep what they hold. *tracks becomes the
 * number of tracks, *rounds that of the passes in which the tracks are maximised. *definite becomes whether there is a free space: where
 * there is, it goes to *free, negative for an overfull board; where there is none, *free keeps what it holds. Refuses by 1 to 10. */
uint32_t torrivask_board(const uint8_t *sheet, size_t sheet_length, uint32_t (*sizes)[2], size_t size_count, uint32_t *tracks,
                         bool *definite, int32_t *free, uint32_t *rounds, uint64_t *place);

/* Hands dots out to the affected tracks, to each at most its room; a track that is not limited takes any amount, and its room is not read.
 * Every gain is written, 0 where a track is not affected. *leftover becomes what no track took, *rounds the number of passes. The four
 * lists, gains too, are of one length, 256 at most. Refuses by 12, then by 7: more than 16,777,215 dots at place 0, a limited track's
 * room that is more at 1 + track. */
uint32_t torrivask_fill(uint32_t dots, const bool *affected, size_t affected_count, const bool *limited, size_t limited_count,
                        const uint32_t *rooms, size_t room_count, uint32_t *gains, size_t gain_count, uint32_t *leftover,
                        uint32_t *rounds, uint64_t *place);

/* Reads a sheet into rows. *track_count becomes the number of tracks, *item_count that of items; rows past them keep what they hold. Refuses by 1 to
 * 5, then by 6 where either list has too few rows. */
uint32_t torrivask_read_sheet(const uint8_t *sheet, size_t sheet_length, uint32_t space[TORRIVASK_SPACE_NUMBERS],
                              uint32_t (*tracks)[4], size_t track_rows, uint32_t (*items)[7], size_t item_rows,
                              uint32_t *track_count, uint32_t *item_count, uint64_t *place);

/* Writes the sheet of these rows; its counts are the lengths of the lists. *length becomes the sheet's length; bytes past it keep what they
 * hold. Refuses by 3 to 5 as the sheet's own bytes would show them, so the space comes before the tracks, then by 6. */
uint32_t torrivask_write_sheet(const uint32_t space[TORRIVASK_SPACE_NUMBERS], const uint32_t (*tracks)[4], size_t track_count,
                               const uint32_t (*items)[7], size_t item_count, uint8_t *bytes, size_t byte_count, uint64_t *length,
                               uint64_t *place);

/* *end becomes where the sheet at the front of these bytes ends, by its three counts; that may be behind the bytes that are there. Nothing
 * but the counts is read. Refuses by 1 and 3. */
uint32_t torrivask_sheet_end(const uint8_t *bytes, size_t byte_count, uint64_t *end, uint64_t *place);

/* ---- The float routines. Lists of one call are of one length, 256 at most.
 *
 * A track is five floats: base size, growth limit, planned increase of the base size, planned increase of the growth limit, incurred
 * increase.
 *
 * Domain: sizes and spaces 0 to 1,000,000; limits the same or +infinity; proportions 0.001 to 1,000; factors the same or 0. No sign bit is
 * set, not even that of -0.0.
 *
 * Refusals, the first that fits:
 *    4  a kind of space or an alignment that is not listed; place 0
 *   12  lists of unequal length, or longer than 256; place 0
 *   14  a gutter adjustment of 3 tracks, or of an even number that is not 0; place 0
 *   13  a float outside its domain; its index: first the scalars in the order of the call, then the lists one after another, a
 *       track's five floats as above. A scalar that is not given keeps its index and is not looked at. Every float of a list is.
 */

/* kinds of space: the size beside the kind is read where it is definite */
#define TORRIVASK_DEFINITE 1u
#define TORRIVASK_MIN_CONTENT 2u
#define TORRIVASK_MAX_CONTENT 3u

/* alignments */
#define TORRIVASK_NORMAL 0u
#define TORRIVASK_START 1u
#define TORRIVASK_END 2u
#define TORRIVASK_FLEX_START 3u
#define TORRIVASK_FLEX_END 4u
#define TORRIVASK_CENTER 5u
#define TORRIVASK_STRETCH 6u
#define TORRIVASK_SPACE_BETWEEN 7u
#define TORRIVASK_SPACE_EVENLY 8u
#define TORRIVASK_SPACE_AROUND 9u

/* The base size takes its planned increase, which becomes 0. */
uint32_t torrivask_flush_planned_base_size_increases(float track[5], uint64_t *place);

/* The growth limit takes its planned increase, which becomes 0; an infinite limit starts anew from the base size. *growable becomes mark where
 * there was an increase, else false. */
uint32_t torrivask_flush_planned_growth_limit_increases(float track[5], bool *growable, bool mark, uint64_t *place);

/* What a gutter gains by the alignment, to *gutter. given: there is an inner size. known: a track has an estimate. Where one has none, or there is
 * no inner size, it is 0. Scalars: inner (0). Lists: estimates. */
uint32_t torrivask_compute_alignment_gutter_adjustment(uint32_t alignment, bool given, float inner, const bool *known, size_t knowns,
                                                       const float *estimates, size_t estimate_count, float *gutter, uint64_t *place);

/* Space handed out by proportion to the affected tracks, up to their limits; the incurred increases grow. What is left goes to *left.
 * Scalars: space (0). Lists: tracks, proportions, sizes, limits. */
uint32_t torrivask_distribute_space_up_to_limits(float space, float (*tracks)[5], size_t track_count, const bool *affected,
                                                 size_t affected_count, const float *proportions, size_t proportion_count,
                                                 const float *sizes, size_t size_count, const float *limits, size_t limit_count,
                                                 float *left, uint64_t *place);

/* The size of an fr, to *size. Scalars: space (0). Lists: tracks, factors. */
uint32_t torrivask_find_size_of_fr(const float (*tracks)[5], size_t track_count, const bool *flexible, size_t flexible_count,
                                   const float *factors, size_t factor_count, float space, float *size, uint64_t *place);

/* The base sizes grow to the smaller of growth limit and fit-content limit, +infinity where there is none. Scalars: space (0). Lists: tracks,
 * fits. */
uint32_t torrivask_maximise_tracks(float (*tracks)[5], size_t track_count, const float *fits, size_t fit_count, uint32_t kind, float space,
                                   uint64_t *place);

/* The auto tracks share what is free. given: there is a minimum size, which stands in where the space is not definite. Scalars: minimum (0),
 * space (1). Lists: tracks. */
uint32_t torrivask_stretch_auto_tracks(float (*tracks)[5], size_t track_count, const bool *autos, size_t auto_count, bool given, float minimum,
                                       uint32_t kind, float space, uint64_t *place);

#ifdef __cplusplus
}
#endif

#endif
