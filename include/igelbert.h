/* The proved calls of Igelbert, for C and for any language that can call C.
 *
 * Every call returns 0, or the number of a refusal (docs/RULES.md, section 4). Results are written
 * to `out`, a buffer of `out_len` 64-bit words that the caller provides: the answer's words first,
 * and zero in every word after them. On a refusal every word is zero, and the number is all there
 * is. A buffer that is too small for the answer is refused 12. A signed number is written as its
 * two's complement, a double as its IEEE 754 bits.
 *
 * Times are in nanoseconds: an instant counts from the start of the plan, a span is the time between
 * two instants. Places, distances, footprints and follow buffers are in metres, velocities in metres
 * per second, seconds only where a comment says so.
 *
 * `out` points to `out_len` words that nothing else uses during the call. The calls are compiled for
 * x86-64; link libplan_exports.a, libgeometry_exports.a, libnumber_exports.a and, for a year's holds,
 * libhold_exports.a, which tools/static-libraries writes to target/staticlib.
 */
#ifndef IGELBERT_H
#define IGELBERT_H

#include <stddef.h>
#include <stdint.h>

/* The version of these calls. CHANGELOG.md says what changed with each; before 1.0.0 a new minor
 * version may change a call. */
#define IGELBERT_VERSION_MAJOR 0
#define IGELBERT_VERSION_MINOR 1
#define IGELBERT_VERSION_PATCH 0
#define IGELBERT_VERSION "0.1.0"

/* The refusals by name (docs/RULES.md, 4.1 to 4.12, 4.16 and 4.17). */
enum igelbert_refusal {
    IGELBERT_NUMBER = 1,
    IGELBERT_SHAPE = 2,
    IGELBERT_BACKWARD = 3,
    IGELBERT_NO_LINE = 4,
    IGELBERT_CREEP = 5,
    IGELBERT_APART = 6,
    IGELBERT_STRAYED = 7,
    IGELBERT_STUCK = 8,
    IGELBERT_LATE = 9,
    IGELBERT_FULL = 10,
    IGELBERT_SPENT = 11,
    IGELBERT_NO_ROOM = 12,
    IGELBERT_LINE = 14,
    IGELBERT_OVERFLOW = 15
};

#ifdef __cplusplus
extern "C" {
#endif

/* The root of x, rounded to the nearest double, as one word (docs/RULES.md, 6.5). A zero is its own
 * root. Refused 1: NaN, an infinity, or below zero. */
uint64_t igelbert_square_root(double x, uint64_t *out, size_t out_len);

/* Time: instants and spans in nanoseconds (docs/RULES.md, 6.1 to 6.4). One word each. */

/* The span from the instant `earlier` to the instant `later`. Refused 7: an instant or the span is
 * past 2^53 ns in size. */
uint64_t igelbert_span_between(int64_t earlier, int64_t later, uint64_t *out, size_t out_len);

/* The instant a span after an instant. Refused 7: one of the three is past 2^53 ns in size. */
uint64_t igelbert_instant_after(int64_t instant, int64_t span, uint64_t *out, size_t out_len);

/* The seconds of an instant, and of a span, as a double. */
uint64_t igelbert_seconds_of_instant(int64_t instant, uint64_t *out, size_t out_len);
uint64_t igelbert_seconds_of_span(int64_t span, uint64_t *out, size_t out_len);

/* The instant, and the span, of a number of seconds, cut toward zero. Refused 7: NaN, or more than
 * 2^53 nanoseconds in size. */
uint64_t igelbert_instant_of_seconds(double seconds, uint64_t *out, size_t out_len);
uint64_t igelbert_span_of_seconds(double seconds, uint64_t *out, size_t out_len);

/* Shapes (docs/RULES.md, section 7). A profile is a footprint and a follow buffer; a leg goes from
 * (x0, y0) at t0 to (x1, y1) at t1. Refused 1: a number outside the table of
 * the domain (section 3). */

/* How near two carts may stand, that distance times itself, and how far the one stays behind the
 * other: one double. */
uint64_t igelbert_critical_distance(double footprint, double follow, double footprint2,
    double follow2, uint64_t *out, size_t out_len);
uint64_t igelbert_critical_distance_squared(double footprint, double follow, double footprint2,
    double follow2, uint64_t *out, size_t out_len);
uint64_t igelbert_follow_distance(double footprint, double follow, double footprint2,
    double follow2, uint64_t *out, size_t out_len);

/* The box of a leg of the agent's, grown by the footprint: left, bottom, right, top. Refused 3: the
 * leg ends before it starts. */
uint64_t igelbert_box_of_leg(double footprint, double follow, int64_t t0, double x0, double y0,
    int64_t t1, double x1, double y1, uint64_t *out, size_t out_len);

/* The box of an obstacle's waypoints, grown by its footprint: 1 and the four bounds, or 0 where
 * there is no waypoint. Refused 2: lists of different lengths, a single waypoint, more than 257,
 * or times that do not rise. */
uint64_t igelbert_box_of_obstacle(double footprint, double follow, const int64_t *times,
    size_t times_len, const double *xs, size_t xs_len, const double *ys, size_t ys_len,
    uint64_t *out, size_t out_len);

/* Whether two boxes overlap, 1 or 0; boxes that touch do. */
uint64_t igelbert_boxes_overlap(double left, double bottom, double right, double top, double left2,
    double bottom2, double right2, double top2, uint64_t *out, size_t out_len);

/* Motion and proximity (docs/RULES.md, sections 8 and 9). Refused 1 as above; 3: the agent's leg
 * ends before it starts. */

/* Where a leg of the agent's is at t, and how fast it goes: 1, x, y and the velocity's x and y; or
 * 0 where its times do not hold t. */
uint64_t igelbert_position(int64_t t0, double x0, double y0, int64_t t1, double x1, double y1,
    int64_t t, uint64_t *out, size_t out_len);

/* When the agent's leg, from 0 to 1, and an obstacle's, from 2 to 3, come within a squared distance
 * and when they leave it: 0; 1 and the entry; or 2, the entry and the exit. Refused 2: the
 * obstacle's times do not rise; 5: they creep; 6: their times lie 100,000 ns or more apart. */
uint64_t igelbert_detect_proximity(double limit, int64_t t0, double x0, double y0, int64_t t1,
    double x1, double y1, int64_t t2, double x2, double y2, int64_t t3, double x3, double y3,
    uint64_t *out, size_t out_len);

/* Whether the two are in conflict, 1 or 0, each in the box of its own footprint. Refused as the
 * proximity of the two is. */
uint64_t igelbert_have_conflict(double footprint, double follow, int64_t t0, double x0, double y0,
    int64_t t1, double x1, double y1, double footprint2, double follow2, int64_t t2, double x2,
    double y2, int64_t t3, double x3, double y3, double limit, uint64_t *out, size_t out_len);

/* When something that goes from (px, py) by (vx, vy) is within a squared distance of (rx, ry): 0,
 * or 2 and two doubles, in seconds. */
uint64_t igelbert_stationary_proximity(double rx, double ry, double px, double py, double vx,
    double vy, double limit, uint64_t *out, size_t out_len);

/* Whether the agent's leg is safe among obstacles, 0, or in conflict, 1. The waypoints of all
 * obstacles stand one after another in `times`, `xs` and `ys`; `starts` says for each obstacle
 * where its own begin; `numbers` has three for each: footprint, follow buffer, conflict distance
 * squared. Refused 2: lists that do not fit one another, more than 32 obstacles or 256 legs, a
 * single waypoint, times that do not rise; 5: a leg creeps, and is met before any conflict. */
uint64_t igelbert_is_safe_segment(double footprint, double follow, int64_t t0, double x0, double y0,
    int64_t t1, double x1, double y1, const size_t *starts, size_t starts_len,
    const double *numbers, size_t numbers_len, const int64_t *times, size_t times_len,
    const double *xs, size_t xs_len, const double *ys, size_t ys_len, uint64_t *out,
    size_t out_len);

/* Where the agent may wait on its leg among the obstacles of such a table, and until when: the
 * count of hints, at most 64, then six words each, ranked by contour and reach: contour (a span),
 * reach (a double), x and y (doubles), the instant until which to wait, the obstacle's number
 * (docs/RULES.md, sections 10 and 11). A buffer of 385 words is enough. Refused 4: the leg lasts
 * under 10 ns, is shorter than 1e-8, or meets an obstacle's leg that has no direction; 7: a time
 * or a place went too far; 10: there are more than 64 hints. */
uint64_t igelbert_wait_hints(double footprint, double follow, int64_t t0, double x0, double y0,
    int64_t t1, double x1, double y1, const size_t *starts, size_t starts_len,
    const double *numbers, size_t numbers_len, const int64_t *times, size_t times_len,
    const double *xs, size_t xs_len, const double *ys, size_t ys_len, uint64_t *out,
    size_t out_len);

/* When the agent may arrive at (x, y), from t on, and stand there among the obstacles of such a
 * table: how many times there are, at most 289, by how many sweeps they were found, then the
 * times, each an instant (docs/RULES.md, section 12). A buffer of 291 words is enough. Refused 5:
 * an obstacle's leg creeps; 8: the search is stuck, a whole sweep of pushes ends where it began. */
uint64_t igelbert_arrival_times(double footprint, double follow, int64_t t, double x, double y,
    const size_t *starts, size_t starts_len, const double *numbers, size_t numbers_len,
    const int64_t *times, size_t times_len, const double *xs, size_t xs_len, const double *ys,
    size_t ys_len, uint64_t *out, size_t out_len);

/* One path of the agent's to the end of its leg for an arrival time, by way of hints in the form
 * that igelbert_wait_hints writes them, with at most `budget` pops. The answer stands in rows of
 * four words: whether there is a path (1 or 0), its pops, its hold (a span) and how many actions
 * it has; then a row for each action: 1, an instant, x and y (doubles) for a move; 2, the
 * obstacle's number, the end of the wait and 0 for a wait (docs/RULES.md, section 13). A buffer of
 * 520 words is enough. Refused 1 and 2 for the hints too; 4: the leg lasts under 10 ns or is
 * shorter than 1e-8; 5 and 6 as the first way's that meets them; 7: a time went too far; 11: the
 * budget is spent. */
uint64_t igelbert_arrival_path(double footprint, double follow, int64_t t0, double x0, double y0,
    int64_t t1, double x1, double y1, int64_t arrival, uint64_t budget, const size_t *starts,
    size_t starts_len, const double *numbers, size_t numbers_len, const int64_t *times,
    size_t times_len, const double *xs, size_t xs_len, const double *ys, size_t ys_len,
    const uint64_t *hints, size_t hints_len, uint64_t *out, size_t out_len);

/* The whole plan for the agent's leg: its hints, the arrival times at its end, and a path for each
 * of them that has one. In `paths` stand rows of four words: how many hints, arrival times, sweeps
 * and paths there are; then for each path its arrival time, its pops, its hold and how many
 * actions it has. In `actions` stand the actions of all paths, a row each as above, one path
 * behind another. Both are all zero on a refusal; 12 where either is too small. 1,160 words are
 * enough for `paths`, four for each action for `actions`. */
uint64_t igelbert_linear_paths(double footprint, double follow, int64_t t0, double x0, double y0,
    int64_t t1, double x1, double y1, uint64_t budget, const size_t *starts, size_t starts_len,
    const double *numbers, size_t numbers_len, const int64_t *times, size_t times_len,
    const double *xs, size_t xs_len, const double *ys, size_t ys_len, uint64_t *paths,
    size_t paths_len, uint64_t *actions, size_t actions_len);

/* The whole plan for a request stream (docs/RULES.md, section 14), as the lines that the program
 * `plan` prints (section 15): 0, with the text in `out`, one byte a letter, and zeros behind it; the
 * text has no zero byte. A refused stream: the number of its refusal, and every byte zero; `plan`
 * prints the number as `refused N`. 12 also where `out` is too small for the text; 164,517 bytes are
 * enough. */
uint64_t igelbert_plan(const uint8_t *stream, size_t stream_len, uint8_t *out, size_t out_len);

/* A year's holding time (docs/RULES.md, section 21): begun in a memory that the caller lends, fed
 * with the text part by part, and finished. Between the calls nothing is kept but that memory: it may
 * be copied, and several years may go on side by side. It is the caller's to keep and not to write
 * to. One text, whose bytes come from wherever they do:
 *
 *     uint64_t memory[IGELBERT_HOLDS_WORDS];
 *     uint8_t report[IGELBERT_HOLDS_REPORT];
 *     uint64_t refused = igelbert_holds_begin(memory, IGELBERT_HOLDS_WORDS);
 *     while (!refused && (len = read(file, part, sizeof part)) > 0)
 *         refused = igelbert_holds_feed(part, len, memory, IGELBERT_HOLDS_WORDS);
 *     if (!refused)
 *         refused = igelbert_holds_finish(memory, IGELBERT_HOLDS_WORDS, report, sizeof report);
 */

/* The words of that memory, and the bytes that are enough for a report. */
#define IGELBERT_HOLDS_WORDS 197
#define IGELBERT_HOLDS_REPORT 5386

/* Begins a year: no line yet. A memory of more words is zero behind the first 197. Refused 12: the
 * memory has fewer; every word is then zero. */
uint64_t igelbert_holds_begin(uint64_t *memory, size_t memory_len);

/* Feeds the next part of the text, of any length, 0 too; how it is cut makes no difference. Refused,
 * with every word of the memory zero: 14: a line is malformed, as soon as that is known, or is the
 * 100,001st; 15: with a line its crew's total leaves the signed numbers of 64 bits; 2: the memory is
 * not that of a year that was begun, or was refused before. */
uint64_t igelbert_holds_feed(const uint8_t *part, size_t part_len, uint64_t *memory,
    size_t memory_len);

/* The report where the text ends here, as the lines that the program `holds` prints: 0, with the text
 * in `out`, one byte a letter, and zeros behind it; the text has no zero byte. The memory stays as it
 * is: the year may be fed on, and finished again. Refused, with every byte of `out` zero: 14 and 15
 * for a last line without a newline; 2 as above; 12: `out` is too small for the text. */
uint64_t igelbert_holds_finish(const uint64_t *memory, size_t memory_len, uint8_t *out,
    size_t out_len);

#ifdef __cplusplus
}
#endif

#endif
