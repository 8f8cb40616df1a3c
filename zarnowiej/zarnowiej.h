/* The checker's four calls, for C on x86-64. Link with libzarnowiej.a, which
   `zarnowiej/run` writes into target/staticlib; README.md says more.

   Each table and the bytes of a record are passed as an address and a count of
   cells. The addresses are never null, not even for a count of 0; that many
   cells may be read and, where the address is not const, written; and no two
   of them overlap. Beyond this nothing is asked: any lengths, any cells, any
   session and any bytes get an answer, and a refusal changes nothing. */
#ifndef ZARNOWIEJ_H
#define ZARNOWIEJ_H

#include <stddef.h>
#include <stdint.h>

enum {
    ZARNOWIEJ_FORM_TABLE = 3840, /* cells of int32_t: 256 forms of 15 cells */
    ZARNOWIEJ_POOL = 4096,       /* cells of uint16_t: the literals of all lines */
    ZARNOWIEJ_LINE_TABLE = 1024, /* cells of uint16_t: 512 lines of 2 cells */
    ZARNOWIEJ_MOST_LEVELS = 8
};

/* The counts as a level opened. */
typedef struct {
    uint16_t forms;
    uint16_t lines;
    uint16_t literals;
} zarnowiej_mark;

/* How much of each table is in use, how many levels are open, their marks. */
typedef struct {
    uint16_t forms;
    uint16_t lines;
    uint16_t literals;
    uint16_t open;
    zarnowiej_mark marks[ZARNOWIEJ_MOST_LEVELS];
} zarnowiej_session;

/* What start gives: the fresh session; 0, or 1 where a table is too short. */
typedef struct {
    zarnowiej_session session;
    uint16_t refusal;
} zarnowiej_begun;

/* The four values of `what`. */
enum {
    ZARNOWIEJ_REFUSED = 0, /* number: why, as in docs/FORMAT.md; or 1 or 2 */
    ZARNOWIEJ_FORM = 1,    /* number: of the form that was made */
    ZARNOWIEJ_LINE = 2,    /* number: of the line that was made */
    ZARNOWIEJ_LEVEL = 3    /* number: how many levels are open now */
};

/* What feed gives: the session afterwards, and the answer. */
typedef struct {
    zarnowiej_session session;
    uint16_t what;
    uint16_t number;
} zarnowiej_fed;

/* What run gives: the session afterwards; the number of the refusal that
   stopped it, or 0 at the end of the stream; how many records and bytes were
   accepted. */
typedef struct {
    zarnowiej_session session;
    uint16_t stop;
    size_t records;
    size_t bytes;
} zarnowiej_ran;

/* What standing gives: the number of the refusal, or 0 where there is none;
   then 1 for refuted, with the lowest empty line, or 0 for not refuted. What
   is not said is 0. */
typedef struct {
    uint16_t refusal;
    uint16_t refuted;
    uint16_t line;
} zarnowiej_stands;

/* Sets the named cells to 0 and gives the fresh session. */
zarnowiej_begun zarnowiej_start(int32_t *forms, size_t form_cells,
                                uint16_t *pool, size_t pool_cells,
                                uint16_t *lines, size_t line_cells);

/* Takes one record. */
zarnowiej_fed zarnowiej_feed(zarnowiej_session session,
                             int32_t *forms, size_t form_cells,
                             uint16_t *pool, size_t pool_cells,
                             uint16_t *lines, size_t line_cells,
                             const uint8_t *record, size_t record_bytes);

/* Takes records from the front of a stream, up to its end or a refusal. */
zarnowiej_ran zarnowiej_run(zarnowiej_session session,
                            int32_t *forms, size_t form_cells,
                            uint16_t *pool, size_t pool_cells,
                            uint16_t *lines, size_t line_cells,
                            const uint8_t *stream, size_t stream_bytes);

/* Says whether the session is refuted. Writes nothing. */
zarnowiej_stands zarnowiej_standing(zarnowiej_session session,
                                    const int32_t *forms, size_t form_cells,
                                    const uint16_t *pool, size_t pool_cells,
                                    const uint16_t *lines, size_t line_cells);

#endif
