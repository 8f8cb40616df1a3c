/* Calls the checker from C: feeds a refutation record by record, runs over the
   same records on a second session, and tries what must be refused. Prints ok,
   or what differs, and then ends with 1. */
#include <stdio.h>
#include <string.h>

#include "zarnowiej.h"

enum { EXCESS = 1, RECORDS = 7, LONGEST = 57 };

/* The tables, each a cell longer than it must be, and a session over them. */
typedef struct {
    int32_t forms[ZARNOWIEJ_FORM_TABLE + EXCESS];
    uint16_t pool[ZARNOWIEJ_POOL + EXCESS];
    uint16_t lines[ZARNOWIEJ_LINE_TABLE + EXCESS];
    zarnowiej_session session;
} ledger;

/* 3x - 2 and 1 - x are at most 0; once the first and three times the second
   give 1, which is not. Behind a form's constant and first coefficient there
   are zeros. */
static const struct {
    uint8_t bytes[LONGEST];
    size_t count;
    uint16_t what;
    uint16_t number;
} sample[RECORDS] = {
    {{'F', 'M', 1, 0, 0, 254, 255, 255, 255, 3, 0, 0, 0}, 57, ZARNOWIEJ_FORM, 0},
    {{'F', 'M', 1, 0, 0, 1, 0, 0, 0, 255, 255, 255, 255}, 57, ZARNOWIEJ_FORM, 1},
    {{'P', 'M', 1, 0, 0}, 5, ZARNOWIEJ_LINE, 0},
    {{'P', 'M', 1, 2, 0}, 5, ZARNOWIEJ_LINE, 1},
    {{'F', 'K', 2, 0, 0, 1, 0, 0, 0, 1, 0, 3, 0, 0, 0}, 15, ZARNOWIEJ_LINE, 2},
    {{'R', 'S', 0, 0, 0, 0, 2, 0}, 8, ZARNOWIEJ_LINE, 3},
    {{'R', 'S', 1, 0, 1, 0, 3, 0}, 8, ZARNOWIEJ_LINE, 4},
};

static int differences = 0;

static void same(const char *what, size_t found, size_t due)
{
    if (found == due)
        return;
    printf("%s: %zu, but it must be %zu\n", what, found, due);
    differences++;
}

static void same_ledger(const char *what, const ledger *a, const ledger *b)
{
    same(what, memcmp(a, b, sizeof *a) != 0, 0);
}

/* The calls on a ledger, of which so many cells of the line table are lent. */

static uint16_t start(ledger *l, size_t line_cells)
{
    zarnowiej_begun r = zarnowiej_start(l->forms, ZARNOWIEJ_FORM_TABLE + EXCESS,
        l->pool, ZARNOWIEJ_POOL + EXCESS, l->lines, line_cells);
    l->session = r.session;
    return r.refusal;
}

static zarnowiej_fed feed(ledger *l, size_t line_cells, const uint8_t *record, size_t count)
{
    zarnowiej_fed r = zarnowiej_feed(l->session, l->forms, ZARNOWIEJ_FORM_TABLE + EXCESS,
        l->pool, ZARNOWIEJ_POOL + EXCESS, l->lines, line_cells, record, count);
    l->session = r.session;
    return r;
}

static zarnowiej_ran run(ledger *l, size_t line_cells, const uint8_t *stream, size_t count)
{
    zarnowiej_ran r = zarnowiej_run(l->session, l->forms, ZARNOWIEJ_FORM_TABLE + EXCESS,
        l->pool, ZARNOWIEJ_POOL + EXCESS, l->lines, line_cells, stream, count);
    l->session = r.session;
    return r;
}

static zarnowiej_stands standing(const ledger *l, size_t line_cells)
{
    return zarnowiej_standing(l->session, l->forms, ZARNOWIEJ_FORM_TABLE + EXCESS,
        l->pool, ZARNOWIEJ_POOL + EXCESS, l->lines, line_cells);
}

static void same_feed(const char *name, zarnowiej_fed found, uint16_t what, uint16_t number)
{
    same(name, found.what, what);
    same(name, found.number, number);
}

static void same_standing(const char *name, zarnowiej_stands found, uint16_t refusal, uint16_t refuted, uint16_t line)
{
    same(name, found.refusal, refusal);
    same(name, found.refuted, refuted);
    same(name, found.line, line);
}

/* Fresh tables and session; the excess keeps what it had. */
static void begin(ledger *l)
{
    memset(l, 1, sizeof *l);
    same("start", start(l, ZARNOWIEJ_LINE_TABLE + EXCESS), 0);
    same("a form cell after start", (size_t)l->forms[ZARNOWIEJ_FORM_TABLE - 1], 0);
    same("a form cell behind the table", (size_t)l->forms[ZARNOWIEJ_FORM_TABLE], 0x01010101);
    same("a line cell behind the table", l->lines[ZARNOWIEJ_LINE_TABLE], 0x0101);
    same_standing("standing after start", standing(l, ZARNOWIEJ_LINE_TABLE), 0, 0, 0);
}

/* Levels come and go, and leave nothing. */
static void try_levels(ledger *l)
{
    static ledger before;
    before = *l;
    same_feed("a level", feed(l, ZARNOWIEJ_LINE_TABLE, (const uint8_t *)"OP", 2), ZARNOWIEJ_LEVEL, 1);
    same("the mark's lines", l->session.marks[0].lines, before.session.lines);
    same_feed("no level", feed(l, ZARNOWIEJ_LINE_TABLE, (const uint8_t *)"WD", 2), ZARNOWIEJ_LEVEL, 0);
    same_ledger("the ledger after a level", l, &before);
}

/* Refusals, which change nothing. */
static void try_refusals(ledger *l)
{
    static ledger before;
    static const uint8_t withdrawal[] = {'W', 'D'};
    size_t const whole = ZARNOWIEJ_LINE_TABLE, few = ZARNOWIEJ_LINE_TABLE - 1;
    before = *l;
    same_feed("feed with no level", feed(l, whole, withdrawal, 2), ZARNOWIEJ_REFUSED, 13);
    same_feed("feed of no bytes", feed(l, whole, withdrawal, 0), ZARNOWIEJ_REFUSED, 3);
    same_feed("feed on a short table", feed(l, few, withdrawal, 2), ZARNOWIEJ_REFUSED, 1);
    same("run on a short table", run(l, few, withdrawal, 2).stop, 1);
    same_standing("standing of a short table", standing(l, few), 1, 0, 0);
    same_ledger("the ledger after refusals", l, &before);
    same("start of a short table", start(l, few), 1);
    l->session = before.session;
    same_ledger("the tables after a refused start", l, &before);
    l->session.forms = 60000;
    same_feed("feed of a damaged session", feed(l, whole, withdrawal, 2), ZARNOWIEJ_REFUSED, 2);
    l->session = before.session;
}

int main(void)
{
    static ledger one, two;
    uint8_t stream[RECORDS * LONGEST];
    size_t bytes = 0;

    begin(&one);
    for (size_t i = 0; i < RECORDS; i++) {
        zarnowiej_fed r = feed(&one, ZARNOWIEJ_LINE_TABLE + EXCESS, sample[i].bytes, sample[i].count);
        same_feed("feed", r, sample[i].what, sample[i].number);
        memcpy(stream + bytes, sample[i].bytes, sample[i].count);
        bytes += sample[i].count;
    }
    same_standing("standing after feed", standing(&one, ZARNOWIEJ_LINE_TABLE), 0, 1, 4);

    begin(&two);
    zarnowiej_ran r = run(&two, ZARNOWIEJ_LINE_TABLE + EXCESS, stream, bytes);
    same("records", r.records, RECORDS);
    same("bytes", r.bytes, 155);
    same("stop", r.stop, 0);
    same("forms", r.session.forms, 2);
    same("lines", r.session.lines, 5);
    same("literals", r.session.literals, 5);
    same("open", r.session.open, 0);
    same_ledger("the ledgers of feed and of run", &one, &two);

    try_levels(&one);
    try_refusals(&one);
    if (differences == 0)
        puts("ok");
    return differences != 0;
}
