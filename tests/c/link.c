/* Links the archive and tries each call once accepted and once refused, with words past every buffer that must stay. */
#include <stdio.h>
#include <string.h>

#include "kantifero.h"

#define CANARY UINT32_C(0xC0FFEE11)
#define ROW 20
#define ROOM 6 /* rows of a buffer, the canaries past it not counted */

static int failures;

static void same(const char *what, const uint32_t *got, const uint32_t *due, size_t words)
{
    for (size_t i = 0; i < words; i++) {
        if (got[i] != due[i]) {
            fprintf(stderr, "%s: word %zu is %lu, not %lu\n", what, i, (unsigned long)got[i], (unsigned long)due[i]);
            failures++;
            return;
        }
    }
}

static void answered(const char *what, const uint32_t answer[8], uint32_t number, uint32_t side, uint32_t place)
{
    const uint32_t due[8] = {number, side, place, 0, 0, 0, 0, 0};
    same(what, answer, due, 8);
}

static void paint(uint32_t *words, size_t count)
{
    for (size_t i = 0; i < count; i++)
        words[i] = CANARY;
}

static void painted(const char *what, const uint32_t *words, size_t count)
{
    for (size_t i = 0; i < count; i++) {
        if (words[i] != CANARY) {
            fprintf(stderr, "%s: word %zu of what must stay is %lu\n", what, i, (unsigned long)words[i]);
            failures++;
            return;
        }
    }
}

/* The root and, where first is not 0, a file p whose digest begins with that word. Gives the words. */
static size_t tree(uint32_t *table, uint32_t first)
{
    memset(table, 0, 2 * ROW * sizeof *table);
    if (first == 0)
        return ROW;
    table[ROW] = 1;
    table[ROW + 1] = 1;
    table[ROW + 2] = UINT32_C(0x70000000);
    table[ROW + 11] = 5;
    table[ROW + 12] = first;
    return 2 * ROW;
}

/* All that a reconciliation is lent, with canaries past each part. */
struct lent {
    uint32_t archive[ROOM * ROW + 1], left[ROOM * ROW + 1], right[ROOM * ROW + 1];
    uint32_t list[7], tally[4], answer[9];
};

static struct lent lent;

static void reconcile_in(uint32_t profile, const uint32_t *o, size_t ow, const uint32_t *l, size_t lw, const uint32_t *r, size_t rw,
                         size_t list_words)
{
    paint((uint32_t *)&lent, sizeof lent / sizeof(uint32_t));
    kantifero_reconcile(profile, o, ow, l, lw, r, rw, lent.archive, ROOM * ROW, lent.left, ROOM * ROW, lent.right, ROOM * ROW,
                        lent.list, list_words, lent.tally, lent.answer);
}

static void reconcile(const uint32_t *o, size_t ow, const uint32_t *l, size_t lw, const uint32_t *r, size_t rw, size_t list_words)
{
    reconcile_in(KANTIFERO_EXACT, o, ow, l, lw, r, rw, list_words);
}

static void kept(const char *what, size_t archive, size_t left, size_t right, size_t entries)
{
    painted(what, lent.archive + archive, ROOM * ROW + 1 - archive);
    painted(what, lent.left + left, ROOM * ROW + 1 - left);
    painted(what, lent.right + right, ROOM * ROW + 1 - right);
    painted(what, lent.list + 3 * entries, 7 - 3 * entries);
    painted(what, lent.tally + 3, 1);
    painted(what, lent.answer + 8, 1);
}

static void try_reconcile(void)
{
    uint32_t none[2 * ROW], f[2 * ROW], g[2 * ROW];
    size_t n = tree(none, 0), m = tree(f, 0xF), k = tree(g, 0xA);

    reconcile(none, n, f, m, none, n, 6); /* C2 */
    same("C2", lent.answer, (const uint32_t[8]){0, 0, 0, 2, 2, 2, 1, 0}, 8);
    same("C2 archive", lent.archive, f, m);
    same("C2 left", lent.left, f, m);
    same("C2 right", lent.right, f, m);
    same("C2 list", lent.list, (const uint32_t[3]){2, 1, KANTIFERO_NO_ROW}, 3);
    same("C2 tally", lent.tally, (const uint32_t[3]){0, 1, 0}, 3);
    kept("C2", m, m, m, 1);

    reconcile(none, n, f, m, g, k, 6); /* C4 */
    same("C4", lent.answer, (const uint32_t[8]){0, 0, 0, 1, 2, 2, 1, 0}, 8);
    same("C4 archive", lent.archive, none, n);
    same("C4 left", lent.left, f, m);
    same("C4 right", lent.right, g, k);
    same("C4 list", lent.list, (const uint32_t[3]){3, 1, 1}, 3);
    same("C4 tally", lent.tally, (const uint32_t[3]){0, 0, 1}, 3);
    kept("C4", n, m, k, 1);

    reconcile(none, n, f, m, g, k, 2); /* a list one word short */
    answered("short list", lent.answer, 3, 4, 0);
    painted("short list tally", lent.tally, 3);
    kept("short list", 0, 0, 0, 0);

    g[ROW + 1] = 2;
    reconcile(none, n, f, m, g, k, 6);
    answered("bad right", lent.answer, 2, 3, 1);
    painted("bad right tally", lent.tally, 3);
    kept("bad right", 0, 0, 0, 0);
}

static void try_check(void)
{
    uint32_t table[2 * ROW], answer[9];
    size_t n = tree(table, 0xF);

    paint(answer, 9);
    kantifero_check(KANTIFERO_EXACT, table, n, answer);
    answered("check", answer, 0, 0, 0);
    kantifero_check(KANTIFERO_EXACT, table, n - 1, answer);
    answered("check of 39 words", answer, 1, 1, 0);
    table[ROW] = 2;
    kantifero_check(KANTIFERO_EXACT, table, n, answer);
    answered("check of a depth", answer, 2, 1, 1);
    painted("check", answer + 8, 1);
}

static void try_move(void)
{
    uint32_t none[2 * ROW], f[2 * ROW], room[2 * ROW + 1], names[16][8] = {{0}}, answer[9];
    size_t n = tree(none, 0), m = tree(f, 0xF);

    names[0][0] = UINT32_C(0x70000000);
    paint(answer, 9);
    paint(room, 2 * ROW + 1);
    kantifero_move(KANTIFERO_EXACT, none, n, f, m, names, 1, room, 2 * ROW - 1, answer);
    answered("move with no room", answer, 3, 2, 0);
    kantifero_move(KANTIFERO_EXACT, none, n, f, m, names, 0, room, 2 * ROW, answer);
    answered("move at no path", answer, 5, 0, 0);
    painted("moves refused", room, 2 * ROW + 1);
    kantifero_move(KANTIFERO_EXACT, none, n, f, m, names, 1, room, 2 * ROW, answer);
    answered("move", answer, 0, 0, 2);
    same("move", room, f, m);
    painted("move", room + m, 1);
    names[1][0] = UINT32_C(0x70000000);
    kantifero_move(KANTIFERO_EXACT, none, n, f, m, names, 2, room, 2 * ROW, answer);
    answered("move with no parent", answer, 4, 0, 0);
    painted("moves", answer + 8, 1);
}

static void try_carried(void)
{
    uint32_t none[2 * ROW], f[2 * ROW], answer[9];
    size_t n = tree(none, 0), m = tree(f, 0xF);

    paint(answer, 9);
    kantifero_carried(KANTIFERO_EXACT, f, m, none, n, 2, 1, KANTIFERO_NO_ROW, answer);
    answered("carried from left", answer, 2, ROW, ROW);
    kantifero_carried(KANTIFERO_EXACT, none, n, f, m, 1, KANTIFERO_NO_ROW, 1, answer);
    answered("carried from right", answer, 3, ROW, ROW);
    kantifero_carried(KANTIFERO_EXACT, f, m, f, m, 3, 1, 1, answer);
    answered("carried by a clash", answer, 0, 0, 0);
    kantifero_carried(KANTIFERO_EXACT, f, m, none, n - 1, 2, 1, KANTIFERO_NO_ROW, answer);
    answered("carried from a bad table", answer, 0, 0, 0);
    painted("carried", answer + 8, 1);
}

static const char listing[] =
    "#mtree\n. type=dir\np type=file size=5 sha256digest=0000000f00000000000000000000000000000000000000000000000000000000\n..\n";

static void try_write(void)
{
    uint32_t f[2 * ROW], answer[9];
    uint8_t text[sizeof listing], fresh[sizeof listing];
    size_t m = tree(f, 0xF), bytes = sizeof listing - 1;

    paint(answer, 9);
    memset(text, 0xC7, sizeof text);
    memset(fresh, 0xC7, sizeof fresh);
    kantifero_write(KANTIFERO_EXACT, f, m, text, bytes - 1, answer);
    answered("write with no room", answer, 3, 1, 0);
    if (memcmp(text, fresh, sizeof text) != 0)
        failures++, fprintf(stderr, "write with no room: the text is not as it was\n");
    kantifero_write(KANTIFERO_EXACT, f, m, text, bytes, answer);
    answered("write", answer, 0, 0, (uint32_t)bytes);
    if (memcmp(text, listing, bytes) != 0 || text[bytes] != 0xC7)
        failures++, fprintf(stderr, "write: another text\n");
    painted("write", answer + 8, 1);
}

static void try_read(void)
{
    uint32_t f[2 * ROW], table[3 * ROW + 1], zeros[3 * ROW] = {0}, answer[9];
    size_t m = tree(f, 0xF), bytes = sizeof listing - 1;

    paint(answer, 9);
    paint(table, 3 * ROW + 1);
    kantifero_read(KANTIFERO_EXACT, (const uint8_t *)listing, bytes - 1, table, 3 * ROW, answer);
    answered("read with no LF", answer, 6, 0, 0);
    same("read with no LF", table, zeros, 3 * ROW);
    kantifero_read(KANTIFERO_EXACT, (const uint8_t *)listing, bytes, table, ROW, answer);
    answered("read with no room", answer, 3, 0, 3);
    same("read with no room", table, zeros, ROW);
    paint(table, 3 * ROW);
    kantifero_read(KANTIFERO_EXACT, (const uint8_t *)listing, bytes, table, 3 * ROW, answer);
    answered("read", answer, 0, 0, 2);
    same("read", table, f, m);
    same("read past the rows", table + m, zeros, 3 * ROW - m);
    painted("read", table + 3 * ROW, 1);
    painted("read", answer + 8, 1);
}

/* Left's p and right's P are one file, and two where every byte counts; any word but 0 is the folded profile. */
static void try_folded(void)
{
    uint32_t f[2 * ROW], g[2 * ROW], none[2 * ROW];
    size_t n = tree(none, 0), m = tree(f, 0xF), k = tree(g, 0xF);

    g[ROW + 2] = UINT32_C(0x50000000);
    for (uint32_t profile = KANTIFERO_FOLDED; profile != 0; profile *= 2) {
        reconcile_in(profile, none, n, f, m, g, k, 6);
        same("folded", lent.answer, (const uint32_t[8]){0, 0, 0, 2, 2, 2, 0, 0}, 8);
        same("folded archive", lent.archive, f, m);
        same("folded left", lent.left, f, m);
        same("folded right", lent.right, g, k);
        kept("folded", m, m, k, 0);
    }
    reconcile(none, n, f, m, g, k, 6);
    same("not folded", lent.answer, (const uint32_t[8]){0, 0, 0, 3, 3, 3, 2, 0}, 8);
}

int main(void)
{
    try_check();
    try_reconcile();
    try_move();
    try_carried();
    try_write();
    try_read();
    try_folded();
    if (failures != 0)
        fprintf(stderr, "%d failed\n", failures);
    return failures != 0;
}
