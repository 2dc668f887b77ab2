/* A text editor's two forms of a text, a gap buffer and a piece table, under the same edits. */
#include "program.h"
#define ROOM 32768
#define PIECES 2048

static char text[ROOM];
static u32 gap, after = ROOM;

static struct { u32 begin, length; } pieces[PIECES];
static u32 count;
static char added[ROOM];
static u32 end;

static void move(u32 at) {
    while (gap > at) text[--after] = text[--gap];
    while (gap < at) text[gap++] = text[after++];
}

/* The piece that begins at a place of the text, which is cut in two if need be. */
static u32 cut(u32 at) {
    u32 i = 0;
    while (i < count && at >= pieces[i].length) at -= pieces[i++].length;
    if (at == 0) return i;
    for (u32 k = count++; k > i; k--) pieces[k] = pieces[k - 1];
    pieces[i + 1].begin = pieces[i].begin + at;
    pieces[i + 1].length = pieces[i].length - at;
    pieces[i].length = at;
    return i + 1;
}

static void insert(u32 at, const char *word, u32 size) {
    move(at);
    u32 i = cut(at);
    for (u32 k = count++; k > i; k--) pieces[k] = pieces[k - 1];
    pieces[i].begin = end;
    pieces[i].length = size;
    for (u32 k = 0; k < size; k++) text[gap++] = added[end++] = word[k];
}

static void erase(u32 at, u32 size) {
    move(at);
    after += size;
    u32 first = cut(at), last = cut(at + size);
    for (; last < count; first++, last++) pieces[first] = pieces[last];
    count = first;
}

static u32 compared(void) {
    u32 at = 0, sum = 0, equal = 0;
    for (u32 i = 0; i < count; i++)
        for (u32 k = 0; k < pieces[i].length; k++, at++) {
            char c = added[pieces[i].begin + k];
            equal += c == text[at < gap ? at : at - gap + after];
            sum = (sum << 1 | sum >> 31) + (u8)c;
        }
    return sum ^ (equal - at);
}

static u32 run(u32 rounds) {
    static const char words[] = "the text that somebody writes, changes and deletes again; ";
    u32 sum = 0, state = 7;
    for (u32 round = 0; round < rounds; round++) {
        gap = count = end = 0;
        after = ROOM;
        for (u32 edit = 0; edit < 600; edit++) {
            u32 length = gap + ROOM - after;
            state = state * 1664525u + 1013904223u;
            u32 at = length ? (state >> 8) % length : 0, size = 1 + (state >> 5) % 30;
            if (edit % 3 == 2 && at + size < length) erase(at, size);
            else insert(at, words + (state >> 27), size & 15);
            if (edit % 20 == 0) sum = sum * 31 + compared();
        }
    }
    return sum;
}

PROGRAM(run(30))
