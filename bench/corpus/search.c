/* Where a word is in a text: by comparing, by Knuth, Morris and Pratt, by Boyer, Moore and Horspool, and by rolling hashes. */
#include "program.h"
#define SIZE 50000

static char text[SIZE + 1];
static const char *const words[] = {"needle", "abracadabra", "aaaaaab", "the lazy dog", "zz", "in a haystack of words"};

static u32 length_of(const char *word) {
    u32 length = 0;
    while (word[length]) length++;
    return length;
}

static u32 plainly(const char *word, u32 length) {
    u32 found = 0;
    for (u32 i = 0; i + length <= SIZE; i++) {
        u32 k = 0;
        while (k < length && text[i + k] == word[k]) k++;
        if (k == length) found = found * 3 + i;
    }
    return found;
}

static u32 by_borders(const char *word, u32 length) {
    u32 border[32], found = 0, k = 0;
    border[0] = 0;
    for (u32 i = 1; i < length; i++) {
        while (k > 0 && word[i] != word[k]) k = border[k - 1];
        border[i] = k += word[i] == word[k];
    }
    k = 0;
    for (u32 i = 0; i < SIZE; i++) {
        while (k > 0 && (k == length || text[i] != word[k])) k = border[k - 1];
        k += text[i] == word[k];
        if (k == length) found = found * 3 + i + 1 - length;
    }
    return found;
}

static u32 by_skips(const char *word, u32 length) {
    static u32 skip[256];
    u32 found = 0;
    for (u32 i = 0; i < 256; i++) skip[i] = length;
    for (u32 i = 0; i + 1 < length; i++) skip[(u8)word[i]] = length - 1 - i;
    for (u32 i = 0; i + length <= SIZE; i += skip[(u8)text[i + length - 1]]) {
        u32 k = length;
        while (k > 0 && text[i + k - 1] == word[k - 1]) k--;
        if (k == 0) found = found * 3 + i;
    }
    return found;
}

static u32 by_hashes(const char *word, u32 length) {
    u32 wanted = 0, here = 0, top = 1, found = 0;
    for (u32 i = 0; i < length; i++) {
        wanted = wanted * 257 + (u8)word[i];
        here = here * 257 + (u8)text[i];
        if (i > 0) top *= 257;
    }
    for (u32 i = 0; i + length <= SIZE; i++) {
        if (here == wanted) found = found * 3 + i;
        here = (here - (u8)text[i] * top) * 257 + (u8)text[i + length];
    }
    return found;
}

static u32 run(u32 rounds) {
    u32 sum = 0, state = 11;
    for (u32 round = 0; round < rounds; round++) {
        for (u32 i = 0; i < SIZE;) {
            state = state * 1664525u + 1013904223u;
            if (state >> 29 == 0) {
                for (const char *c = words[(state >> 8) % 6]; *c && i < SIZE; c++) text[i++] = *c;
            } else {
                text[i++] = (char)('a' + (state >> 16) % (state >> 27 & 1 ? 26 : 2));
            }
        }
        for (u32 w = 0; w < 6; w++) {
            u32 length = length_of(words[w]), one = plainly(words[w], length);
            sum = sum * 31 + one + (by_borders(words[w], length) != one) + (by_skips(words[w], length) != one) * 2 +
                  (by_hashes(words[w], length) != one) * 4;
        }
    }
    return sum;
}

PROGRAM(run(2))
