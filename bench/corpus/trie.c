/* A trie of made-up words: insertions, look-ups, the words with a prefix, and those with one wrong letter. */
#include "program.h"
#define NODES 12000

typedef struct { unsigned short child[26]; unsigned short count; } Node;

static Node nodes[NODES];
static u32 used = 1;

static u32 make(u8 *word, u32 state) {
    static const char consonants[] = "bdfklmnprst", vowels[] = "aeiou";
    u32 length = 3 + state % 5;
    for (u32 i = 0; i < length; i++) {
        state = state * 1103515245u + 12345u;
        word[i] = (u8)((i & 1 ? vowels[(state >> 16) % 5] : consonants[(state >> 16) % 11]) - 'a');
    }
    return length;
}

static void insert(const u8 *word, u32 length) {
    u32 node = 0;
    for (u32 i = 0; i < length; i++) {
        if (!nodes[node].child[word[i]]) {
            if (used == NODES) return;
            nodes[node].child[word[i]] = (unsigned short)used++;
        }
        node = nodes[node].child[word[i]];
    }
    nodes[node].count++;
}

static u32 below(u32 node) {
    u32 count = nodes[node].count;
    for (u32 c = 0; c < 26; c++)
        if (nodes[node].child[c]) count += below(nodes[node].child[c]);
    return count;
}

static u32 near(u32 node, const u8 *word, u32 length, u32 wrong) {
    if (length == 0) return nodes[node].count;
    u32 sum = 0;
    for (u32 c = 0; c < 26; c++) {
        u32 child = nodes[node].child[c], miss = c != word[0];
        if (child && miss <= wrong) sum += near(child, word + 1, length - 1, wrong - miss);
    }
    return sum;
}

static u32 run(u32 words) {
    u8 word[8];
    u32 sum = 0;
    for (u32 i = 0; i < words; i++) insert(word, make(word, i * 2654435761u >> 7));
    for (u32 i = 0; i < words; i++) {
        u32 length = make(word, i * 40503u);
        sum = sum * 3 + near(0, word, length, 1);
        if (i % 16 == 0) {
            u32 node = nodes[0].child[word[0]];
            sum ^= below(node ? nodes[node].child[word[1]] : 0);
        }
    }
    return sum + used;
}

PROGRAM(run(2000))
