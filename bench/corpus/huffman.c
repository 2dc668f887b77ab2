/* Huffman coding of bytes of a skewed source: the tree by a heap, the codes, bits out, and bits in again. */
#include "program.h"
#define SIZE 50000

static u8 plain[SIZE], bits[SIZE * 2], again[SIZE];
static u32 weights[511], heap[256], codes[256], lengths[256];
static int left[511], right[511];
static u32 heap_size, nodes;

static void sink(u32 at) {
    for (;;) {
        u32 child = 2 * at + 1;
        if (child >= heap_size) return;
        if (child + 1 < heap_size && weights[heap[child + 1]] < weights[heap[child]]) child++;
        if (weights[heap[at]] <= weights[heap[child]]) return;
        u32 t = heap[at];
        heap[at] = heap[child], heap[child] = t;
        at = child;
    }
}

static u32 least(void) {
    u32 found = heap[0];
    heap[0] = heap[--heap_size];
    sink(0);
    return found;
}

static void add(u32 node) {
    u32 at = heap_size++;
    while (at > 0 && weights[heap[(at - 1) / 2]] > weights[node]) {
        heap[at] = heap[(at - 1) / 2];
        at = (at - 1) / 2;
    }
    heap[at] = node;
}

static void assign(int node, u32 code, u32 length) {
    if (left[node] < 0) {
        codes[node] = code;
        lengths[node] = length;
        return;
    }
    assign(left[node], code << 1, length + 1);
    assign(right[node], code << 1 | 1, length + 1);
}

static int tree(void) {
    heap_size = 0, nodes = 256;
    for (u32 i = 0; i < 256; i++) weights[i] = 1;
    for (u32 i = 0; i < SIZE; i++) weights[plain[i]]++;
    for (u32 i = 0; i < 256; add(i++)) left[i] = -1;
    while (heap_size > 1) {
        u32 a = least(), b = least();
        weights[nodes] = weights[a] + weights[b];
        left[nodes] = (int)a;
        right[nodes] = (int)b;
        add(nodes++);
    }
    return (int)heap[0];
}

static u32 run(u32 rounds) {
    u32 sum = 0, state = 99;
    for (u32 round = 0; round < rounds; round++) {
        for (u32 i = 0; i < SIZE; i++) {
            state = state * 1103515245u + 12345u;
            plain[i] = (u8)((state >> 16 & 15) * (state >> 20 & 15) + (state >> 30));
        }
        int root = tree();
        assign(root, 0, 0);
        u32 out = 0;
        for (u32 i = 0; i < SIZE; i++)
            for (u32 k = lengths[plain[i]]; k-- > 0; out++) {
                if ((out & 7) == 0) bits[out >> 3] = 0;
                bits[out >> 3] |= (u8)((codes[plain[i]] >> k & 1) << (out & 7));
            }
        u32 in = 0;
        for (u32 i = 0; i < SIZE; i++) {
            int node = root;
            for (; left[node] >= 0; in++) node = bits[in >> 3] >> (in & 7) & 1 ? right[node] : left[node];
            again[i] = (u8)node;
            sum = sum * 17 + again[i] + (again[i] == plain[i]);
        }
        sum ^= out;
    }
    return sum;
}

PROGRAM(run(3))
