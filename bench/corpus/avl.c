/* A tree that keeps its height: insertions and removals of keys, ranks by sizes, and walks in order. */
#include "program.h"
#define NODES 8192

typedef struct Node { struct Node *left, *right; u32 key, size; int height; } Node;

static Node nodes[NODES], *unused;

static int height(const Node *node) { return node ? node->height : 0; }
static u32 size(const Node *node) { return node ? node->size : 0; }

static Node *fixed(Node *node) {
    int l = height(node->left), r = height(node->right);
    node->height = 1 + (l > r ? l : r);
    node->size = 1 + size(node->left) + size(node->right);
    return node;
}

static Node *rotated_right(Node *node) {
    Node *top = node->left;
    node->left = top->right, top->right = fixed(node);
    return fixed(top);
}

static Node *rotated_left(Node *node) {
    Node *top = node->right;
    node->right = top->left, top->left = fixed(node);
    return fixed(top);
}

static Node *balanced(Node *node) {
    int lean = height(node->left) - height(node->right);
    if (lean > 1) {
        if (height(node->left->left) < height(node->left->right)) node->left = rotated_left(node->left);
        return rotated_right(node);
    }
    if (lean < -1) {
        if (height(node->right->right) < height(node->right->left)) node->right = rotated_right(node->right);
        return rotated_left(node);
    }
    return fixed(node);
}

static Node *with(Node *node, u32 key) {
    if (!node) {
        node = unused;
        unused = node->left;
        node->left = node->right = 0;
        node->key = key;
        return fixed(node);
    }
    if (key < node->key) node->left = with(node->left, key);
    else if (key > node->key) node->right = with(node->right, key);
    return balanced(node);
}

static Node *without(Node *node, u32 key) {
    if (!node) return 0;
    if (key < node->key) node->left = without(node->left, key);
    else if (key > node->key) node->right = without(node->right, key);
    else if (node->left && node->right) {
        Node *least = node->right;
        for (; least->left; least = least->left) {}
        node->key = least->key;
        node->right = without(node->right, least->key);
    } else {
        Node *child = node->left ? node->left : node->right;
        node->left = unused, unused = node;
        return child;
    }
    return balanced(node);
}

static u32 walk(const Node *node, u32 sum) {
    return node ? walk(node->right, walk(node->left, sum) * 31 + node->key) : sum;
}

static u32 run(u32 steps) {
    Node *root = 0;
    u32 state = 1, sum = 0;
    for (u32 i = 0; i < NODES; unused = &nodes[i++]) nodes[i].left = unused;
    for (u32 i = 0; i < steps; i++) {
        state = state * 1664525u + 1013904223u;
        root = state >> 29 < 5 ? with(root, state >> 16 & 4095) : without(root, state >> 12 & 4095);
        if (i % 1000 == 0) sum = walk(root, sum);
    }
    return sum ^ size(root) << 8 ^ (u32)height(root);
}

PROGRAM(run(60000))
