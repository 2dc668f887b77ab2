/* A parser of JSON by recursive descent: builds nodes, sums them up, and writes them again. */
#include "program.h"

enum { NONE, FALSE_, TRUE_, NUMBER, TEXT, LIST, OBJECT };
typedef struct Node { u8 kind; int number; u32 begin, length; struct Node *first, *next, *key; } Node;

static const char source[] =
    "{\"id\": 4711, \"name\": \"a \\\"quoted\\\" name\", \"tags\": [\"red\", \"green\", \"blue\", null, true, false],"
    " \"items\": [{\"sku\": \"A-1\", \"count\": 12, \"price\": 1999}, {\"sku\": \"B-22\", \"count\": -3, \"price\": 250},"
    " {\"sku\": \"C-333\", \"count\": 100, \"price\": 5, \"notes\": [[], {}, [1, 2, 3, [4, 5, [6]]]]}],"
    " \"address\": {\"street\": \"Long Street 17\", \"city\": \"Old Town\", \"zip\": 90210, \"geo\": [52520, 13405]},"
    " \"empty\": \"\", \"escape\": \"line\\nnext\\ttab\", \"last\": -2147483647}";

static Node nodes[512];
static char out[2048];
static u32 used, written, at, sum;

static Node *fresh(u8 kind) {
    nodes[used] = (Node){.kind = kind};
    return nodes + used++;
}

static void blanks(void) {
    while (source[at] == ' ' || source[at] == '\n' || source[at] == '\t') at++;
}

static Node *text(void) {
    Node *node = fresh(TEXT);
    node->begin = ++at;
    while (source[at] != '"') at += source[at] == '\\' ? 2 : 1;
    node->length = at++ - node->begin;
    return node;
}

static Node *number(void) {
    Node *node = fresh(NUMBER);
    int sign = source[at] == '-' ? at++, -1 : 1;
    while (source[at] >= '0' && source[at] <= '9') node->number = node->number * 10 + sign * (source[at++] - '0');
    return node;
}

static Node *value(void);
static Node *members(u8 kind, char end) {
    Node *node = fresh(kind), **last = &node->first;
    at++;
    for (blanks(); source[at] != end; blanks()) {
        Node *key = kind == OBJECT ? text() : 0;
        if (key) at++;
        *last = value();
        (*last)->key = key;
        last = &(*last)->next;
        while (source[at] == ' ' || source[at] == ',') at++;
    }
    return at++, node;
}

static Node *value(void) {
    blanks();
    switch (source[at]) {
    case '{': return members(OBJECT, '}');
    case '[': return members(LIST, ']');
    case '"': return text();
    case 't': at += 4; return fresh(TRUE_);
    case 'f': at += 5; return fresh(FALSE_);
    case 'n': at += 4; return fresh(NONE);
    default: return number();
    }
}

static void put(const Node *text) {
    for (u32 i = 0; i < text->length; i++) out[written++] = source[text->begin + i];
}

static void write(const Node *node) {
    if (node->key) put(node->key);
    sum = sum * 31 + node->kind + (u32)node->number;
    if (node->kind == TEXT) put(node);
    for (const Node *child = node->first; child; child = child->next) write(child);
}

static u32 run(u32 rounds) {
    for (u32 round = 0; round < rounds; round++) {
        used = at = written = 0;
        write(value());
        for (u32 i = 0; i < written; i++) sum = (sum << 5 | sum >> 27) ^ (u8)out[i];
    }
    return sum;
}

PROGRAM(run(3000))
