/* A small Lisp: reads texts to pairs, and evaluates them with closures and lists of what names mean. */
#include "program.h"
#define CELLS 40000

typedef struct { int head, tail; } Pair;

/* A value: below 0 a number -1 - n, 0 nothing, up to 255 a name of one letter, and from 256 on a pair. */
static Pair cells[CELLS];
static int used;
static const char *at;

static int pair(int head, int tail) {
    cells[used] = (Pair){head, tail};
    return 256 + used++;
}

static int head(int list) { return cells[list - 256].head; }
static int tail(int list) { return cells[list - 256].tail; }
static int second(int list) { return head(tail(list)); }

static int read_list(void);

static int read_value(void) {
    while (*at == ' ') at++;
    if (*at == '(') return at++, read_list();
    if (*at >= '0' && *at <= '9') {
        int number = 0;
        while (*at >= '0' && *at <= '9') number = number * 10 + (*at++ - '0');
        return -1 - number;
    }
    return *at++;
}

static int read_list(void) {
    while (*at == ' ') at++;
    if (*at == ')') return at++, 0;
    int first = read_value();
    return pair(first, read_list());
}

static int look_up(int name, int scope) {
    for (; scope; scope = tail(scope))
        if (head(head(scope)) == name) return tail(head(scope));
    return 0;
}

static int evaluate(int value, int scope) {
    for (;;) {
        if (value <= 0) return value;
        if (value < 256) return look_up(value, scope);
        int first = head(value), rest = tail(value);
        if (first == '?') { /* (? condition then else) */
            value = evaluate(head(rest), scope) != -1 ? second(rest) : second(tail(rest));
            continue;
        }
        if (first == '\\') return pair('\\', pair(scope, rest)); /* (\ (names) body) */
        if (first == '+' || first == '-' || first == '*' || first == '<') {
            int a = -1 - evaluate(head(rest), scope), b = -1 - evaluate(second(rest), scope);
            return -1 - (first == '+' ? a + b : first == '-' ? a - b : first == '*' ? a * b % 65521 : a < b);
        }
        int function = tail(evaluate(first, scope)), inside = head(function);
        int names = second(function);
        for (; names; names = tail(names), rest = tail(rest))
            inside = pair(pair(head(names), evaluate(head(rest), scope)), inside);
        value = second(tail(function));
        scope = inside;
    }
}

static u32 run(u32 rounds) {
    static const char *const programs[] = {
        "((\\ (f n) (f f n)) (\\ (f n) (? (< n 2) n (+ (f f (- n 1)) (f f (- n 2))))) 13)",
        "((\\ (l) (l l 400 1)) (\\ (l n p) (? n (l l (- n 1) (* p (+ n 3))) p)))",
        "((\\ (t) ((t (t (\\ (x) (* x 3)))) 7)) (\\ (g) (\\ (x) (g (g (g x))))))",
    };
    u32 sum = 0;
    for (u32 round = 0; round < rounds; round++) {
        used = 0;
        at = programs[round % 3];
        sum = sum * 31 + (u32)(-1 - evaluate(read_value(), 0)) + (u32)used;
    }
    return sum;
}

PROGRAM(run(210))
