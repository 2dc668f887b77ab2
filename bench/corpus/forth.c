/* A Forth with words that are threads of addresses: fib, a sieve and the greatest common divisor. */
#include "program.h"

enum { LIT, ADD, SUB, MUL, MOD, DUP, DROP, SWAP, OVER, ROT, FETCH, STORE, LESS, ZERO, JUMP, UNLESS, EXIT, FIRST };

static const char *const source =
    ": fib dup 2 < if else dup 1 - fib swap 2 - fib + then ; "
    ": gcd begin dup while swap over mod repeat drop ; "
    ": sieve 100 begin dup 900 < while 1 over ! 1 + repeat drop "
    "2 begin dup 30 < while dup 100 + @ if dup dup * begin dup 800 < while 0 over 100 + ! over + repeat drop then "
    "1 + repeat drop 0 2 begin dup 800 < while swap over 100 + @ + swap 1 + repeat drop ; "
    ": main 17 fib sieve 7919 104729 gcd 120 84 gcd + + + ; ";
static const char *const names[] = {"", "+", "-", "*", "mod", "dup", "drop", "swap", "over", "rot", "@", "!", "<", "0="};

static int code[1024], stack[64], calls[64], memory[1024];
static u32 size;
static struct { const char *name; u32 begin; } defined[16];
static u32 words;

static int same(const char *word, const char *name) {
    while (*name && *name != ' ' && *word == *name) word++, name++;
    return (*name == 0 || *name == ' ') && *word == ' ';
}

static void word(const char *at, u32 *open, u32 *depth) {
    if (*at >= '0' && *at <= '9' && !same(at, "0=")) {
        int number = 0;
        while (*at >= '0' && *at <= '9') number = number * 10 + (*at++ - '0');
        code[size++] = LIT, code[size++] = number;
    } else if (same(at, ";")) code[size++] = EXIT;
    else if (same(at, "begin")) open[(*depth)++] = size;
    else if (same(at, "if") || same(at, "while")) code[size++] = UNLESS, open[(*depth)++] = size++;
    else if (same(at, "else")) {
        code[size++] = JUMP, size++;
        code[open[*depth - 1]] = (int)size;
        open[*depth - 1] = size - 1;
    } else if (same(at, "then")) code[open[--*depth]] = (int)size;
    else if (same(at, "repeat")) {
        code[size++] = JUMP, code[size++] = (int)open[*depth - 2];
        code[open[*depth - 1]] = (int)size;
        *depth -= 2;
    } else {
        for (u32 i = ADD; i <= ZERO; i++)
            if (same(at, names[i])) code[size++] = (int)i;
        for (u32 i = 0; i < words; i++)
            if (same(at, defined[i].name)) code[size++] = (int)(FIRST + defined[i].begin);
    }
}

static int execute(u32 pc) {
    int *top = stack, *back = calls;
    for (*back = -1;;) {
        int op = code[pc++], t = *top;
        switch (op) {
        case LIT: *++top = code[pc++]; break;
        case ADD: *--top += t; break;
        case SUB: *--top -= t; break;
        case MUL: *--top *= t; break;
        case MOD: *--top %= t; break;
        case DUP: *++top = t; break;
        case DROP: top--; break;
        case SWAP: *top = top[-1], top[-1] = t; break;
        case OVER: top++, *top = top[-2]; break;
        case ROT: *top = top[-2], top[-2] = top[-1], top[-1] = t; break;
        case FETCH: *top = memory[t]; break;
        case STORE: memory[t] = top[-1], top -= 2; break;
        case LESS: --top, *top = *top < t; break;
        case ZERO: *top = t == 0; break;
        case JUMP: pc = (u32)code[pc]; break;
        case UNLESS: top--, pc = t ? pc + 1 : (u32)code[pc]; break;
        case EXIT: if (*back < 0) return t; pc = (u32)*back--; break;
        default: *++back = (int)pc, pc = (u32)op - FIRST;
        }
    }
}

static u32 run(u32 rounds) {
    u32 open[8], depth = 0, sum = 0;
    for (const char *at = source; *at; at++) {
        if (*at == ':') at += 2, defined[words].name = at, defined[words++].begin = size;
        else word(at, open, &depth);
        while (*at != ' ') at++;
    }
    for (u32 round = 0; round < rounds; round++) sum = sum * 31 + (u32)execute(defined[words - 1].begin);
    return sum;
}

PROGRAM(run(30))
