/* A machine of registers whose instructions are functions in a table: a sort by exchange, and a product of polynomials. */
#include "program.h"

typedef struct Machine Machine;
typedef u32 (*Step)(Machine *machine, const u8 *at);
struct Machine { u32 pc, steps, reg[16], memory[256]; };

static u32 set(Machine *m, const u8 *at) { return m->reg[at[1]] = at[2]; }
static u32 copy(Machine *m, const u8 *at) { return m->reg[at[1]] = m->reg[at[2]]; }
static u32 add(Machine *m, const u8 *at) { return m->reg[at[1]] += m->reg[at[2]]; }
static u32 add_byte(Machine *m, const u8 *at) { return m->reg[at[1]] += (u32)(signed char)at[2]; }
static u32 multiply(Machine *m, const u8 *at) { return m->reg[at[1]] *= m->reg[at[2]]; }
static u32 load(Machine *m, const u8 *at) { return m->reg[at[1]] = m->memory[m->reg[at[2]] & 255]; }
static u32 store(Machine *m, const u8 *at) { return m->memory[m->reg[at[2]] & 255] = m->reg[at[1]]; }
static u32 less(Machine *m, const u8 *at) { return m->reg[15] = m->reg[at[1]] < m->reg[at[2]]; }
static u32 jump_if(Machine *m, const u8 *at) { return m->reg[15] ? m->pc = at[1] : 0; }
static u32 jump_unless(Machine *m, const u8 *at) { return m->reg[15] ? 0 : (m->pc = at[1]); }
static u32 halt(Machine *m, const u8 *at) { return m->pc = 255u + at[1]; }

static const Step table[] = {set, copy, add, add_byte, multiply, load, store, less, jump_if, jump_unless, halt};
enum { SET, COPY, ADD, ADD_BYTE, MULTIPLY, LOAD, STORE, LESS, JUMP_IF, JUMP_UNLESS, HALT };

/* Registers 1 and 2 are places, 3 the number of words, 4 and 5 what is compared. */
static const u8 sorting[] = {
    SET, 3, 60, SET, 1, 0,
    /* 6 */ COPY, 2, 1, ADD_BYTE, 2, 1,
    /* 12 */ LESS, 2, 3, JUMP_UNLESS, 39, 0, LOAD, 4, 1, LOAD, 5, 2, LESS, 5, 4, JUMP_UNLESS, 36, 0, STORE, 5, 1, STORE, 4, 2,
    /* 36 */ ADD_BYTE, 2, 1,
    /* 39 */ LESS, 2, 3, JUMP_IF, 12, 0, ADD_BYTE, 1, 1, LESS, 1, 3, JUMP_IF, 6, 0, HALT, 0, 0,
};
static const u8 product[] = {
    SET, 3, 20, SET, 1, 0, SET, 9, 100, SET, 8, 60,
    /* 12 */ SET, 2, 0,
    /* 15 */ COPY, 6, 2, ADD, 6, 8, LOAD, 4, 1, LOAD, 5, 6, MULTIPLY, 4, 5, COPY, 6, 1, ADD, 6, 2, ADD, 6, 9, LOAD, 7, 6,
    ADD, 7, 4, STORE, 7, 6, ADD_BYTE, 2, 1, LESS, 2, 3, JUMP_IF, 15, 0, ADD_BYTE, 1, 1, LESS, 1, 3, JUMP_IF, 12, 0, HALT, 0, 0,
};

static u32 execute(Machine *m, const u8 *code) {
    u32 last = 0;
    for (m->pc = 0; m->pc < 255; m->steps++) {
        const u8 *at = code + m->pc;
        m->pc += 3;
        last ^= table[*at](m, at);
    }
    return last;
}

static u32 run(u32 rounds) {
    static Machine m;
    u32 sum = 0, state = 1;
    for (u32 round = 0; round < rounds; round++) {
        for (u32 i = 0; i < 256; i++) m.memory[i] = (state = state * 1664525u + 1013904223u) >> 12;
        sum = sum * 31 + execute(&m, sorting);
        sum = sum * 31 + (execute(&m, product) ^ m.memory[119] ^ m.memory[30]) + m.steps;
    }
    return sum;
}

PROGRAM(run(50))
