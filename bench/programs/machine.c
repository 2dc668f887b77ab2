/* An interpreter of a small stack machine: a loop with a jump table. */
#include "program.h"

enum { PUSH, ADD, SUB, MUL, DUP, SWAP, LOAD, STORE, JUMP_IF, HALT };

static const u8 code[] = {
    PUSH, 0, STORE, 0, PUSH, 250, STORE, 1,
    /* 8 */ LOAD, 0, LOAD, 1, DUP, MUL, ADD, PUSH, 3, MUL, STORE, 0,
    LOAD, 1, PUSH, 1, SUB, STORE, 1, LOAD, 1, JUMP_IF, 8, LOAD, 0, HALT,
};

static u32 interpret(u32 rounds) {
    static u32 stack[16], vars[4];
    u32 sum = 0;
    for (u32 round = 0; round < rounds; round++) {
        u32 pc = 0, sp = 0, going = 1;
        while (going) {
            switch (code[pc++]) {
            case PUSH: stack[sp++] = code[pc++]; break;
            case ADD: sp--; stack[sp - 1] += stack[sp]; break;
            case SUB: sp--; stack[sp - 1] -= stack[sp]; break;
            case MUL: sp--; stack[sp - 1] *= stack[sp]; break;
            case DUP: stack[sp] = stack[sp - 1]; sp++; break;
            case SWAP: { u32 t = stack[sp - 1]; stack[sp - 1] = stack[sp - 2]; stack[sp - 2] = t; break; }
            case LOAD: stack[sp++] = vars[code[pc++]]; break;
            case STORE: vars[code[pc++]] = stack[--sp]; break;
            case JUMP_IF: if (stack[--sp]) pc = code[pc]; else pc++; break;
            default: going = 0;
            }
        }
        sum = sum * 31 + stack[0];
    }
    return sum;
}

PROGRAM(interpret(700))
