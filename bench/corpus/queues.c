/* Rings of messages between stations that take turns: a bank with tellers, a token ring, a running median. */
#include "program.h"
#define ROOM 256

typedef struct { u32 from, work, born; } Message;
typedef struct { Message items[ROOM]; u32 head, tail; } Ring;

static Ring rings[8];

static u32 count(const Ring *ring) { return ring->tail - ring->head; }

static int put(Ring *ring, const Message *message) {
    if (count(ring) == ROOM) return 0;
    ring->items[ring->tail++ % ROOM] = *message;
    return 1;
}

static Message *take(Ring *ring) { return count(ring) ? &ring->items[ring->head++ % ROOM] : 0; }

static u32 bank(u32 ticks, u32 state) {
    u32 waited = 0, lost = 0, busy[8];
    for (u32 i = 0; i < 8; i++) busy[i] = rings[i].head = rings[i].tail = 0;
    for (u32 tick = 0; tick < ticks; tick++) {
        state = state * 1664525u + 1013904223u;
        if (state >> 30) {
            u32 best = 0;
            for (u32 i = 1; i < 8; i++)
                if (count(&rings[i]) < count(&rings[best])) best = i;
            Message message;
            message.from = state & 7, message.work = 1 + (state >> 8) % 19, message.born = tick;
            lost += !put(&rings[best], &message);
        }
        for (u32 i = 0; i < 8; i++) {
            if (busy[i] > 0) {
                busy[i]--;
                continue;
            }
            Message *message = take(&rings[i]);
            if (!message) continue;
            busy[i] = message->work;
            waited += tick - message->born;
        }
    }
    return waited * 31 + lost;
}

static u32 token_ring(u32 hops) {
    u32 sum = 0, at = 0;
    Message token;
    for (u32 i = 0; i < 8; i++) rings[i].head = rings[i].tail = 0;
    token.from = 1, token.work = 7, token.born = 0;
    put(&rings[0], &token);
    for (u32 hop = 0; hop < hops; hop++) {
        Message *message = take(&rings[at]);
        message->work = message->work * 5 + hop;
        message->from ^= at;
        sum = sum * 31 + message->work;
        at = (at + 1 + (message->work >> 9 & 1)) & 7;
        put(&rings[at], message);
    }
    return sum;
}

static u32 medians(u32 samples, u32 state) {
    static u32 window[33], sorted[33];
    u32 used = 0, sum = 0;
    for (u32 i = 0; i < samples; i++) {
        state = state * 1103515245u + 12345u;
        u32 sample = state >> 16, old = window[i % 33], at = 0;
        if (used == 33) {
            while (sorted[at] != old) at++;
            for (used--; at < used; at++) sorted[at] = sorted[at + 1];
        }
        window[i % 33] = sample;
        for (at = used++; at > 0 && sorted[at - 1] > sample; at--) sorted[at] = sorted[at - 1];
        sorted[at] = sample;
        sum = sum * 3 + sorted[used / 2];
    }
    return sum;
}

static u32 run(u32 rounds) {
    u32 sum = 0;
    for (u32 round = 0; round < rounds; round++)
        sum = sum * 31 + (bank(20000, round) ^ token_ring(40000) ^ medians(10000, round));
    return sum;
}

PROGRAM(run(4))
