// Iterators and operators of one's own: ranges that are chained, lazily made, and a maze that is carved and walked in.
#include "program.hh"

template <typename Range, typename F> struct Mapped {
    Range range;
    F function;
    bool next() { return range.next(); }
    auto value() const { return function(range.value()); }
};

template <typename Range, typename F> struct Filtered {
    Range range;
    F test;
    bool next() { while (range.next()) if (test(range.value())) return true; return false; }
    auto value() const { return range.value(); }
};

struct Count {
    u32 at, end;
    bool next() { return ++at < end; }
    u32 value() const { return at; }
};

template <typename Range, typename F> Mapped<Range, F> map(Range range, F function) { return {range, function}; }
template <typename Range, typename F> Filtered<Range, F> filter(Range range, F test) { return {range, test}; }
template <typename Range, typename S, typename F> S fold(Range range, S sum, F step) {
    while (range.next()) sum = step(sum, range.value());
    return sum;
}

struct Place {
    int x, y;
    Place operator+(Place other) const { return {x + other.x, y + other.y}; }
    bool operator==(Place other) const { return x == other.x && y == other.y; }
};

static const Place ways[4] = {{1, 0}, {0, 1}, {-1, 0}, {0, -1}};

template <int W, int H> class Maze {
    u8 open[H][W];
    bool inside(Place p) const { return p.x >= 0 && p.y >= 0 && p.x < W && p.y < H; }

public:
    void carve(u32 state) {
        Place stack[W * H];
        u32 depth = 0;
        for (auto &row : open) for (u8 &cell : row) cell = 0;
        for (stack[depth++] = {0, 0}; depth > 0;) {
            Place here = stack[depth - 1];
            u32 tried = 0;
            while (tried != 15) {
                state = state * 1664525u + 1013904223u;
                u32 way = state >> 30;
                Place next = here + ways[way];
                tried |= 1u << way;
                if (!inside(next) || open[next.y][next.x]) continue;
                open[here.y][here.x] |= (u8)(1 << way);
                open[next.y][next.x] |= (u8)(1 << (way ^ 2));
                stack[depth++] = next, tried = 0;
                break;
            }
            depth -= tried == 15;
        }
    }
    u32 walk(Place from, Place to) const {
        u32 steps = 0;
        for (u32 way = 0; !(from == to); steps++) {
            way = (way + 3) & 3;
            while (!(open[from.y][from.x] >> way & 1)) way = (way + 1) & 3;
            from = from + ways[way];
        }
        return steps;
    }
};

static Maze<24, 24> maze;

static u32 run(u32 rounds) {
    u32 sum = 0;
    for (u32 round = 0; round < rounds; round++) {
        maze.carve(round);
        for (int i = 0; i < 12; i++) sum = sum * 31 + maze.walk({i, 0}, {23 - i, 23});
        auto odd = filter(Count{round, round + 3000}, [](u32 n) { return n * 2654435761u >> 30 != 0; });
        auto squares = map(odd, [round](u32 n) { return (u64)n * n % (round + 9973); });
        sum ^= fold(filter(squares, [](u64 n) { return n % 3 != 1; }), sum, [](u32 s, u64 n) { return s * 5 + (u32)n; });
    }
    return sum;
}

PROGRAM(run(90))
