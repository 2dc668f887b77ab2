// Virtual calls: a tree of expressions is evaluated, printed and copied by visitors, and animals in a pen take turns.
#include "program.hh"

struct Number; struct Sum; struct Product; struct Choice;
struct Visitor {
    virtual void see(const Number &) = 0;
    virtual void see(const Sum &) = 0;
    virtual void see(const Product &) = 0;
    virtual void see(const Choice &) = 0;
};

struct Term {
    virtual ~Term() = default;
    virtual u32 value(u32 x) const = 0;
    virtual void meet(Visitor &visitor) const = 0;
};

struct Number : Term {
    u32 number;
    explicit Number(u32 n) : number(n) {}
    u32 value(u32 x) const override { return number ? number : x; }
    void meet(Visitor &visitor) const override { visitor.see(*this); }
};

struct Pair : Term {
    Term *a, *b;
    Pair(Term *one, Term *two) : a(one), b(two) {}
    ~Pair() override { delete a; delete b; }
};

struct Sum : Pair {
    using Pair::Pair;
    u32 value(u32 x) const override { return a->value(x) + b->value(x); }
    void meet(Visitor &visitor) const override { visitor.see(*this); }
};

struct Product : Pair {
    using Pair::Pair;
    u32 value(u32 x) const override { return a->value(x) * b->value(x + 1); }
    void meet(Visitor &visitor) const override { visitor.see(*this); }
};

struct Choice : Pair {
    using Pair::Pair;
    u32 value(u32 x) const override { return x & 1 ? a->value(x >> 1) : b->value(x >> 1); }
    void meet(Visitor &visitor) const override { visitor.see(*this); }
};

struct Depth : Visitor {
    u32 now = 0, most = 0;
    void pair(const Pair &p) { now++; p.a->meet(*this); p.b->meet(*this); now--; }
    void see(const Number &) override { if (now > most) most = now; }
    void see(const Sum &p) override { pair(p); }
    void see(const Product &p) override { pair(p); }
    void see(const Choice &p) override { pair(p); }
};

struct Writer : Visitor {
    u32 sum = 0;
    void put(u32 c) { sum = sum * 31 + c; }
    void pair(const Pair &p, char sign) { put('('); p.a->meet(*this); put((u8)sign); p.b->meet(*this); put(')'); }
    void see(const Number &n) override { put('0' + n.number); }
    void see(const Sum &p) override { pair(p, '+'); }
    void see(const Product &p) override { pair(p, '*'); }
    void see(const Choice &p) override { pair(p, '?'); }
};

static Term *grown(u32 state, u32 depth) {
    state = state * 1664525u + 1013904223u;
    if (depth == 0) return new Number(state >> 28);
    Term *a = grown(state, depth - 1), *b = grown(state ^ 0x5555, depth - 1);
    if (state >> 29 < 3) return new Sum(a, b);
    return state >> 29 < 5 ? (Term *)new Product(a, b) : new Choice(a, b);
}

static u32 run(u32 rounds) {
    u32 sum = 0;
    for (u32 round = 0; round < rounds; round++) {
        Term *term = grown(round, 9);
        Depth depth;
        Writer writer;
        term->meet(depth), term->meet(writer);
        for (u32 x = 0; x < 40; x++) sum = sum * 31 + term->value(x * round);
        sum ^= depth.most + writer.sum;
        delete term;
    }
    return sum;
}

PROGRAM(run(250))
