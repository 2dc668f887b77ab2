// Pointers that own or count, functions that are kept, and an event queue of theirs: a simulation of lifts.
#include "program.hh"

template <typename T> class Shared {
    struct Held { T value; u32 owners; };
    Held *held = nullptr;

public:
    explicit Shared(const T &value) : held(new Held{value, 1}) {}
    Shared(const Shared &other) : held(other.held) { held->owners++; }
    ~Shared() { if (--held->owners == 0) delete held; }
    T *operator->() const { return &held->value; }
    u32 owners() const { return held->owners; }
};

template <typename Argument> struct Action {
    struct Base { virtual void call(Argument) = 0; virtual ~Base() = default; };
    template <typename F> struct Kept : Base {
        F function;
        explicit Kept(const F &f) : function(f) {}
        void call(Argument argument) override { function(argument); }
    };
    Base *base = nullptr;
    template <typename F> void set(const F &function) { delete base; base = new Kept<F>(function); }
    void operator()(Argument argument) { base->call(argument); }
};

struct Lift { u32 floor, aim, riders, travelled; };
struct Event { u32 time; Action<u32> action; };

class Queue {
    Event *heap[256];
    u32 count = 0;

public:
    template <typename F> void add(u32 time, const F &function) {
        Event *event = new Event{time, {}};
        event->action.set(function);
        u32 at = count++;
        for (; at > 0 && heap[(at - 1) / 2]->time > time; at = (at - 1) / 2) heap[at] = heap[(at - 1) / 2];
        heap[at] = event;
    }
    Event *take() {
        if (count == 0) return nullptr;
        Event *first = heap[0], *last = heap[--count];
        u32 at = 0;
        for (u32 child = 1; child < count; child = 2 * at + 1) {
            if (child + 1 < count && heap[child + 1]->time < heap[child]->time) child++;
            if (heap[child]->time >= last->time) break;
            heap[at] = heap[child], at = child;
        }
        heap[at] = last;
        return first;
    }
};

static u32 state = 1, sum;

static void drive(Queue &queue, const Shared<Lift> &lift, u32 left) {
    state = state * 1664525u + 1013904223u;
    lift->aim = (state >> 16) % 20;
    u32 way = lift->aim > lift->floor ? lift->aim - lift->floor : lift->floor - lift->aim;
    queue.add(lift->travelled + way, [&queue, lift, left, way](u32 time) {
        lift->travelled = time + 1;
        lift->floor = lift->aim;
        lift->riders += way % 3;
        sum = sum * 31 + time * lift->floor + lift.owners();
        if (left > 0) drive(queue, lift, left - 1);
    });
}

static u32 run(u32 rounds) {
    for (u32 round = 0; round < rounds; round++) {
        Queue queue;
        for (u32 i = 0; i < 60; i++) drive(queue, Shared<Lift>(Lift{i % 20, 0, 0, 0}), 30);
        while (Event *event = queue.take()) {
            event->action(event->time);
            delete event->action.base;
            delete event;
        }
    }
    return sum;
}

PROGRAM(run(60))
