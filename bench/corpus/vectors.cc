// A vector and algorithms as templates: sort, partition, unique, accumulate and binary search with functions of the caller.
#include "program.hh"

template <typename T> T &&moved(T &value) { return static_cast<T &&>(value); }

template <typename T> class Vector {
    T *items = nullptr;
    u32 count = 0, room_ = 0;

public:
    Vector() = default;
    Vector(const Vector &) = delete;
    ~Vector() { clear(); give_back(items); }
    void push(T value) {
        if (count == room_) grow();
        new (items + count++) T(moved(value));
    }
    void grow() {
        u32 more = room_ ? room_ * 2 : 4;
        T *next = static_cast<T *>(allocate(more * sizeof(T)));
        for (u32 i = 0; i < count; i++) new (next + i) T(moved(items[i]));
        give_back(items);
        items = next, room_ = more;
    }
    void clear() { while (count > 0) items[--count].~T(); }
    void shrink(T *end_) { while (items + count > end_) items[--count].~T(); }
    T *begin() { return items; }
    T *end() { return items + count; }
    T &operator[](u32 at) { return items[at]; }
    u32 size() const { return count; }
};

template <typename T> void exchange(T &a, T &b) {
    T c = moved(a);
    a = moved(b);
    b = moved(c);
}

template <typename T, typename Test> T *partition(T *begin, T *end, Test test) {
    for (T *at = begin; at != end; at++)
        if (test(*at)) exchange(*at, *begin++);
    return begin;
}

template <typename T, typename Less> void sort(T *begin, T *end, Less less) {
    while (end - begin > 1) {
        exchange(*begin, begin[(end - begin) / 2]);
        T *cut = partition(begin + 1, end, [&](const T &item) { return less(item, *begin); });
        exchange(*begin, cut[-1]);
        sort(cut, end, less);
        end = cut - 1;
    }
}

template <typename T, typename Same> T *unique(T *begin, T *end, Same same) {
    T *last = begin;
    for (T *at = begin; at != end; at++)
        if (at == begin || !same(*last, *at)) exchange(*(at == begin ? last : ++last), *at);
    return begin == end ? end : last + 1;
}

template <typename T, typename Sum, typename Step> Sum folded(T *begin, T *end, Sum sum, Step step) {
    for (; begin != end; begin++) sum = step(sum, *begin);
    return sum;
}

struct Point { int x, y; u32 order() const { return (u32)(x * x + y * y) << 8 | (u32)(x + 128); } };

static u32 run(u32 rounds) {
    u32 sum = 0, state = 1;
    for (u32 round = 0; round < rounds; round++) {
        taken = 0;
        for (void *&list : free_lists) list = nullptr;
        Vector<Point> points;
        Vector<u64> numbers;
        for (u32 i = 0; i < 4000; i++) {
            state = state * 1664525u + 1013904223u;
            points.push(Point{(int)(state >> 24) - 128, (int)(state >> 16 & 255) - 128});
            numbers.push(state % 1500 * 0x100000001ull);
        }
        sort(points.begin(), points.end(), [](const Point &a, const Point &b) { return a.order() < b.order(); });
        sort(numbers.begin(), numbers.end(), [round](u64 a, u64 b) { return (a ^ round) < (b ^ round); });
        numbers.shrink(unique(numbers.begin(), numbers.end(), [](u64 a, u64 b) { return a == b; }));
        sum = folded(points.begin(), points.end(), sum, [](u32 s, Point p) { return s * 31 + (u32)p.x * 3 + (u32)p.y; });
        sum = folded(numbers.begin(), numbers.end(), sum, [](u32 s, u64 n) { return s * 5 ^ (u32)(n >> 32); });
    }
    return sum;
}

PROGRAM(run(22))
