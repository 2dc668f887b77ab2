// Classes with sizes in their types: numbers of 768 bits with a point, arrays, and a ring, for pi, e and a filter.
#include "program.hh"

template <typename T, u32 N> struct Array {
    T items[N];
    T &operator[](u32 at) { return items[at]; }
    const T &operator[](u32 at) const { return items[at]; }
};

template <u32 N> struct Wide {
    Array<u32, N> words;
    explicit Wide(u32 number = 0) { for (u32 i = 0; i < N; i++) words[i] = i == N - 1 ? number : 0; }
    Wide &operator+=(const Wide &other) {
        u64 carry = 0;
        for (u32 i = 0; i < N; i++) {
            carry = (carry >> 32) + words[i] + other.words[i];
            words[i] = (u32)carry;
        }
        return *this;
    }
    Wide operator-() const {
        Wide one(0), out;
        for (u32 i = 0; i < N; i++) out.words[i] = ~words[i], one.words[i] = i == 0;
        return out += one;
    }
    Wide &operator*=(u32 factor) {
        u64 carry = 0;
        for (u32 i = 0; i < N; i++) {
            carry = (carry >> 32) + (u64)words[i] * factor;
            words[i] = (u32)carry;
        }
        return *this;
    }
    Wide &operator/=(u32 divisor) {
        u64 rest = 0;
        for (u32 i = N; i-- > 0; rest %= divisor) words[i] = (u32)((rest = rest << 32 | words[i]) / divisor);
        return *this;
    }
    bool is_zero() const {
        for (u32 word : words.items) if (word) return false;
        return true;
    }
    u32 top() { u32 word = words[N - 1]; return words[N - 1] = 0, word; }
};

template <u32 N> Wide<N> arctangent(u32 scale, u32 divisor) {
    Wide<N> power(scale), sum;
    power /= divisor;
    for (u32 k = 1; !power.is_zero(); k += 2, power /= divisor * divisor) {
        Wide<N> term = power;
        term /= k;
        sum += k & 2 ? -term : term;
    }
    return sum;
}

template <u32 N> u32 digits(Wide<N> number, u32 count) {
    u32 sum = number.top();
    while (count-- > 0) sum = sum * 31 + ((number *= 10).top() ^ count);
    return sum;
}

template <u32 POINT, u32 TAPS> struct Filter {
    Array<int, TAPS> weights, past;
    u32 at = 0;
    int next(int sample) {
        long long sum = 0;
        past[at++ % TAPS] = sample;
        for (u32 i = 0; i < TAPS; i++) sum += (long long)weights[i] * past[(at + i) % TAPS];
        return (int)(sum >> POINT);
    }
};

static u32 run(u32 rounds) {
    u32 sum = 0;
    Filter<12, 24> filter;
    for (u32 i = 0; i < 24; i++) filter.weights[i] = (int)(i * (24 - i)) * 3 - 200, filter.past[i] = 0;
    for (u32 round = 0; round < rounds; round++) {
        Wide<24> pi = arctangent<24>(16, 5), e(1), term(1);
        pi += -arctangent<24>(4, 239);
        for (u32 k = 1; !term.is_zero(); k++) e += term /= k;
        sum = sum * 31 + digits(pi, 200 + round) + digits(e, 200) + digits(arctangent<8>(round + 1, 7), 60);
        for (u32 i = 0; i < 2000; i++) sum = sum * 3 + (u32)filter.next((int)(i * i % 4093 * round % 30000));
    }
    return sum;
}

PROGRAM(run(22))
