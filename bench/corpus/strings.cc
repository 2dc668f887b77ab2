// A string with short texts inside itself, and a map of strings as a tree: words are counted, joined, replaced and compared.
#include "program.hh"

class String {
    union { char *far; char near[16]; };
    u32 length = 0, room_ = 16;

    char *data() { return room_ > 16 ? far : near; }
    void reserve(u32 least) {
        if (least <= room_) return;
        char *next = static_cast<char *>(allocate(least * 2));
        for (u32 i = 0; i < length; i++) next[i] = data()[i];
        if (room_ > 16) give_back(far);
        far = next, room_ = least * 2;
    }

public:
    String() {}
    String(const String &other) { *this += other; }
    ~String() { if (room_ > 16) give_back(far); }
    String &operator=(const String &other) {
        if (this != &other) length = 0, *this += other;
        return *this;
    }
    String &operator+=(char c) {
        reserve(length + 1);
        data()[length++] = c;
        return *this;
    }
    String &operator+=(const char *text) { return *text ? *this += *text, *this += text + 1 : *this; }
    String &operator+=(const String &other) {
        reserve(length + other.length);
        for (u32 i = 0, n = other.length; i < n; i++) data()[length++] = other[i];
        return *this;
    }
    char operator[](u32 at) const { return room_ > 16 ? far[at] : near[at]; }
    u32 size() const { return length; }
    int compare(const String &other) const {
        for (u32 i = 0; i < length && i < other.length; i++)
            if ((*this)[i] != other[i]) return (*this)[i] < other[i] ? -1 : 1;
        return length < other.length ? -1 : length > other.length;
    }
    u32 hash(u32 h) const {
        for (u32 i = 0; i < length; i++) h = (h ^ (u8)(*this)[i]) * 16777619u;
        return h;
    }
};

struct Entry {
    String key;
    u32 count = 1;
    Entry *left = nullptr, *right = nullptr;
    explicit Entry(const String &k) : key(k) {}
    ~Entry() { delete left; delete right; }
    u32 walk(u32 sum, u32 depth) const {
        if (left) sum = left->walk(sum, depth + 1);
        sum = key.hash(sum) + count * depth;
        return right ? right->walk(sum, depth + 1) : sum;
    }
};

static void count(Entry **root, const String &key) {
    while (*root) {
        int order = key.compare((*root)->key);
        if (order == 0) { (*root)->count++; return; }
        root = order < 0 ? &(*root)->left : &(*root)->right;
    }
    *root = new Entry(key);
}

static u32 run(u32 rounds) {
    static const char *const parts[] = {"sun", "moon", "light", "house", "fire", "works", "rain", "bow", "over", "man", "ed"};
    u32 sum = 0, state = 1;
    for (u32 round = 0; round < rounds; round++) {
        Entry *root = nullptr;
        String all;
        for (u32 i = 0; i < 500; i++) {
            String word;
            for (u32 k = 0; k <= (state >> 20) % 5; k++) word += parts[(state = state * 1664525u + 1013904223u) % 9973 % 11];
            count(&root, word);
            if (all.size() > 900) all = word;
            all += word, all += ' ';
        }
        sum = all.hash(root->walk(sum, 1));
        delete root;
    }
    return sum;
}

PROGRAM(run(55))
