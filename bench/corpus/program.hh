// What programs of C++ have besides program.h: memory from the front of a room, which is given out again by its size.
#include "program.h"

namespace {

alignas(16) unsigned char room[480000];
u32 taken;
void *free_lists[64];

// A block of so many units of 16 bytes follows a unit that says how many.
void *allocate(u32 size) {
    u32 units = size / 16 + 1;
    if (units < 64 && free_lists[units]) {
        void *found = free_lists[units];
        free_lists[units] = *static_cast<void **>(found);
        return found;
    }
    u32 *head = reinterpret_cast<u32 *>(room + taken);
    *head = units;
    taken += 16 + units * 16;
    if (taken > sizeof room) __builtin_trap();
    return reinterpret_cast<unsigned char *>(head) + 16;
}

void give_back(void *data) {
    if (!data) return;
    u32 units = *reinterpret_cast<u32 *>(static_cast<unsigned char *>(data) - 16);
    if (units >= 64) return;
    *static_cast<void **>(data) = free_lists[units];
    free_lists[units] = data;
}

}  // namespace

void *operator new(decltype(sizeof 0) size) { return allocate((u32)size); }
void operator delete(void *data) noexcept { give_back(data); }
void operator delete(void *data, decltype(sizeof 0)) noexcept { give_back(data); }
inline void *operator new(decltype(sizeof 0), void *place) noexcept { return place; }

#ifdef __wasm__
extern "C" void __cxa_pure_virtual() { __builtin_trap(); }
extern "C" void *memcpy(void *to, const void *from, decltype(sizeof 0) size) {
    for (u32 i = 0; i < size; i++) static_cast<u8 *>(to)[i] = static_cast<const u8 *>(from)[i];
    return to;
}
#endif
