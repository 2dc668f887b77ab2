/* What each program of this folder has: it gives its checksum as the task's exit number. */
typedef unsigned char u8;
typedef unsigned int u32;
typedef unsigned long long u64;

#ifdef __wasm__
__attribute__((import_module("wasi_snapshot_preview1"), import_name("proc_exit")))
_Noreturn void proc_exit(u32 number);
#define PROGRAM(checksum) \
    __attribute__((export_name("_start"))) void start(void) { proc_exit(checksum); }
#else
#include <stdio.h>
#define PROGRAM(checksum) \
    int main(void) { printf("%u\n", (u32)(checksum)); return 0; }
#endif
