/* Looks for primes, for ever: a program to be debugged while it runs in a container. */
typedef unsigned int u32;

__attribute__((import_module("wasi_snapshot_preview1"), import_name("fd_write")))
u32 fd_write(u32 fd, const void *buffers, u32 count, u32 *written);

struct buffer { const char *start; u32 length; };
struct primes { u32 found; u32 largest; };

static struct primes primes;

static int is_prime(u32 number) {
    for (u32 part = 2; part * part <= number; part++) {
        if (number % part == 0)
            return 0;
    }
    return 1;
}

__attribute__((export_name("_start"))) void start(void) {
    struct buffer begun = { "looking for primes\n", 19 };
    u32 written;
    fd_write(1, &begun, 1, &written);
    for (u32 number = 2;; number++) {
        if (is_prime(number)) {
            primes.found++;
            primes.largest = number;
        }
    }
}
