/* Counts the words of a text and keeps the longest one: a program to be debugged. */
typedef unsigned int u32;

__attribute__((import_module("wasi_snapshot_preview1"), import_name("proc_exit")))
_Noreturn void proc_exit(u32 code);

__attribute__((import_module("wasi_snapshot_preview1"), import_name("fd_write")))
u32 fd_write(u32 fd, const void *buffers, u32 count, u32 *written);

struct buffer { const char *start; u32 length; };

struct counts { u32 words; u32 longest; u32 sum; };

static const char text[] = "the quick brown fox jumps over the lazy dog";
static struct counts found;
static char line[16];

static int is_letter(char c) {
    return c >= 'a' && c <= 'z';
}

static void write_out(const char *start, u32 length) {
    struct buffer buffer = { start, length };
    u32 written = 0;
    fd_write(1, &buffer, 1, &written);
}

static u32 decimal(u32 number, char *to) {
    u32 length = number >= 10 ? decimal(number / 10, to) : 0;
    to[length] = '0' + number % 10;
    return length + 1;
}

static void end_word(u32 length) {
    if (length == 0)
        return;
    found.words++;
    found.sum += length;
    if (length > found.longest)
        found.longest = length;
}

static void count(const char *from) {
    u32 length = 0;
    for (const char *at = from; *at; at++) {
        if (is_letter(*at)) {
            length++;
        } else {
            end_word(length);
            length = 0;
        }
    }
    end_word(length);
}

__attribute__((export_name("_start"))) void start(void) {
    count(text);
    u32 length = decimal(found.sum, line);
    line[length] = '\n';
    write_out(line, length + 1);
    proc_exit(found.words);
}
