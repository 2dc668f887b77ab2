/* Answers to the calls of WASI snapshot_preview1 that the shim does not have. docs/TOOLCHAINS.md has them as a table.

   Linked with a program (build), each has the name that wasi-libc gives the import, and wasm-ld takes the ones that are
   called. As part of helpers.wasm (build-helpers), each is exported under the name of the call, and `feulgama lower` puts
   it in the place of the import. Neither form has memory, data or a stack of its own: in helpers.wasm the clock and the
   state of the random numbers are behind imports, which the tool turns into globals of the module. */
#include <stdint.h>

typedef uint32_t u32;
typedef uint64_t u64;
typedef u32 __attribute__((aligned(1), may_alias)) any32; /* at any address */
typedef u64 __attribute__((aligned(1), may_alias)) any64;

enum { SUCCESS = 0, BADF = 8, FAULT = 21, INVAL = 28, NOTSUP = 58, SPIPE = 70 };
enum { CHARACTER_DEVICE = 2, CLOCKS = 4, MICROSECOND = 1000, STREAMS = 3, WALL_CLOCK = 0 };

/* 2000-01-01, in nanoseconds: where the wall clock begins. The others begin at 0. The state is the time that has passed, and
   goes no further than the wall clock can. */
#define WALL_START ((u64)946684800000000000)
#define LAST (~(u64)0 - WALL_START)

#ifdef HELPERS
#define CALL(name) __attribute__((export_name(#name))) u32 call_##name
#define STATE(name) __attribute__((import_module("state"), import_name(#name)))
STATE(clock) u64 get_clock(void);
STATE(set_clock) void set_clock(u64 value);
STATE(random) u64 get_random(void);
STATE(set_random) void set_random(u64 value);
#else
#define CALL(name) u32 __imported_wasi_snapshot_preview1_##name
static u64 passed;
static u64 random_state = 0x9e3779b97f4a7c15;
static u64 get_clock(void) { return passed; }
static void set_clock(u64 value) { passed = value; }
static u64 get_random(void) { return random_state; }
static void set_random(u64 value) { random_state = value; }
#endif

/* Whether `size` bytes from `at` on are inside memory. */
static int is_inside(u32 at, u64 size) {
  return at + size <= (u64)__builtin_wasm_memory_size(0) << 16;
}

static void put8(u32 at, u32 value) { *(volatile uint8_t *)at = value; }
static void put32(u32 at, u32 value) { *(any32 *)at = value; }
static void put64(u32 at, u64 value) { *(any64 *)at = value; }
static u32 read32(u32 at) { return *(any32 *)at; }
static u64 read64(u32 at) { return *(any64 *)at; }

/* One of the three streams can be asked about, and has neither a place nor an end. */
static u32 of_stream(u32 fd, u32 answer) { return fd < STREAMS ? answer : BADF; }

CALL(fd_close)(u32 fd) { return of_stream(fd, SUCCESS); }
CALL(fd_seek)(u32 fd, u64 offset, u32 whence, u32 place) { return of_stream(fd, SPIPE); }
CALL(fd_tell)(u32 fd, u32 place) { return of_stream(fd, SPIPE); }
CALL(fd_fdstat_set_flags)(u32 fd, u32 flags) { return of_stream(fd, NOTSUP); }

/* A character device: 24 bytes, of which the second word of 64 bits has the rights to read or to write. */
CALL(fd_fdstat_get)(u32 fd, u32 stat) {
  if (fd >= STREAMS) return BADF;
  if (!is_inside(stat, 24)) return FAULT;
  put64(stat, CHARACTER_DEVICE);
  put64(stat + 8, fd == 0 ? 1 << 1 : 1 << 6);
  put64(stat + 16, 0);
  return SUCCESS;
}

CALL(fd_filestat_get)(u32 fd, u32 stat) {
  if (fd >= STREAMS) return BADF;
  if (!is_inside(stat, 64)) return FAULT;
  for (u32 at = 0; at < 64; at += 8) put64(stat + at, at == 16 ? CHARACTER_DEVICE : 0);
  return SUCCESS;
}

/* Standard input is empty. */
CALL(fd_read)(u32 fd, u32 buffers, u32 count, u32 size) {
  if (fd != 0) return BADF;
  if (!is_inside(size, 4)) return FAULT;
  put32(size, 0);
  return SUCCESS;
}

static u64 start_of(u32 clock) { return clock == WALL_CLOCK ? WALL_START : 0; }
static void pass_to(u64 time) { set_clock(time < LAST ? time : LAST); }

CALL(clock_res_get)(u32 clock, u32 time) {
  if (clock >= CLOCKS) return INVAL;
  if (!is_inside(time, 8)) return FAULT;
  put64(time, MICROSECOND);
  return SUCCESS;
}

CALL(clock_time_get)(u32 clock, u64 precision, u32 time) {
  if (clock >= CLOCKS) return INVAL;
  if (!is_inside(time, 8)) return FAULT;
  u64 now = get_clock();
  put64(time, start_of(clock) + now);
  pass_to(now + MICROSECOND);
  return SUCCESS;
}

/* Marsaglia's xorshift with the shifts 13, 7 and 17: a byte of each number. */
CALL(random_get)(u32 bytes, u32 size) {
  if (!is_inside(bytes, size)) return FAULT;
  u64 state = get_random();
  for (u32 at = 0; at < size; at++) {
    state ^= state << 13;
    state ^= state >> 7;
    state ^= state << 17;
    put8(bytes + at, state >> 32);
  }
  set_random(state);
  return SUCCESS;
}

/* A subscription has 48 bytes: a word of its user, at 8 what it waits for; of a clock at 16 which one, at 24 the time and at
   40 whether it is a time of the clock; of a stream at 16 the descriptor. An event has 32: the word, at 8 an error, at 10 the
   kind. */
enum { OF_CLOCK = 0, OF_READING = 1, OF_WRITING = 2, SUBSCRIPTION = 48, EVENT = 32 };

static u32 kind_of(u32 subscription) { return *(uint8_t *)(subscription + 8); }

/* The time that will have passed. */
static u64 wakes_at(u32 subscription) {
  u64 now = get_clock(), time = read64(subscription + 24), start = start_of(read32(subscription + 16));
  if (read32(subscription + 40) & 1) return time > start ? time - start : 0;
  return now + time < now ? ~(u64)0 : now + time;
}

static void put_event(u32 event, u32 subscription, u32 error, u32 is_at_end) {
  u32 kind = kind_of(subscription);
  put64(event, read64(subscription));
  put64(event + 8, error | (u64)kind << 16);
  put64(event + 16, 0);
  put64(event + 24, is_at_end);
}

/* Streams are ready at once. Without one, the clock is set to the first time that is waited for. */
CALL(poll_oneoff)(u32 subscriptions, u32 events, u32 count, u32 found) {
  if (count == 0) return INVAL;
  if (!is_inside(subscriptions, (u64)count * SUBSCRIPTION) || !is_inside(events, (u64)count * EVENT) ||
      !is_inside(found, 4))
    return FAULT;
  u32 end = subscriptions + count * SUBSCRIPTION, event = events;
  u64 first = ~(u64)0;
  for (u32 at = subscriptions; at != end; at += SUBSCRIPTION) {
    u32 kind = kind_of(at), fd = read32(at + 16);
    if (kind > OF_WRITING) return INVAL;
    if (kind == OF_CLOCK) {
      if (wakes_at(at) < first) first = wakes_at(at);
    } else {
      int is_there = kind == OF_READING ? fd == 0 : fd == 1 || fd == 2;
      put_event(event, at, is_there ? SUCCESS : BADF, is_there && fd == 0);
      event += EVENT;
    }
  }
  if (event == events) {
    for (u32 at = subscriptions; at != end; at += SUBSCRIPTION)
      if (wakes_at(at) <= first) {
        put_event(event, at, SUCCESS, 0);
        event += EVENT;
      }
    if (first > get_clock()) pass_to(first);
  }
  put32(found, (event - events) / EVENT);
  return SUCCESS;
}

/* No other descriptor is open, no path leads to a file, and there is no network. */
CALL(fd_advise)(u32 fd, u64 offset, u64 size, u32 advice) { return BADF; }
CALL(fd_allocate)(u32 fd, u64 offset, u64 size) { return BADF; }
CALL(fd_datasync)(u32 fd) { return BADF; }
CALL(fd_fdstat_set_rights)(u32 fd, u64 base, u64 inherited) { return BADF; }
CALL(fd_filestat_set_size)(u32 fd, u64 size) { return BADF; }
CALL(fd_filestat_set_times)(u32 fd, u64 access, u64 change, u32 flags) { return BADF; }
CALL(fd_pread)(u32 fd, u32 buffers, u32 count, u64 offset, u32 size) { return BADF; }
CALL(fd_prestat_get)(u32 fd, u32 prestat) { return BADF; }
CALL(fd_prestat_dir_name)(u32 fd, u32 path, u32 size) { return BADF; }
CALL(fd_pwrite)(u32 fd, u32 buffers, u32 count, u64 offset, u32 size) { return BADF; }
CALL(fd_readdir)(u32 fd, u32 bytes, u32 size, u64 cookie, u32 used) { return BADF; }
CALL(fd_renumber)(u32 fd, u32 to) { return BADF; }
CALL(fd_sync)(u32 fd) { return BADF; }
CALL(path_create_directory)(u32 fd, u32 path, u32 size) { return BADF; }
CALL(path_filestat_get)(u32 fd, u32 flags, u32 path, u32 size, u32 stat) { return BADF; }
CALL(path_filestat_set_times)(u32 fd, u32 flags, u32 path, u32 size, u64 access, u64 change, u32 which) { return BADF; }
CALL(path_link)(u32 fd, u32 flags, u32 old, u32 old_size, u32 to, u32 path, u32 size) { return BADF; }
CALL(path_open)(u32 fd, u32 dirflags, u32 path, u32 size, u32 flags, u64 base, u64 inherited, u32 fdflags, u32 opened) {
  return BADF;
}
CALL(path_readlink)(u32 fd, u32 path, u32 size, u32 bytes, u32 most, u32 used) { return BADF; }
CALL(path_remove_directory)(u32 fd, u32 path, u32 size) { return BADF; }
CALL(path_rename)(u32 fd, u32 old, u32 old_size, u32 to, u32 path, u32 size) { return BADF; }
CALL(path_symlink)(u32 old, u32 old_size, u32 fd, u32 path, u32 size) { return BADF; }
CALL(path_unlink_file)(u32 fd, u32 path, u32 size) { return BADF; }
CALL(proc_raise)(u32 signal) { return NOTSUP; }
CALL(sock_accept)(u32 fd, u32 flags, u32 opened) { return BADF; }
CALL(sock_recv)(u32 fd, u32 buffers, u32 count, u32 flags, u32 size, u32 found) { return BADF; }
CALL(sock_send)(u32 fd, u32 buffers, u32 count, u32 flags, u32 size) { return BADF; }
CALL(sock_shutdown)(u32 fd, u32 how) { return BADF; }
