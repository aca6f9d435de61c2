// Exports the functions of share/web/engine/shim.c, the file that SHIM names, to tests/clients/shim.mjs.
#include SHIM

#define EXPORT(name) __attribute__((export_name(#name)))

// The numbers of a call are behind each other in this room, its result behind them; texts are there too.
static byte room[1 << 18] __attribute__((aligned(16)));

int main(int count, char **words) { return 7; }
EXPORT(room) byte *room_of_calls(void) { return room; }

EXPORT(product) void product(__int128 *at) { at[2] = __multi3(at[0], at[1]); }
EXPORT(left) void left(__int128 *at, int count) { at[2] = __ashlti3(at[0], count); }
EXPORT(right) void right(__int128 *at, int count) { at[2] = __lshrti3(at[0], count); }
EXPORT(shuffle) void shuffle(vector *at) { at[2] = shuffle_bytes(at[0], at[1]); }
EXPORT(fence) double fence(double value) { return arithmetic_fence(value); }
EXPORT(leaf) u64 leaf(u64 at) { return ((u64 *)__x86_get_cpuid_feature_leaf(1))[at]; }

EXPORT(copy) void *copy(byte *to, byte *from, u64 count) { return memcpy(to, from, count); }
EXPORT(move) void *move(byte *to, byte *from, u64 count) { return memmove(to, from, count); }
EXPORT(set) void *set(byte *to, int value, u64 count) { return memset(to, value, count); }
EXPORT(compare) int compare(byte *left, byte *right, u64 count) { return memcmp(left, right, count); }
EXPORT(differ) int differ(byte *left, byte *right, u64 count) { return bcmp(left, right, count); }

static byte *block_of(tried answer) { return answer.ok ? answer.block : 0; }
EXPORT(take) byte *take_block(u64 size) { return block_of(rattle_alloc(size, 8)); }
EXPORT(resize) byte *resized(byte *block, u64 size) { return block_of(rattle_realloc(block, 0, size, 8)); }
EXPORT(give) void give(byte *block) { rattle_dealloc(block); }

EXPORT(count) u64 count_of_words(void) { return rattle_arg_count(); }
EXPORT(word) long word_at(u64 index, byte *at, u64 size) { return rattle_arg(index, at, size); }
EXPORT(variable) long variable(char *name, byte *at, u64 size) { return rattle_env(name, at, size); }
EXPORT(open) int open_file(char *name, int flags) { return open(name, flags); }
EXPORT(close) int close_file(int file) { return close(file); }
EXPORT(read) long read_file(int file, byte *at, u64 size) { return read(file, at, size); }
EXPORT(write) long write_file(int file, byte *at, u64 size) { return __write(file, at, size); }
EXPORT(seek) long seek(int file, long offset, int from) { return lseek(file, offset, from); }
EXPORT(rename) int renamed(char *old, char *new) { return rename(old, new); }
EXPORT(remove) int removed(char *name) { return unlink(name); }
EXPORT(random) int random_bytes(byte *at, u64 size) { return getentropy(at, size); }
EXPORT(status) int status(char *name, byte *at) { return statx(0, name, 0, 0, at); }
EXPORT(terminal) int terminal(int file) { return isatty(file); }
EXPORT(clock) int clock_of(int clock, long *at) { return clock_gettime(clock, at); }
EXPORT(shorten) int shorten(int file) { return ftruncate(file, 0); }
EXPORT(path) char *path(char *name, char *to) { return realpath(name, to); }
EXPORT(error) int last_error(void) { return rattle_errno(); }
