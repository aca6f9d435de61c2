// What the module of WebAssembly takes from a system: memory, bytes, arguments, files, the clock.
// `./release --web` compiles it for wasm64; wasm-opt then lowers the addresses to 32 bits. The
// functions of "page" are those of runtime.js. A negative answer is an error number of Linux.
typedef unsigned char byte;
typedef unsigned int u32;
typedef unsigned long u64;
typedef u64 __attribute__((aligned(1), may_alias)) word;
typedef byte vector __attribute__((vector_size(16)));
int main(int count, char **words);

#define PAGE(name) __attribute__((import_module("page"), import_name(#name))) extern
PAGE(arguments) u32 page_arguments(void);
PAGE(argument) int page_argument(u32 index, u32 at, u32 room);
PAGE(variable) int page_variable(u32 name, u32 length, u32 at, u32 room);
PAGE(open) int page_open(u32 name, u32 length, u32 flags);
PAGE(close) int page_close(int file);
PAGE(read) int page_read(int file, u32 at, u32 count);
PAGE(write) int page_write(int file, u32 at, u32 count);
PAGE(seek) double page_seek(int file, double offset, int from);
PAGE(rename) int page_rename(u32 from, u32 from_length, u32 to, u32 to_length);
PAGE(remove) int page_remove(u32 name, u32 length);
PAGE(status) int page_status(u32 name, u32 length, u32 at);
PAGE(random) int page_random(u32 at, u32 count);
PAGE(clock) double page_clock(int clock);
PAGE(terminal) int page_terminal(int file);

// Bytes. A copy of a few bytes is cheaper without a call of memory.copy.

void *memcpy(void *to, const void *from, u64 count) {
    byte *t = to;
    const byte *f = from;
    if (count > 128)
        return __builtin_memcpy(to, from, count);
    for (; count >= 8; count -= 8, t += 8, f += 8)
        *(word *)t = *(const word *)f;
    for (; count > 0; count--)
        *t++ = *f++;
    return to;
}

void *memmove(void *to, const void *from, u64 count) { return __builtin_memmove(to, from, count); }
void *memset(void *to, int value, u64 count) { return __builtin_memset(to, value, count); }

int memcmp(const void *left, const void *right, u64 count) {
    const byte *l = left, *r = right;
    for (; count >= 8 && *(const word *)l == *(const word *)r; count -= 8)
        l += 8, r += 8;
    for (; count > 0; count--, l++, r++)
        if (*l != *r)
            return *l - *r;
    return 0;
}

int bcmp(const void *left, const void *right, u64 count) { return memcmp(left, right, count); }

#define NAME(text) (u64)text, length_of(text)
static u32 length_of(const char *text) {
    u32 count = 0;
    while (text[count])
        count++;
    return count;
}

// Memory. A block has a class of sizes: 16 to 128 bytes in steps of 16, then four sizes for each
// doubling. A free block is in the list of its class. The 16 bytes before it contain its class.

enum { HEAD = 16, CLASSES = 128 };
#define MOST 0xf0000000u

extern byte __heap_base;
static byte *top, *end, *spare[CLASSES];

static u32 class_of(u64 size) {
    u64 units = size == 0 ? 0 : (size - 1) / 16;
    if (units < 8)
        return units;
    u32 shift = 61 - __builtin_clzl(units);
    return 4 * shift + (units >> shift);
}

static u64 size_of(u32 class) {
    if (class < 8)
        return 16 * (class + 1);
    u32 shift = class / 4 - 1;
    return (u64)(class % 4 + 5) << shift << 4;
}

// Returns whether memory grows by so many pages. The answer -1 has 32 bits in the lowered module.
static int grow(u64 pages) { return (u32)__builtin_wasm_memory_grow(0, pages) != ~0u; }

// Moves the end of the memory in use to `to`. Returns whether there is memory up to it.
static int raise(byte *to) {
    if (to > end) {
        u64 pages = ((u64)(to - end) + 65535) / 65536, more = pages + (u64)end / 65536 / 4;
        if (!grow(more) && !grow(more = pages))
            return 0;
        end += more * 65536;
    }
    top = to;
    return 1;
}

static byte *take(u64 size) {
    if (size > MOST)
        return 0;
    u32 class = class_of(size);
    byte *block = spare[class];
    if (block)
        return spare[class] = *(byte **)block, block;
    if (!raise(top + HEAD + size_of(class)))
        return 0;
    block = top - size_of(class);
    *(u32 *)(block - HEAD) = class;
    return block;
}

static void give_back(byte *block) {
    u32 class = *(u32 *)(block - HEAD);
    *(byte **)block = spare[class];
    spare[class] = block;
}

static byte *resize(byte *block, u64 size) {
    if (size > MOST)
        return 0;
    u32 class = *(u32 *)(block - HEAD);
    u64 old = size_of(class);
    if (size <= old)
        return block;
    if (block + old == top && raise(block + size_of(class_of(size))))
        return *(u32 *)(block - HEAD) = class_of(size), block;
    byte *other = take(size);
    if (other) {
        memcpy(other, block, old);
        give_back(block);
    }
    return other;
}

// The answer of an allocation: whether there is a block, and the block or else some address. The
// program reads the first byte of `ok`.
typedef struct { u64 ok; void *block; } tried;

static byte nothing;
static tried answer_of(byte *block) { return (tried){block != 0, block ? block : &nothing}; }
tried rattle_alloc(u64 size, u64 alignment) { return answer_of(take(size)); }
tried rattle_realloc(void *block, u64 kept, u64 n, u64 a) { return answer_of(resize(block, n)); }
void rattle_dealloc(void *block) { give_back(block); }

// Arguments and variables: the length, -1 for none, -2 if the room is too small.

u64 rattle_arg_count(void) { return page_arguments(); }
long rattle_arg(u64 index, byte *at, u64 room) { return page_argument(index, (u64)at, room); }
long rattle_env(const char *name, byte *at, u64 n) { return page_variable(NAME(name), (u64)at, n); }

// Files. A call that fails returns -1 and sets the error number.

static int error;
int rattle_errno(void) { return error; }
void rattle_set_errno(int number) { error = number; }
static long result_of(double n) { return n < 0 ? error = -(int)n, -1 : (long)n; }

static u32 at_most(u64 count) { return count < 1 << 30 ? count : 1 << 30; }

int open(const char *name, int flags, ...) { return result_of(page_open(NAME(name), flags)); }
int close(int file) { return result_of(page_close(file)); }
long read(int file, void *at, u64 n) { return result_of(page_read(file, (u64)at, at_most(n))); }
long write(int file, void *at, u64 n) { return result_of(page_write(file, (u64)at, at_most(n))); }
long __write(int file, void *at, u64 n) { return write(file, at, n); }
long lseek(int file, long offset, int from) { return result_of(page_seek(file, offset, from)); }
int rename(char *old, char *new) { return result_of(page_rename(NAME(old), NAME(new))); }
int unlink(const char *name) { return result_of(page_remove(NAME(name))); }
int getentropy(void *at, u64 count) { return page_random((u64)at, count); }

// There are no links, owners, modes, locks and signals, no disk and no list of variables. No command
// on files sets the length of a file; the error is ENOSYS.
char *realpath(const char *name, char *to) { return memcpy(to, name, length_of(name) + 1); }
int fchown(int file, u32 owner, u32 group) { return 0; }
int fchmod(int file, u32 mode) { return 0; }
int fsync(int file) { return 0; }
int fdatasync(int file) { return 0; }
int flock(int file, int how) { return 0; }
long __sysv_signal(int signal, long action) { return 0; }
long rattle_env_at(u64 index, byte *at, u64 room) { return -1; }
int ftruncate(int file, long length) { return error = 38, -1; }

// Fills Linux's struct statx.
int statx(int folder, const char *name, int flags, u32 mask, void *found) {
    return result_of(page_status(NAME(name), (u64)found));
}

// The error of a file that isn't a terminal is ENOTTY.
int isatty(int file) { return page_terminal(file) ? 1 : (error = 25, 0); }

// The time in seconds and nanoseconds; page_clock returns milliseconds.
int clock_gettime(int clock, long *time) {
    double now = page_clock(clock);
    time[0] = (long)(now / 1000);
    time[1] = (long)((now - time[0] * 1000.0) * 1e6);
    return 0;
}

// Arithmetic. Instructions of x86-64 that the module names, and shifts and products of 128 bits.

double arithmetic_fence(double value) { return value; }

vector shuffle_bytes(vector bytes, vector places) {
    vector result;
    for (int i = 0; i < 16; i++)
        result[i] = places[i] & 128 ? 0 : bytes[places[i] & 15];
    return result;
}

typedef union { __int128 whole; struct { u64 low, high; }; } wide;

__int128 __ashlti3(__int128 value, int count) {
    wide v = {value};
    if (count > 0)
        v.high = count >= 64 ? v.low << (count - 64) : v.high << count | v.low >> (64 - count);
    return v.low = count >= 64 ? 0 : v.low << count, v.whole;
}

__int128 __lshrti3(__int128 value, int count) {
    wide v = {value};
    if (count > 0)
        v.low = count >= 64 ? v.high >> (count - 64) : v.low >> count | v.high << (64 - count);
    return v.high = count >= 64 ? 0 : v.high >> count, v.whole;
}

__int128 __multi3(__int128 left, __int128 right) {
    wide l = {left}, r = {right}, product;
    u64 a = (u32)l.low, b = l.low >> 32, c = (u32)r.low, d = r.low >> 32;
    u64 middle = b * c + (a * c >> 32), other = a * d + (u32)middle;
    product.low = other << 32 | (u32)(a * c);
    product.high = b * d + (middle >> 32) + (other >> 32) + l.low * r.high + l.high * r.low;
    return product.whole;
}

// The features of the processor: all that the module asks for.
void *__x86_get_cpuid_feature_leaf(u32 leaf) {
    static u64 all[8] = {-1, -1, -1, -1, -1, -1, -1, -1};
    return all;
}

// Runs the program. Returns its exit status.
__attribute__((export_name("start"))) int start(void) {
    top = (byte *)(((u64)&__heap_base + 15) / 16 * 16);
    end = (byte *)(__builtin_wasm_memory_size(0) * 65536);
    return main(0, 0);
}
