/* What a program asks of an operating system, for a module that imports nothing: its words, its files, what it writes and its heap are
in its own memory.

The host takes room by `room`, puts bytes there and gives them by `add_word` and `add_file`; it calls `run` once, and reads what was
written. Then it drops the instance, so that nothing stays from one run to the next. */

typedef unsigned char byte;
typedef unsigned int address;
typedef unsigned long size;
typedef unsigned long long half;
typedef unsigned __int128 whole;

enum { PAGE = 65536, GROWN_AT_ONCE = 16, HEAD = 16, LEAST_CLASS = 5, MOST_CLASS = 31 };
enum { MOST_WORDS = 64, MOST_FILES = 8, MOST_OPEN = 16, FIRST_OPENED = 3 };
enum { NO_ENTRY = 2, BAD_DESCRIPTOR = 9, NOT_ALLOWED = 13, INVALID = 22, TOO_MANY_OPEN = 24, NO_TERMINAL = 25, NO_SPACE = 28, NOT_SEEKABLE = 29, NO_SUCH_CALL = 38 };
enum { NOT_READ_ONLY = 3, AS_FOLDER = 0200000 };

#define EXPORTED(name) __attribute__((export_name(name)))

extern byte __heap_base;
/* The program's own `main`, which the build renames: as `main` it would have arguments in WebAssembly. */
extern int program(void);

/* The heap: blocks of 2^class bytes, each with its class in front. A block that is given back waits for the next one of its class. */

static byte *unused, *end;
static void *waiting[MOST_CLASS + 1];

static int class_of(size n)
{
    return n + HEAD <= 1ul << LEAST_CLASS ? LEAST_CLASS : 64 - __builtin_clzl(n + HEAD - 1);
}

/* A failed growth is -1 in 32 bits once the module is lowered to them, so it isn't compared with -1 in 64. */
static int grown(size pages)
{
    return __builtin_wasm_memory_grow(0, pages) < PAGE;
}

static int reaches(size n)
{
    if (!end) {
        unused = (byte *)(((size)&__heap_base + HEAD - 1) & ~(size)(HEAD - 1));
        end = (byte *)(__builtin_wasm_memory_size(0) * PAGE);
    }
    if (n <= (size)(end - unused))
        return 1;
    size pages = (n - (size)(end - unused) + PAGE - 1) / PAGE;
    size more = pages < GROWN_AT_ONCE ? GROWN_AT_ONCE : pages;
    if (!grown(more)) {
        if (more == pages || !grown(pages))
            return 0;
        more = pages;
    }
    end += more * PAGE;
    return 1;
}

static byte *taken(size n)
{
    if (n >= 1ul << (MOST_CLASS - 1))
        return 0;
    int class = class_of(n);
    byte *block = waiting[class];
    if (block) {
        waiting[class] = *(void **)(block + HEAD);
    } else {
        if (!reaches(1ul << class))
            return 0;
        block = unused;
        unused += 1ul << class;
        *(size *)block = (size)class;
    }
    return block + HEAD;
}

static void given_back(byte *p)
{
    size class = *(size *)(p - HEAD);
    *(void **)p = waiting[class];
    waiting[class] = p - HEAD;
}

static byte *resized(byte *p, size n)
{
    size had = (1ul << *(size *)(p - HEAD)) - HEAD;
    if (n <= had)
        return p;
    byte *moved = taken(n);
    if (moved) {
        __builtin_memcpy(moved, p, had);
        given_back(p);
    }
    return moved;
}

/* What a program is answered that asks for memory: whether there is some, and where. */
struct tried { half there; byte *p; };
static byte no_memory;

static struct tried tried(byte *p)
{
    return (struct tried){ p != 0, p ? p : &no_memory };
}

struct tried rattle_alloc(size n, size alignment)
{
    return tried(taken(n ? n : alignment));
}

struct tried rattle_realloc(byte *p, size kept, size n, size alignment)
{
    (void)kept;
    return tried(resized(p, n ? n : alignment));
}

void rattle_dealloc(byte *p)
{
    given_back(p);
}

/* Bytes that grow, and those that the host gives. */

struct bytes { byte *p; size n; };

static int append(struct bytes *to, const byte *p, size n)
{
    byte *moved = to->p ? resized(to->p, to->n + n) : taken(n);
    if (!moved)
        return 0;
    __builtin_memcpy(moved + to->n, p, n);
    to->p = moved;
    to->n += n;
    return 1;
}

static struct bytes words[MOST_WORDS], written[2];
static struct { struct bytes name, text; } files[MOST_FILES];
static int word_count, file_count, error;

EXPORTED("room") address room(address n)
{
    return (address)(size)taken(n ? n : 1);
}

EXPORTED("add_word") int add_word(address p, address n)
{
    if (word_count == MOST_WORDS)
        return 0;
    words[word_count++] = (struct bytes){ (byte *)(size)p, n };
    return 1;
}

/* A file whose name is empty is standard input. */
EXPORTED("add_file") int add_file(address name, address name_size, address p, address n)
{
    if (file_count == MOST_FILES)
        return 0;
    files[file_count].name = (struct bytes){ (byte *)(size)name, name_size };
    files[file_count++].text = (struct bytes){ (byte *)(size)p, n };
    return 1;
}

EXPORTED("run") int run(void)
{
    return program();
}

/* What was written to standard output, 1, or to standard error, 2. */
EXPORTED("written") address written_at(int stream)
{
    return (address)(size)written[stream - 1].p;
}

EXPORTED("written_size") address written_size(int stream)
{
    return (address)written[stream - 1].n;
}

/* The calls of the system. A file is open where its slot has its number, from 1. */

static struct { int file; size at; } slots[MOST_OPEN];

static long failed(int why)
{
    error = why;
    return -1;
}

int rattle_errno(void)
{
    return error;
}

void rattle_set_errno(int now)
{
    error = now;
}

long rattle_arg(size at, byte *to, size n)
{
    if (at >= (size)word_count)
        return -1;
    __builtin_memcpy(to, words[at].p, words[at].n < n ? words[at].n : n);
    return words[at].n <= n ? (long)words[at].n : -2;
}

/* The environment is empty. */
long rattle_env(const byte *name, byte *to, size n)
{
    (void)name, (void)to, (void)n;
    return -1;
}

long rattle_env_at(size at, byte *to, size n)
{
    (void)at, (void)to, (void)n;
    return -1;
}

static int are_same(const struct bytes *a, const byte *p, size n)
{
    size at = 0;
    while (a->n == n && at < n && a->p[at] == p[at])
        at++;
    return a->n == n && at == n;
}

/* The number of the file that has this name, from 1, or else 0. */
static int file_named(const byte *name, size n)
{
    int number = file_count;
    while (number > 0 && !are_same(&files[number - 1].name, name, n))
        number--;
    return number;
}

int open(const byte *path, int flags, ...)
{
    size n = 0;
    while (path[n])
        n++;
    int number = n ? file_named(path, n) : 0, slot = FIRST_OPENED;
    if (flags & NOT_READ_ONLY)
        return (int)failed(NOT_ALLOWED);
    if (!number || flags & AS_FOLDER)
        return (int)failed(NO_ENTRY);
    while (slot < MOST_OPEN && slots[slot].file)
        slot++;
    if (slot == MOST_OPEN)
        return (int)failed(TOO_MANY_OPEN);
    slots[slot].file = number;
    slots[slot].at = 0;
    return slot;
}

int close(int slot)
{
    if (slot < FIRST_OPENED || slot >= MOST_OPEN || !slots[slot].file)
        return (int)failed(BAD_DESCRIPTOR);
    slots[slot].file = 0;
    return 0;
}

long read(int slot, byte *to, size n)
{
    if (slot == 0)
        slots[0].file = file_named(to, 0);
    if (slot < 0 || slot >= MOST_OPEN || (slot > 0 && !slots[slot].file))
        return failed(BAD_DESCRIPTOR);
    if (!slots[slot].file)
        return 0;
    const struct bytes *text = &files[slots[slot].file - 1].text;
    size left = text->n - slots[slot].at;
    if (n > left)
        n = left;
    __builtin_memcpy(to, text->p + slots[slot].at, n);
    slots[slot].at += n;
    return (long)n;
}

long write(int slot, const byte *p, size n)
{
    if (slot != 1 && slot != 2)
        return failed(BAD_DESCRIPTOR);
    return append(&written[slot - 1], p, n) ? (long)n : failed(NO_SPACE);
}

long lseek(int slot, long by, int whence)
{
    if (slot < FIRST_OPENED || slot >= MOST_OPEN || !slots[slot].file)
        return failed(NOT_SEEKABLE);
    size from = whence == 0 ? 0 : whence == 1 ? slots[slot].at : files[slots[slot].file - 1].text.n;
    size to = from + (size)by;
    if (to > files[slots[slot].file - 1].text.n)
        return failed(INVALID);
    slots[slot].at = to;
    return (long)to;
}

/* There are no folders, and nothing is known of a file but its bytes. */
int rattle_open_dir_at(int folder, const byte *name)
{
    (void)folder, (void)name;
    return (int)failed(NO_ENTRY);
}

long getdents64(int slot, byte *to, size n)
{
    (void)slot, (void)to, (void)n;
    return failed(BAD_DESCRIPTOR);
}

long readlink(const byte *path, byte *to, size n)
{
    (void)path, (void)to, (void)n;
    return failed(NO_ENTRY);
}

int statx(int folder, const byte *path, int flags, int mask, void *to)
{
    (void)folder, (void)path, (void)flags, (void)mask, (void)to;
    return (int)failed(NO_SUCH_CALL);
}

/* No stream is a terminal. */
int isatty(int slot)
{
    (void)slot;
    return (int)failed(NO_TERMINAL) + 1;
}

long __sysv_signal(int number, long action)
{
    (void)number, (void)action;
    return 0;
}

/* Arithmetic on 128 bits, which WebAssembly leaves to functions. */

static whole joined(half high, half low)
{
    union { half halves[2]; whole all; } value = { { low, high } };
    return value.all;
}

static half low_of(whole value)
{
    union { whole all; half halves[2]; } parts = { value };
    return parts.halves[0];
}

static half high_of(whole value)
{
    union { whole all; half halves[2]; } parts = { value };
    return parts.halves[1];
}

whole __ashlti3(whole value, int by)
{
    half low = low_of(value), high = high_of(value);
    if (by == 0)
        return value;
    return by < 64 ? joined(high << by | low >> (64 - by), low << by) : joined(low << (by - 64), 0);
}

whole __lshrti3(whole value, int by)
{
    half low = low_of(value), high = high_of(value);
    if (by == 0)
        return value;
    return by < 64 ? joined(high >> by, low >> by | high << (64 - by)) : joined(0, high >> (by - 64));
}

whole __multi3(whole a, whole b)
{
    half al = (address)low_of(a), ah = low_of(a) >> 32, bl = (address)low_of(b), bh = low_of(b) >> 32;
    half low = al * bl, middle = ah * bl + (low >> 32), other = al * bh + (address)middle;
    half high = ah * bh + (middle >> 32) + (other >> 32);
    return joined(high + low_of(a) * high_of(b) + high_of(a) * low_of(b), other << 32 | (address)low);
}
