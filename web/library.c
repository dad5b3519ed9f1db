/* What the program asks of the C library, for a page in a browser: one thread, a heap, standard input,
   output and error, files to be read, the arguments and an end. The page gives six functions; the linker
   allows nothing else that is undefined, so a program that asks for more isn't linked.

   Each call of the program has an instance and a memory of its own, so nothing is ever given back to
   the browser but the whole. */

typedef unsigned char byte;
typedef unsigned long size; /* 64 bits, as the program's usize */
typedef unsigned __int128 wide;

#define PAGE 65536ul
#define EAGAIN 11

#define GIVEN(name) __attribute__((import_module("page"), import_name(name)))
GIVEN("read") long page_read(int from, void *to, size room);
GIVEN("write") long page_write(int to, const void *from, size length);
GIVEN("open") long page_open(const void *name, size length);
GIVEN("argument") long page_argument(size number, void *to, size room);
GIVEN("exit") _Noreturn void page_exit(int status);

/* Ends the call where a machine of one thread has no answer. */
enum { ABORTED = 1, JOINED = 2, WAITED = 3 };
GIVEN("stop") _Noreturn void page_stop(int why);

/* The heap. A block has one of four sizes for each doubling, from 16 bytes on, and before it 16 bytes
   with the number of its size. A freed block goes to the list of its size, and is taken from there
   first; fresh blocks come from the end of memory. */

struct head { size kind, unused; };
struct freed { struct freed *next; };

#define MOST (1ul << 40)
extern byte __heap_base;
static size fresh, limit; /* where the next fresh block begins, and the end of memory */
static struct freed *freed[256];

static size kind_of(size bytes) {
    if (bytes <= 16) return 0;
    if (bytes <= 64) return (bytes + 15) / 16 - 1;
    size power = 63 - __builtin_clzl(bytes - 1);
    return (power - 6) * 4 + 4 + ((bytes - 1) >> (power - 2) & 3);
}

static size bytes_of(size kind) {
    return kind < 4 ? (kind + 1) * 16 : ((kind - 4) % 4 + 5) << ((kind - 4) / 4 + 4);
}

/* Whether memory reaches this address, which asks for more where it doesn't. */
static int reaches(size address) {
    if (address <= limit) return 1;
    size pages = (address - limit + PAGE - 1) / PAGE;
    if (__builtin_wasm_memory_grow(0, pages) == (size)-1) return 0;
    limit += pages * PAGE;
    return 1;
}

void *malloc(size bytes) {
    if (bytes > MOST) return 0;
    size kind = kind_of(bytes);
    struct freed *found = freed[kind];
    if (found) {
        freed[kind] = found->next;
        return found;
    }
    if (!fresh) {
        fresh = ((size)&__heap_base + 15) & ~15ul;
        limit = __builtin_wasm_memory_size(0) * PAGE;
    }
    size next = fresh + sizeof(struct head) + bytes_of(kind);
    if (!reaches(next)) return 0;
    struct head *made = (struct head *)fresh;
    fresh = next;
    made->kind = kind;
    return made + 1;
}

void free(void *block) {
    if (!block) return;
    size kind = ((struct head *)block)[-1].kind;
    ((struct freed *)block)->next = freed[kind];
    freed[kind] = block;
}

void *realloc(void *block, size bytes) {
    if (!block) return malloc(bytes);
    struct head *head = (struct head *)block - 1;
    size old = bytes_of(head->kind);
    if (bytes <= old) return block;
    if (bytes > MOST) return 0;
    if ((size)block + old == fresh) { /* the last block grows where it stands */
        size kind = kind_of(bytes), next = (size)block + bytes_of(kind);
        if (!reaches(next)) return 0;
        head->kind = kind;
        fresh = next;
        return block;
    }
    void *made = malloc(bytes);
    if (!made) return 0;
    __builtin_memcpy(made, block, old);
    free(block);
    return made;
}

/* The heap by the kit's names: whether there is a block, and its address; the address of nothing where
   there is none. Blocks of no bytes have as many as their alignment. */

struct found { size is_some; void *block; };
static byte nothing;

static struct found found_at(void *block) { return (struct found){block != 0, block ? block : &nothing}; }

struct found rattle_alloc(size bytes, size align) { return found_at(malloc(bytes ? bytes : align)); }

struct found rattle_realloc(void *block, size old, size bytes, size align) {
    return found_at(realloc(block, bytes ? bytes : align));
}

void rattle_dealloc(void *block) { free(block); }

/* Bytes, and 128-bit numbers: LLVM calls these by name. With bulk memory, the first three are one
   instruction each. */

void *memcpy(void *to, const void *from, size length) { return __builtin_memcpy(to, from, length); }
void *memmove(void *to, const void *from, size length) { return __builtin_memmove(to, from, length); }
void *memset(void *to, int value, size length) { return __builtin_memset(to, value, length); }

static size word_at(const byte *place) {
    size word;
    __builtin_memcpy(&word, place, sizeof word);
    return word;
}

/* Words first, as long as they are the same: a search through every schedule compares much. */
int memcmp(const void *left, const void *right, size length) {
    const byte *a = left, *b = right;
    for (; length >= sizeof(size) && word_at(a) == word_at(b); length -= sizeof(size)) a += sizeof(size), b += sizeof(size);
    for (; length; length--, a++, b++)
        if (*a != *b) return *a - *b;
    return 0;
}

int bcmp(const void *left, const void *right, size length) { return memcmp(left, right, length); }

size strlen(const char *text) {
    size length = 0;
    while (text[length]) length++;
    return length;
}

union halves {
    wide whole;
    struct { size low, high; };
};

wide __multi3(wide left, wide right) {
    union halves a = {left}, b = {right}, product;
    const size low_half = 0xffffffff;
    size a0 = a.low & low_half, a1 = a.low >> 32, b0 = b.low & low_half, b1 = b.low >> 32;
    size low = a0 * b0, middle = a1 * b0 + (low >> 32), other = a0 * b1 + (middle & low_half);
    product.low = other << 32 | (low & low_half);
    product.high = a1 * b1 + (middle >> 32) + (other >> 32) + a.low * b.high + a.high * b.low;
    return product.whole;
}

wide __ashlti3(wide number, int by) {
    union halves a = {number};
    if (by & 64) a.high = a.low << (by & 63), a.low = 0;
    else if (by) a.high = a.high << by | a.low >> (64 - by), a.low <<= by;
    return a.whole;
}

wide __lshrti3(wide number, int by) {
    union halves a = {number};
    if (by & 64) a.low = a.high >> (by & 63), a.high = 0;
    else if (by) a.low = a.low >> by | a.high << (64 - by), a.high >>= by;
    return a.whole;
}

/* Long division, bit by bit: only numbers of 128 bits are printed by it. */
static wide divided(wide number, wide by, wide *rest) {
    wide quotient = 0;
    *rest = 0;
    for (int bit = 127; bit >= 0; bit--) {
        *rest = __ashlti3(*rest, 1) | (__lshrti3(number, bit) & 1);
        if (*rest >= by) *rest -= by, quotient |= __ashlti3(1, bit);
    }
    return quotient;
}

wide __udivti3(wide number, wide by) {
    wide rest;
    return divided(number, by, &rest);
}

wide __umodti3(wide number, wide by) {
    wide rest;
    divided(number, by, &rest);
    return rest;
}

/* Files, arguments and the end. There is no environment and no signal. */

static int error;
int rattle_errno(void) { return error; }
void rattle_set_errno(int to) { error = to; }

/* The page answers the number of an open file, or that of an error less than 0. */
int open(const char *name, int how, ...) {
    long file = page_open(name, strlen(name));
    if (file >= 0) return file;
    error = -file;
    return -1;
}

int close(int file) { return 0; }
int isatty(int file) { return 0; }

int __xpg_strerror_r(int number, char *to, size room) {
    const char *text = number == 2 ? "No such file or directory" : number == 21 ? "Is a directory" : "Unknown error";
    size length = strlen(text);
    if (length >= room) return 34; /* ERANGE */
    memcpy(to, text, length + 1);
    return 0;
}

long read(int from, void *to, size room) { return page_read(from, to, room); }
long write(int to, const void *from, size length) { return page_write(to, from, length); }
long __write(int to, const void *from, size length) { return page_write(to, from, length); }
long rattle_arg(size number, void *to, size room) { return page_argument(number, to, room); }
long rattle_env(const byte *name, void *to, size room) { return -1; }
long rattle_env_at(size number, void *to, size room) { return -1; }
long __sysv_signal(int number, long handler) { return 0; }
void _exit(int status) { page_exit(status); }
void abort(void) { page_stop(ABORTED); }

/* The program's main asks whether the processor has what x86-64-v2 has, and else says so and ends. It
   is compiled for another machine here, on which nothing of that is asked: yes to all. */
static const size all_of_it[4] = {-1ul, -1ul, -1ul, -1ul};
const void *__x86_get_cpuid_feature_leaf(unsigned leaf) { return all_of_it; }

/* Threads: none can be made, which the program takes as it takes any machine's refusal: the thread that
   asks does the work. Who would wait for another thread would wait for ever, so the call is stopped. */

int pthread_create(void *thread, void *attributes, void *start, void *argument) { return EAGAIN; }
int pthread_attr_init(void *attributes) { return 0; }
int pthread_attr_destroy(void *attributes) { return 0; }
int pthread_attr_setguardsize(void *attributes, size bytes) { return 0; }
int pthread_attr_setstacksize(void *attributes, size bytes) { return 0; }
long pthread_self(void) { return 1; }
int pthread_detach(long thread) { page_stop(JOINED); }
int pthread_join(long thread, void *result) { page_stop(JOINED); }
int sched_yield(void) { return 0; }

/* How many processors there are, and which of them the program may use. */
long sysconf(int name) { return 1; }
int sched_getaffinity(int process, size bytes, void *mask) { return -1; }

/* The program's one system call is futex: operation 0 waits, and waking wakes nobody. It is variadic in
   the C library, and must be here: calls of another signature trap. */
long syscall(long number, void *word, long operation, long value, void *time, ...) {
    if ((operation & 127) == 0) page_stop(WAITED);
    return 0;
}

/* LLVM makes main(count, words) round a main of no arguments. */
int main(int count, char **words);
__attribute__((export_name("start"))) int start(void) { return main(0, 0); }
