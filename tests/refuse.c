/* Loaded before a program (LD_PRELOAD), refuses the request for memory that REFUSE_AT numbers, from 1, of those that the
 * program's own code makes, and the next ones, REFUSE_MANY in all; at the first it prints the line "refused" as an error. What
 * the C library asks for isn't counted. To the file that REFUSE_LIST names, if it does, it writes each request as two
 * numbers of 64 bits: the place in the program that asks, and the length.
 * It needs no headers, so that the toolchain's own compiler builds it. */
typedef __SIZE_TYPE__ size;
typedef __UINTPTR_TYPE__ place;
typedef __UINT32_TYPE__ u32;
typedef __UINT64_TYPE__ u64;

/* As ELF has it. */
struct segment {
    u32 type, flags;
    u64 offset, address, physical, length_in_file, length, alignment;
};

/* As the dynamic linker tells it. */
struct object {
    place base;
    const char *name;
    const struct segment *segments;
    unsigned short count;
};

/* WRITES is O_WRONLY and O_APPEND. */
enum { LOADED = 1, RUNS = 1, ERRORS = 2, WRITES = 02001 };

extern void *__libc_malloc(size);
extern void *__libc_realloc(void *, size);
extern char *getenv(const char *);
extern int open(const char *, int, ...);
extern long write(int, const void *, size);
extern int dl_iterate_phdr(int (*)(struct object *, size, void *), void *);

static place from, past;
static u64 at, many, asked;
static int list = -1;

/* The first object is the program: looks where its code is, and asks for no other. */
static int look(struct object *it, size unused, void *none)
{
    (void)unused;
    (void)none;
    for (int i = 0; i < it->count; i++)
        if (it->segments[i].type == LOADED && (it->segments[i].flags & RUNS)) {
            from = it->base + it->segments[i].address;
            past = from + it->segments[i].length;
        }
    return 1;
}

static u64 number(const char *name)
{
    const char *word = getenv(name);
    u64 value = 0;
    for (; word && *word >= '0' && *word <= '9'; word++)
        value = 10 * value + (u64)(*word - '0');
    return value;
}

__attribute__((constructor)) static void begin(void)
{
    at = number("REFUSE_AT");
    many = number("REFUSE_MANY");
    if (getenv("REFUSE_LIST"))
        list = open(getenv("REFUSE_LIST"), WRITES);
    dl_iterate_phdr(look, 0);
}

static int is_refused(const void *caller, size length)
{
    place it = (place)caller;
    if (it < from || it >= past)
        return 0;
    u64 request[2] = {it - from, length};
    if (list >= 0)
        (void)!write(list, request, sizeof request);
    u64 now = __atomic_add_fetch(&asked, 1, __ATOMIC_SEQ_CST);
    if (now == at)
        (void)!write(ERRORS, "refused\n", 8);
    return at && now >= at && now < at + many;
}

void *malloc(size length)
{
    return is_refused(__builtin_return_address(0), length) ? 0 : __libc_malloc(length);
}

void *realloc(void *old, size length)
{
    return is_refused(__builtin_return_address(0), length) ? 0 : __libc_realloc(old, length);
}
