/* Loaded before a program (LD_PRELOAD), writes a line to the file that CALLS names for each name of a file that the program
 * gives or takes away, and for each sync, with the path of what is synced: in their order.
 * It needs no headers, so that the toolchain's own compiler builds it. */
typedef __SIZE_TYPE__ size;

/* CREATES is O_WRONLY, O_CREAT and O_APPEND; HERE is AT_FDCWD. */
enum { LONGEST = 4096, CREATES = 02101, HERE = -100 };

extern char *getenv(const char *);
extern int open(const char *, int, ...);
extern int close(int);
extern long write(int, const void *, size);
extern long readlink(const char *, char *, size);
extern int linkat(int, const char *, int, const char *, int);
extern int unlinkat(int, const char *, int);
extern int renameat(int, const char *, int, const char *);

static size length(const char *text)
{
    size n = 0;
    while (text[n])
        n++;
    return n;
}

/* Writes a line of a word and a path. */
static void note(const char *word, const char *path)
{
    const char *name = getenv("CALLS");
    int file = name ? open(name, CREATES, 0644) : -1;
    if (file < 0)
        return;
    write(file, word, length(word));
    write(file, " ", 1);
    write(file, path, length(path));
    write(file, "\n", 1);
    close(file);
}

/* The same of an open file. */
static void note_file(const char *word, int file)
{
    char name[32] = "/proc/self/fd/", path[LONGEST + 1], digits[12];
    int n = 0, at = length(name);
    for (; file > 0 || !n; file /= 10)
        digits[n++] = '0' + file % 10;
    while (n)
        name[at++] = digits[--n];
    name[at] = 0;
    long told = readlink(name, path, LONGEST);
    path[told < 0 ? 0 : told] = 0;
    note(word, path);
}

/* Their numbers. */
extern long syscall(long, ...);

#if defined(__x86_64__)
enum { FSYNC = 74, FDATASYNC = 75 };
#else
enum { FSYNC = 82, FDATASYNC = 83 };
#endif

int fsync(int file)
{
    note_file("sync", file);
    return (int)syscall(FSYNC, file);
}

int fdatasync(int file)
{
    note_file("sync", file);
    return (int)syscall(FDATASYNC, file);
}

int link(const char *from, const char *to)
{
    note("link", to);
    return linkat(HERE, from, HERE, to, 0);
}

int unlink(const char *path)
{
    note("unlink", path);
    return unlinkat(HERE, path, 0);
}

int rename(const char *from, const char *to)
{
    note("rename", to);
    return renameat(HERE, from, HERE, to);
}
