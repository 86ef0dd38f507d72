/* Preloaded to the program by tests/program_cases.py: makes its reads of a file fail, be interrupted, or give few bytes at a time.
 *   READ_FILE    the file's name; without it every file
 *   READ_PART    a read gives at most so many bytes
 *   READ_ERRNO   the error of the reads that fail,
 *   READ_FROM    the first of them, counted from 1,
 *   READ_TIMES   and how many there are
 * A file that was read and is still open when the program ends is told on standard error.
 * Of the C library it needs only what every version has, so that it goes with the kit's as well as with the machine's. */

char *getenv(const char *name);
int *__errno_location(void);

enum { SYS_READ = 0, SYS_WRITE = 1, SYS_CLOSE = 3, SYS_READLINK = 89, MOST_FILES = 64 };

static unsigned long calls;
static int is_open[MOST_FILES];

static long call(long number, long a, long b, long c)
{
    long answer;
    __asm__ volatile("syscall" : "=a"(answer) : "a"(number), "D"(a), "S"(b), "d"(c) : "rcx", "r11", "memory");
    return answer;
}

/* as the C library answers: -1, and the error in errno */
static long answered(long answer)
{
    if (answer >= 0)
        return answer;
    *__errno_location() = (int)-answer;
    return -1;
}

static unsigned long asked(const char *name, unsigned long otherwise)
{
    const char *text = getenv(name);
    unsigned long value = 0;
    if (!text)
        return otherwise;
    for (; *text; text++)
        value = 10 * value + (unsigned long)(*text - '0');
    return value;
}

/* whether READ_FILE names the file of a descriptor */
static int meant(int fd)
{
    const char *name = getenv("READ_FILE");
    char link[] = "/proc/self/fd/00", path[4096];
    if (!name)
        return 1;
    link[14] = (char)('0' + fd / 10);
    link[15] = (char)('0' + fd % 10);
    if (fd < 10) {
        link[14] = link[15];
        link[15] = 0;
    }
    long length = call(SYS_READLINK, (long)link, (long)path, sizeof path - 1), start = 0;
    if (length < 0)
        return 0;
    path[length] = 0;
    for (long i = 0; i < length; i++)
        if (path[i] == '/')
            start = i + 1;
    const char *last = path + start;
    while (*last && *last == *name) {
        last++;
        name++;
    }
    return *last == *name;
}

long read(int fd, void *buf, unsigned long count)
{
    if (fd < 3 || MOST_FILES <= fd)
        return answered(call(SYS_READ, fd, (long)buf, (long)count));
    is_open[fd] = 1;
    if (meant(fd)) {
        unsigned long from = asked("READ_FROM", 0), part = asked("READ_PART", count);
        calls++;
        if (from && from <= calls && calls - from < asked("READ_TIMES", 1))
            return answered(-(long)asked("READ_ERRNO", 5));
        if (part < count)
            count = part;
    }
    return answered(call(SYS_READ, fd, (long)buf, (long)count));
}

int close(int fd)
{
    if (0 <= fd && fd < MOST_FILES)
        is_open[fd] = 0;
    return (int)answered(call(SYS_CLOSE, fd, 0, 0));
}

__attribute__((destructor)) static void tell_open(void)
{
    static const char said[] = "a file was left open\n";
    for (int fd = 3; fd < MOST_FILES; fd++)
        if (is_open[fd])
            call(SYS_WRITE, 2, (long)said, sizeof said - 1);
}
