// Stands between a program and the system: it writes down each call of open, read, write and close, and can spoil them.
//
// `.ci/trial` has it loaded before the C library (`--preload`), and tells it two variables of the environment.
//
//     SPOIL=CALL NUMBER MOST ..
//
// has triples, with one blank between two words. CALL is o, r, w or c. NUMBER says which call of that kind is spoilt,
// counted from 1; 0 says each of them. MOST is the most bytes that a spoilt call moves: a read that may move none gives
// the end, and a write that may move none takes nothing. Where MOST is - the call fails, with the error EIO; a close
// that fails so has closed. Of two triples that name a call, the later one holds.
//
//     SPOIL_LOG=FILE
//
// is a file that gets a line for each call: its name, the file's, what was asked for, and what the program was told,
// with a tab between two. For open these are the flags and the descriptor; for read and write they are bytes. Standard
// input, output and error are named input, output and errors.
//
// The kit that compiles this has no C headers, so of the C library all that is used is declared here.

typedef unsigned long u64;

// The C library, and its numbers on x86-64 Linux.
long syscall(long number, ...);
char *getenv(const char *name);
int *__errno_location(void);

enum { SYS_READ = 0, SYS_WRITE = 1, SYS_OPEN = 2, SYS_CLOSE = 3, SYS_FCNTL = 72, SYS_EXIT_GROUP = 231 };
enum { TO_APPEND = 02001, NEW = 0100, COPY_FROM = 1030, IO_ERROR = 5 }; // O_WRONLY with O_APPEND, O_CREAT, F_DUPFD_..

// A descriptor that no program here gets, for the log. Files whose names are kept have lower ones.
enum { LOG = 100, MOST_NAME = 4096 };

// What a spoilt call does, where it is not a number of bytes.
enum { AS_ASKED = -1, FAILS = -2 };

static char names[LOG][MOST_NAME] = {"input", "output", "errors"};
static int log_is_open;

// Whatever goes wrong here must not pass for the program's own doing.
static void give_up(void) {
    syscall(SYS_EXIT_GROUP, 99L);
}

// ---- the log

static void write_text(const char *text) {
    u64 length = 0;
    while (text[length])
        length++;
    if (syscall(SYS_WRITE, (long)LOG, text, length) != (long)length)
        give_up();
}

static void write_number(long number) {
    char digits[24];
    int at = sizeof digits - 1;
    long rest = number < 0 ? -number : number;
    digits[at] = 0;
    do
        digits[--at] = (char)('0' + rest % 10);
    while (rest /= 10);
    if (number < 0)
        digits[--at] = '-';
    write_text(digits + at);
}

static void write_down(const char *call, const char *name, long asked, long told) {
    const char *path = getenv("SPOIL_LOG");
    if (!path)
        return;
    if (!log_is_open) {
        long file = syscall(SYS_OPEN, path, (long)(TO_APPEND | NEW), 0666L);
        if (file < 0 || syscall(SYS_FCNTL, file, (long)COPY_FROM, (long)LOG) != LOG)
            give_up();
        syscall(SYS_CLOSE, file);
        log_is_open = 1;
    }
    write_text(call);
    write_text("\t");
    write_text(name);
    write_text("\t");
    write_number(asked);
    write_text("\t");
    write_number(told);
    write_text("\n");
}

// ---- what is spoilt

// The next word of the triples, which are left past it; 0 where there is none.
static const char *next_word(const char **triples) {
    const char *word = *triples;
    if (!*word)
        return 0;
    while (**triples && **triples != ' ')
        ++*triples;
    if (**triples)
        ++*triples;
    return word;
}

static long number_in(const char *word) {
    long number = 0;
    while (*word >= '0' && *word <= '9')
        number = number * 10 + (*word++ - '0');
    return number;
}

// What call number `number` of this kind does.
static long spoilt(char kind, long number) {
    const char *triples = getenv("SPOIL");
    long does = AS_ASKED;
    while (triples && *triples) {
        const char *call = next_word(&triples), *which = next_word(&triples), *most = next_word(&triples);
        if (!call || !which || !most)
            give_up();
        if (*call == kind && (!number_in(which) || number_in(which) == number))
            does = *most == '-' ? FAILS : number_in(most);
    }
    return does;
}

static long fail(void) {
    *__errno_location() = IO_ERROR;
    return -1;
}

static const char *name_of(int file) {
    return file >= 0 && file < LOG ? names[file] : "unknown";
}

// ---- the calls

int open(const char *path, int flags, ...) {
    static long calls;
    long file = spoilt('o', ++calls) == FAILS ? fail() : syscall(SYS_OPEN, path, (long)flags, 0L);
    if (file >= LOG)
        give_up();
    if (file >= 0) {
        int at = 0;
        for (; path[at] && at < MOST_NAME - 1; at++)
            names[file][at] = path[at];
        names[file][at] = 0;
    }
    write_down("open", path, flags, file);
    return (int)file;
}

long read(int file, void *to, u64 size) {
    static long calls;
    long does = spoilt('r', ++calls), got;
    if (does == FAILS)
        got = fail();
    else
        got = does == 0 ? 0 : syscall(SYS_READ, (long)file, to, does > 0 && (u64)does < size ? (u64)does : size);
    write_down("read", name_of(file), (long)size, got);
    return got;
}

long write(int file, const void *from, u64 size) {
    static long calls;
    long does = spoilt('w', ++calls), put;
    if (does == FAILS)
        put = fail();
    else
        put = does == 0 ? 0 : syscall(SYS_WRITE, (long)file, from, does > 0 && (u64)does < size ? (u64)does : size);
    write_down("write", name_of(file), (long)size, put);
    return put;
}

int close(int file) {
    static long calls;
    long does = spoilt('c', ++calls), closed = syscall(SYS_CLOSE, (long)file);
    if (does == FAILS)
        closed = fail();
    write_down("close", name_of(file), 0, closed);
    return (int)closed;
}
