// The lender: makes the library's calls for `compare`, in memory that both programs have mapped.
//
//     lender ARENA
//
// The library is x86-64 code, and so is this program, while `compare` is code of the machine that it runs on. ARENA is
// a file; every slice that a call is lent is a part of it. Standard input gives one request for each call. Standard
// output takes a word for each of them, and one before: the arena's size in bytes once it is mapped; then, when a call
// has returned, the number of the call, or 0 where there is no such call. The end of the input ends the program with
// status 0, and whatever goes wrong here ends it with status 2.
//
// The kit that compiles this has no C headers, so of the C library all that is used is declared here.

#include "wickorchard.h"

typedef uint8_t u8;
typedef uint32_t u32;
typedef uint64_t u64;

// The C library, and its numbers on x86-64 Linux.
int open(const char *path, int flags, ...);
long lseek(int file, long offset, int from);
void *mmap(void *at, u64 size, int access, int flags, int file, long offset);
long read(int file, void *to, u64 size);
long write(int file, const void *from, u64 size);

enum { STANDARD_INPUT = 0, STANDARD_OUTPUT = 1 };
enum { READ_AND_WRITE = 2, TO_THE_END = 2 };                          // O_RDWR, SEEK_END
enum { NO_ACCESS = 0, READABLE = 1, WRITABLE = 2 };                   // PROT_NONE, PROT_READ, PROT_WRITE
enum { SHARED = 0x01, PRIVATE = 0x02, FIXED = 0x10, NO_FILE = 0x20 }; // MAP_.., the last being MAP_ANONYMOUS
#define NOT_MAPPED ((void *)-1)                                       // MAP_FAILED

// The calls' numbers, as `abi.rs` has them.
enum { RULE_CHECK = 1, LINE_ALL = 2, LINE_FIRST = 3, TREE_ALL = 4, TREE_FIRST = 5, TREE_CHECK = 6 };
enum { RULES_WRITE = 7, RULES_READ = 8, TREE_WRITE = 9, TREE_READ = 10, SCAN_ALL = 11, SCAN_FIRST = 12, BUILD = 13 };
enum { BUILD_SOME = 14, BUILD_ON = 15, PART_WRITE = 16, PART_READ = 17, ACL_WRITE = 18, RULE_MISSES = 19 };

// The bytes on either side of the arena that a call may not touch: one that does ends the program.
enum { MARGIN = 1 << 20 };

struct slice {
    u64 offset; // where it begins, in bytes from the arena's start
    u64 length; // as the call takes it, in elements
};

// One request, as `abi.rs` writes it. What a call does not take is 0.
struct request {
    u64 call;
    struct slice slices[6]; // in the order of the call's parameters
    u64 numbers[2];         // likewise
    u64 answer;             // where the answer begins, in bytes from the arena's start
};

// Slice `i` as a call takes it, where its elements are 32-bit words, and where they are bytes.
#define WORDS(i) (u32 *)(arena + asked->slices[i].offset), asked->slices[i].length
#define BYTES(i) (u8 *)(arena + asked->slices[i].offset), asked->slices[i].length

// Makes the call that is asked for, and gives its number; gives 0 where there is no such call.
static u64 make_call(char *arena, const struct request *asked) {
    wick_answer *answer = (wick_answer *)(arena + asked->answer);
    switch (asked->call) {
    case RULE_CHECK:
        wick_rule_check(WORDS(0), answer);
        return RULE_CHECK;
    case LINE_ALL:
        wick_line_all(WORDS(0), WORDS(1), WORDS(2), answer);
        return LINE_ALL;
    case LINE_FIRST:
        wick_line_first(WORDS(0), WORDS(1), answer);
        return LINE_FIRST;
    case TREE_ALL:
        wick_tree_all(WORDS(0), WORDS(1), WORDS(2), WORDS(3), WORDS(4), answer);
        return TREE_ALL;
    case TREE_FIRST:
        wick_tree_first(WORDS(0), WORDS(1), WORDS(2), WORDS(3), answer);
        return TREE_FIRST;
    case TREE_CHECK:
        wick_tree_check(WORDS(0), WORDS(1), WORDS(2), answer);
        return TREE_CHECK;
    case RULES_WRITE:
        wick_rules_write(WORDS(0), BYTES(1), answer);
        return RULES_WRITE;
    case RULES_READ:
        wick_rules_read(BYTES(0), WORDS(1), answer);
        return RULES_READ;
    case TREE_WRITE:
        wick_tree_write(asked->numbers[0], WORDS(0), WORDS(1), BYTES(2), answer);
        return TREE_WRITE;
    case TREE_READ:
        wick_tree_read(BYTES(0), WORDS(1), WORDS(2), answer);
        return TREE_READ;
    case SCAN_ALL:
        wick_scan_all(WORDS(0), WORDS(1), WORDS(2), answer);
        return SCAN_ALL;
    case SCAN_FIRST:
        wick_scan_first(WORDS(0), WORDS(1), answer);
        return SCAN_FIRST;
    case BUILD:
        wick_build(WORDS(0), WORDS(1), WORDS(2), answer);
        return BUILD;
    case BUILD_SOME:
        wick_build_some(WORDS(0), asked->numbers[0], WORDS(1), WORDS(2), answer);
        return BUILD_SOME;
    case BUILD_ON:
        wick_build_on(WORDS(0), asked->numbers[0], WORDS(1), WORDS(2), asked->numbers[1], WORDS(3), WORDS(4), answer);
        return BUILD_ON;
    case PART_WRITE:
        wick_part_write(asked->numbers[0], WORDS(0), WORDS(1), BYTES(2), answer);
        return PART_WRITE;
    case PART_READ:
        wick_part_read(BYTES(0), WORDS(1), WORDS(2), answer);
        return PART_READ;
    case ACL_WRITE:
        wick_acl_write(WORDS(0), BYTES(1), answer);
        return ACL_WRITE;
    case RULE_MISSES:
        wick_rule_misses(WORDS(0), WORDS(1), asked->numbers[0], answer);
        return RULE_MISSES;
    default:
        return 0;
    }
}

// Maps the file between two margins. Gives its start and leaves its size, or gives null.
static char *map_arena(const char *path, u64 *size) {
    int file = open(path, READ_AND_WRITE);
    long end = lseek(file, 0, TO_THE_END);
    if (file < 0 || end <= 0) return 0;
    char *margins = mmap(0, end + 2 * MARGIN, NO_ACCESS, PRIVATE | NO_FILE, -1, 0);
    if (margins == NOT_MAPPED) return 0;
    char *arena = mmap(margins + MARGIN, end, READABLE | WRITABLE, SHARED | FIXED, file, 0);
    if (arena == NOT_MAPPED) return 0;
    *size = end;
    return arena;
}

// Reads a request, in as many parts as it comes in. Gives 1, or 0 where the input ends before it, or -1.
static int read_request(struct request *asked) {
    u64 done = 0;
    while (done < sizeof *asked) {
        long part = read(STANDARD_INPUT, (char *)asked + done, sizeof *asked - done);
        if (part == 0 && done == 0) return 0;
        if (part <= 0) return -1;
        done += part;
    }
    return 1;
}

// Writes one word, in as many parts as are taken. Gives 1, or 0 where it cannot be written.
static int write_word(u64 word) {
    u64 done = 0;
    while (done < sizeof word) {
        long part = write(STANDARD_OUTPUT, (char *)&word + done, sizeof word - done);
        if (part <= 0) return 0;
        done += part;
    }
    return 1;
}

int main(int count, char **given) {
    u64 size = 0;
    char *arena = count == 2 ? map_arena(given[1], &size) : 0;
    if (!arena || !write_word(size)) return 2;
    struct request asked;
    int more = read_request(&asked);
    while (more == 1 && write_word(make_call(arena, &asked))) {
        more = read_request(&asked);
    }
    return more == 0 ? 0 : 2;
}
