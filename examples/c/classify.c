// Classifies headers by the policy in a folder. A packet without ports has 65536 for each.
//
//     classify DIR [SOURCE DESTINATION SOURCE_PORT DESTINATION_PORT PROTOCOL]..
//
// The list is read first: what is read is a good list. Then the tree, which may serve only if the check accepts it for
// this list; otherwise the list answers, line by line. The answers are the same.

#include <stdio.h>

#include "wickorchard.h"

struct policy {
    uint32_t rules[WICK_MOST_RULE_WORDS];
    uint32_t nodes[WICK_MOST_NODE_WORDS];
    uint32_t pool[WICK_MOST_POOL_WORDS];
    uint64_t rules_len, nodes_len, pool_len;
    int has_actions; // where rules.txt is an acl file
    int tree_serves; // only once the check has accepted the tree for these rules
};

static struct policy policy;
static uint8_t text[WICK_MOST_FILE_BYTES + 1];

// Reads a file of the folder into `text`. Gives its length, or -1 where it cannot be read to its end, or is too long:
// it is never taken for an empty or a shorter one.
static long read_file(const char *folder, const char *name) {
    char path[4096];
    if (snprintf(path, sizeof path, "%s/%s", folder, name) >= (int)sizeof path) return -1;
    FILE *file = fopen(path, "rb");
    if (!file) return -1;
    size_t length = fread(text, 1, sizeof text, file);
    int failed = ferror(file);
    fclose(file);
    return failed || length > WICK_MOST_FILE_BYTES ? -1 : (long)length;
}

static unsigned long number(uint64_t word) {
    return (unsigned long)word;
}

static void print_refusal(const wick_answer *answer) {
    printf("refused with %lu, place %lu, extra %lu\n", number(answer->number), number(answer->place),
           number(answer->extra));
}

static void print_unread(const char *name) {
    fprintf(stderr, "classify: %s cannot be read to its end, or is over %d bytes\n", name, WICK_MOST_FILE_BYTES);
}

// Reads the list. Gives 0 where there is none.
static int load_rules(const char *folder) {
    long length = read_file(folder, "rules.txt");
    if (length < 0) {
        print_unread("rules.txt");
        return 0;
    }
    wick_answer answer;
    wick_rules_read(text, (uint64_t)length, policy.rules, WICK_MOST_RULE_WORDS, &answer);
    if (answer.number) {
        fprintf(stderr, "classify: rules.txt is refused with %lu, place %lu, extra %lu\n", number(answer.number),
                number(answer.place), number(answer.extra));
        return 0;
    }
    policy.rules_len = WICK_RULE_WORDS * answer.a;
    policy.has_actions = answer.b == 1;
    printf("%lu rules\n", number(answer.a));
    return 1;
}

// Reads the tree and checks it. Where its file cannot be read, or it is refused, the list serves.
static void load_tree(const char *folder) {
    wick_answer answer = {WICK_FILE_NOT_READ, 0, 0, 0, 0, 0, 0, 0};
    long length = read_file(folder, "tree.txt");
    if (length < 0) {
        print_unread("tree.txt");
    } else {
        wick_tree_read(text, (uint64_t)length, policy.nodes, WICK_MOST_NODE_WORDS, policy.pool, WICK_MOST_POOL_WORDS,
                       &answer);
    }
    if (!answer.number) {
        policy.nodes_len = WICK_NODE_WORDS * answer.b;
        policy.pool_len = answer.c;
        wick_tree_check(policy.rules, policy.rules_len, policy.nodes, policy.nodes_len, policy.pool, policy.pool_len,
                        &answer);
    }
    policy.tree_serves = !answer.number;
    if (policy.tree_serves) {
        printf("the tree serves: %lu cuts, longest leaf %lu\n", number(answer.a), number(answer.b));
    } else {
        printf("the list serves, since the tree is ");
        print_refusal(&answer);
    }
}

// Reads an address a.b.c.d. Gives 0 where it is none.
static int read_address(const char *from, uint32_t *to) {
    unsigned a, b, c, d;
    char more;
    if (sscanf(from, "%u.%u.%u.%u%c", &a, &b, &c, &d, &more) != 4) return 0;
    if (a > 255 || b > 255 || c > 255 || d > 255) return 0;
    *to = a << 24 | b << 16 | c << 8 | d;
    return 1;
}

static int read_number(const char *from, uint32_t *to) {
    char more;
    return sscanf(from, "%u%c", to, &more) == 1;
}

// Finds all rules that match, and prints them; the first is the lowest.
static void classify(const uint32_t header[WICK_HEADER_WORDS]) {
    uint32_t found[WICK_MOST_RULES];
    wick_answer answer;
    if (policy.tree_serves) {
        wick_tree_all(policy.rules, policy.rules_len, policy.nodes, policy.nodes_len, policy.pool, policy.pool_len,
                      header, WICK_HEADER_WORDS, found, WICK_MOST_RULES, &answer);
    } else {
        wick_scan_all(policy.rules, policy.rules_len, header, WICK_HEADER_WORDS, found, WICK_MOST_RULES, &answer);
    }
    if (answer.number) {
        print_refusal(&answer);
        return;
    }
    if (answer.a == 0) {
        printf("no rule\n");
        return;
    }
    printf("rule %u first,", found[0]);
    if (policy.has_actions) printf(" action %u,", policy.rules[WICK_RULE_WORDS * found[0] + WICK_ACTION]);
    printf(" of");
    for (uint64_t i = 0; i < answer.a; i++) printf(" %u", found[i]);
    printf("\n");
}

int main(int count, char **given) {
    if (count < 2 || (count - 2) % 5 != 0) {
        fprintf(stderr, "classify: give a folder, and then five words for each header\n");
        return 1;
    }
    if (!load_rules(given[1])) return 1;
    load_tree(given[1]);
    for (char **five = given + 2; five < given + count; five += 5) {
        uint32_t header[WICK_HEADER_WORDS];
        int is_read = read_address(five[0], &header[0]) && read_address(five[1], &header[1]);
        for (int field = 2; field < 5; field++) is_read = is_read && read_number(five[field], &header[field]);
        if (!is_read) {
            fprintf(stderr, "classify: header %d is no header\n", (int)(five - given - 2) / 5 + 1);
            return 1;
        }
        printf("%s %s %s %s %s: ", five[0], five[1], five[2], five[3], five[4]);
        classify(header);
    }
    return 0;
}
