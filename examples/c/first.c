// Says which rule of a rules or acl file decides about a packet, the lowest that matches, and its action. A packet
// without ports has 65536 for each.
//
//     first RULES SOURCE DESTINATION SOURCE_PORT DESTINATION_PORT PROTOCOL

#include <stdio.h>

#include "wickorchard.h"

static uint8_t text[WICK_MOST_FILE_BYTES + 1];
static uint32_t rules[WICK_MOST_RULE_WORDS];

// Reads a.b.c.d as a number, in this machine's own byte order.
static int address(const char *from, uint32_t *to) {
    uint32_t a, b, c, d;
    if (sscanf(from, "%u.%u.%u.%u", &a, &b, &c, &d) != 4 || a > 255 || b > 255 || c > 255 || d > 255) return 0;
    *to = a << 24 | b << 16 | c << 8 | d;
    return 1;
}

static int number(const char *from, uint32_t *to) {
    return sscanf(from, "%u", to) == 1;
}

static int refused(const wick_answer *answer) {
    fprintf(stderr, "refused with %lu, place %lu\n", (unsigned long)answer->number, (unsigned long)answer->place);
    return 1;
}

int main(int count, char **given) {
    uint32_t header[WICK_HEADER_WORDS];
    if (count != 7 || !address(given[2], &header[0]) || !address(given[3], &header[1]) ||
        !number(given[4], &header[2]) || !number(given[5], &header[3]) || !number(given[6], &header[4])) {
        fprintf(stderr, "give a rules or acl file, two addresses, two ports and a protocol\n");
        return 2;
    }

    // A file that cannot be read to its end is never taken for a shorter one.
    FILE *file = fopen(given[1], "rb");
    size_t length = file ? fread(text, 1, sizeof text, file) : 0;
    if (!file || ferror(file) || length > WICK_MOST_FILE_BYTES) {
        fprintf(stderr, "%s cannot be read, or is too long\n", given[1]);
        return 2;
    }

    // What is read is a good list, so it can be scanned for any number of headers.
    wick_answer answer;
    wick_rules_read(text, length, rules, WICK_MOST_RULE_WORDS, &answer);
    if (answer.number != WICK_COMPLETED) return refused(&answer);
    uint64_t rules_len = answer.a * WICK_RULE_WORDS;

    wick_scan_first(rules, rules_len, header, WICK_HEADER_WORDS, &answer);
    if (answer.number != WICK_COMPLETED) return refused(&answer);
    if (answer.a == 0) {
        printf("no rule\n");
    } else {
        printf("rule %lu, action %lu\n", (unsigned long)answer.a - 1, (unsigned long)answer.d);
    }
    return 0;
}
