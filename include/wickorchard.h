/* Wickorchard: five-field packet classification, proved. docs/PROGRAMMER.md says how to link it, with a whole program.
 *
 * LENT MEMORY. A slice is lent as a pointer and the number of its elements: words of 32 bits, or bytes. The pointer is
 * never null, not even for no elements, and is aligned for its type. A slice that is written to overlaps nothing else
 * that the same call is lent, and neither does the answer. Beyond that a call takes any words and bytes: it finishes,
 * touches nothing that it was not lent, and on a refusal alters nothing but the answer.
 *
 * THREADS. A call allocates nothing, has no state of its own and keeps nothing when it returns. So calls may run in any
 * number of threads at once, as long as nobody writes to memory while a call is lent it. What calls only read may be
 * lent to many of them at once.
 *
 * BYTE ORDER. Every word is a number in this machine's own order. The address a.b.c.d is the number
 *     a * 2^24 + b * 2^16 + c * 2^8 + d
 * A packet has its addresses and ports in network order: put them through ntohl and ntohs first. Without that they are
 * other addresses and other ports: no call refuses them for that, and the answer is wrong.
 *
 * A RULE is eleven words (WICK_RULE_WORDS):
 *     0  source address                       1  its length: how many of the first bits count, 0 to 32
 *     2  destination address                  3  its length
 *     4  lowest source port                   5  highest source port
 *     6  lowest destination port              7  highest destination port
 *     8  lowest protocol                      9  highest protocol
 *    10  its action (WICK_ACTION)
 * It is good if each length is at most 32, the address bits past the length are 0, no low end is over its high end,
 * ports are at most 65,535, and protocols and the action at most 255. A list is up to WICK_MOST_RULES rules, one after
 * another, no two of which have the same words 0 to 9. They are numbered from 0, and of the rules that match a header
 * the lowest number decides. A first-match gives the action of the rule that it finds; what the action means is the
 * caller's to say.
 *
 * A HEADER is five words (WICK_HEADER_WORDS), fields 0 to 4: source address, destination address, source port,
 * destination port, protocol. A port is at most 65,535, or WICK_ABSENT_PORT, which is 65,536; the protocol is at most
 * 255.
 *
 * PACKETS WITHOUT PORTS. A later fragment (its fragment offset is not 0) has no ports, nor has ICMP or any other
 * protocol without them. Such a packet has WICK_ABSENT_PORT in both port fields, and only rules with ports 0 to 65,535
 * in both match it. Port 0 is a port like any other: with 0 such a packet would match rules for ports 0 to 1,023, and
 * no call can tell.
 *
 * A TREE is its nodes, numbered from 0, and a pool of rule numbers. The root is node 0. A node is three words
 * (WICK_NODE_WORDS):
 *     cut    0  a field, 0 to 4       1  a value                             2  the number of the right child
 *     leaf   0  WICK_LEAF             1  where its entries start in the pool 2  how many they are
 * At a cut, a header whose field is at most the value goes on to the next node, and any other to the right child. At a
 * leaf, the header is compared with the rules that the entries name.
 *
 * A PART is what stands of a tree whose build was stopped: its first nodes and their entries, as a tree has them, but
 * with 0 for each right child that is not begun. It is no tree: go on with it by wick_build_on. wick_tree_check refuses
 * it; but the two tree searches take any words, and by a part they may give a wrong answer.
 *
 * UNCHECKED TREES. The two tree searches answer by the tree as it is. By a tree that is wrong for the rules they may
 * give a WRONG ANSWER WITHOUT A REFUSAL. Search only a tree that wick_tree_check has accepted or wick_build has built,
 * with the same rules, nodes and pool, unchanged since. A tree that wick_tree_read has read is not checked by that, and
 * neither is a part that wick_part_read has read.
 */
#ifndef WICKORCHARD_H
#define WICKORCHARD_H

#if defined __has_include
#if !__has_include(<stdint.h>)
#define WICK_NO_STDINT /* a compiler without C headers, as the kit's is */
#endif
#endif
#ifdef WICK_NO_STDINT
typedef __UINT8_TYPE__ uint8_t;
typedef __UINT32_TYPE__ uint32_t;
typedef __UINT64_TYPE__ uint64_t;
#else
#include <stdint.h>
#endif

#ifdef __cplusplus
extern "C" {
#endif

/* What a call answers. Each call writes all eight words. The comment above a call names those of a to e that it gives;
 * the others are 0. On a refusal a to e are all 0. */
typedef struct wick_answer {
    uint64_t number; /* 0 where the call completed, else the refusal's number */
    uint64_t place;  /* where: a rule, a field, a node, a line, or how much room is needed; 0 where it completed */
    uint64_t extra;  /* 0 unless the refusal has one; 0 where it completed */
    uint64_t a, b, c, d, e;
} wick_answer;

/* The numbers of the refusals. The comment above a call names those that it gives, in the order in which it looks for
 * them. */
enum {
    WICK_COMPLETED = 0,
    /* The rule words are not a multiple of eleven, or over 5,632; or a tree or a part to write is for more than 512
     * rules. */
    WICK_RULE_WORDS_WRONG = 1,
    /* A rule is not good: place is the lowest such rule. For wick_rules_write, also where its action is not 0. For
     * wick_rule_misses, also where the list has no such rule: place is the number as given. */
    WICK_RULE_NOT_GOOD = 2,
    /* The header is not five words: place 5. Or a port or the protocol is too large: place is the lowest such field. */
    WICK_HEADER_WRONG = 3,
    /* The lent output is too short: place is how many words or bytes are needed; extra is 1 where the pool is meant. */
    WICK_OUTPUT_SHORT = 4,
    /* There are no node words, they are not a multiple of three, or over 6,141; or the pool is over 4,096 words. */
    WICK_TREE_WORDS_WRONG = 5,
    /* A node is wrong, missing or left over: place is its number. Or a part is for another number of rules: place 0. */
    WICK_NODE_WRONG = 6,
    /* A leaf's start, count or entries are wrong: place is its node. Or the counts of all leaves do not add up to the
     * pool's length: place is the number of nodes. */
    WICK_LEAF_WRONG = 7,
    /* A leaf lacks a rule whose box meets the leaf's box, so some header would get a wrong list: place is the node of
     * the lowest such leaf, extra the lowest such rule. */
    WICK_LEAF_LACKS_RULE = 8,
    /* A line of the text is wrong, or something comes after the end line: place is the line, counted from 1. */
    WICK_LINE_WRONG = 9,
    /* The text stops before its end line: place is the number of whole lines; what follows the last newline is not
     * read. */
    WICK_TEXT_STOPS = 10,
    /* A rule has the words 0 to 9 of an earlier one, whatever their actions: place is the lowest such rule, extra the
     * earlier one. */
    WICK_RULE_HAS_TWIN = 11,
    /* No call gives this. The program does, for a file that cannot be read to its end or is over 65,536 bytes. */
    WICK_FILE_NOT_READ = 12
};

/* The limits, and the words of what is lent. */
enum {
    WICK_RULE_WORDS = 11,
    WICK_ACTION = 10, /* the word of a rule that is its action */
    WICK_HEADER_WORDS = 5,
    WICK_NODE_WORDS = 3,
    WICK_LEAF = 5, /* the first word of a leaf */
    WICK_ADDRESS_BITS = 32,
    WICK_LARGEST_PORT = 65535,
    WICK_ABSENT_PORT = 65536, /* a header's port that the packet does not have */
    WICK_LARGEST_PROTOCOL = 255,
    WICK_LARGEST_ACTION = 255,
    WICK_MOST_RULES = 512,
    WICK_MOST_RULE_WORDS = 5632,
    WICK_MOST_NODES = 2047,
    WICK_MOST_NODE_WORDS = 6141,
    WICK_MOST_POOL_WORDS = 4096,
    WICK_MOST_CUTS = 63,         /* above a leaf of a tree that the check accepts */
    WICK_MOST_FILE_BYTES = 65536 /* of a file of the program; no good list or accepted tree has a longer text */
};

/* Is the list good? Refuses with 1, 2, 11. a: the number of rules. */
void wick_rule_check(const uint32_t *rules, uint64_t rules_len, wick_answer *answer);

/* Judges the list, then searches it line by line for every rule that matches. Refuses with 1, 2, 11, 3, 4. Writes the
 * numbers that match to the front of `out`, rising; the rest of `out` is as found. WICK_MOST_RULES words are always
 * enough. a: how many it wrote. */
void wick_line_all(const uint32_t *rules, uint64_t rules_len, const uint32_t *header, uint64_t header_len,
                   uint32_t *out, uint64_t out_len, wick_answer *answer);

/* Judges the list, then searches it line by line for the lowest rule that matches. Refuses with 1, 2, 11, 3. a: the
 * rule's number + 1, or 0 where none matches, and d: its action, or 0 where none matches. */
void wick_line_first(const uint32_t *rules, uint64_t rules_len, const uint32_t *header, uint64_t header_len,
                     wick_answer *answer);

/* As wick_line_all, but the list is not judged. It is for a caller with many headers, who judges the list once, by
 * wick_rule_check or by reading it with wick_rules_read, and does not change it after that. Refuses with 3, 4. It takes
 * any words: words past the last whole rule are no rule, and a rule that is not good is compared as it is. Of such a
 * rule, a length over 32 agrees with nothing, address bits past the length do not count, and a range holds the values
 * from its low end to its high end, so none where the low end is the higher. It looks at the first 2^32 rules. Writes
 * the numbers that match to the front of `out`, rising; the rest of `out` is as found. a: how many it wrote. */
void wick_scan_all(const uint32_t *rules, uint64_t rules_len, const uint32_t *header, uint64_t header_len,
                   uint32_t *out, uint64_t out_len, wick_answer *answer);

/* As wick_line_first, but the list is not judged: it takes any words, as wick_scan_all does. Refuses with 3. a: the
 * rule's number + 1, or 0 where none matches, and d: its word 10 as it stands, or 0 where none matches. */
void wick_scan_first(const uint32_t *rules, uint64_t rules_len, const uint32_t *header, uint64_t header_len,
                     wick_answer *answer);

/* Why did this rule miss? Judges the list, then compares its rule `number`, counted from 0, with the header. Refuses
 * with 1, 2, 11, 3, then 2 where the list has no rule of this number: place is then the number as given. a: the lowest
 * field of the header, 0 to 4, that disagrees with the rule, or 5 where the rule matches. */
void wick_rule_misses(const uint32_t *rules, uint64_t rules_len, const uint32_t *header, uint64_t header_len,
                      uint64_t number, wick_answer *answer);

/* Searches the tree for every rule of the reached leaf that matches. WARNING: it takes any words and judges neither the
 * list nor the tree. Search only a tree that wick_tree_check has accepted, or wick_build has built, for these rules:
 * see UNCHECKED TREES. Refuses with 3, 6, 7, 4. Writes the numbers that match to the front of `out`, as the leaf lists
 * them; the rest of `out` is as found. By an accepted tree WICK_MOST_RULES words are always enough. a: how many it
 * wrote, b: the nodes visited, with root and leaf, and c: the entries compared. */
void wick_tree_all(const uint32_t *rules, uint64_t rules_len, const uint32_t *nodes, uint64_t nodes_len,
                   const uint32_t *pool, uint64_t pool_len, const uint32_t *header, uint64_t header_len,
                   uint32_t *out, uint64_t out_len, wick_answer *answer);

/* Searches the tree for the first rule of the reached leaf that matches. WARNING: it takes any words and judges neither
 * the list nor the tree. Search only a tree that wick_tree_check has accepted, or wick_build has built, for these
 * rules: see UNCHECKED TREES. Refuses with 3, 6, 7. a: the rule's number + 1, or 0 where none matches, b: the nodes
 * visited, with root and leaf, c: the entries compared, up to and with the match, and d: the rule's word 10 as it
 * stands, or 0 where none matches. */
void wick_tree_first(const uint32_t *rules, uint64_t rules_len, const uint32_t *nodes, uint64_t nodes_len,
                     const uint32_t *pool, uint64_t pool_len, const uint32_t *header, uint64_t header_len,
                     wick_answer *answer);

/* Is the tree well formed, and does it give every header the list that the line search gives? Where it completes, the
 * tree is accepted for these rules. Refuses with 1, 2, 11, 5, then 6 or 7 at the first fault, then 8. a: the most
 * cuts above a leaf, and b: the entries of the longest leaf. */
void wick_tree_check(const uint32_t *rules, uint64_t rules_len, const uint32_t *nodes, uint64_t nodes_len,
                     const uint32_t *pool, uint64_t pool_len, wick_answer *answer);

/* Compiles the list: builds its tree. One list gives one tree. Refuses with 1, 2, 11, then 4 at the first node, from
 * node 0 on, that does not fit, be it that too little is lent or that the tree is over WICK_MOST_NODE_WORDS or
 * WICK_MOST_POOL_WORDS. Place is the node words up to and with that node; or, where these fit, the pool words up to and
 * with it, and extra is 1. So with just as much room a build may stop at a later node. Writes three words for each node
 * to the front of `nodes` and the leaf entries to the front of `pool`; the rest of both is as found. More than
 * WICK_MOST_NODE_WORDS and WICK_MOST_POOL_WORDS words are of no use. What it has built always passes wick_tree_check.
 * It uses up to 260,000 bytes of stack. a: the number of nodes, and b: of pool words. */
void wick_build(const uint32_t *rules, uint64_t rules_len, uint32_t *nodes, uint64_t nodes_len, uint32_t *pool,
                uint64_t pool_len, wick_answer *answer);

/* As wick_build, but stops after `most` nodes where the tree has more; 0 counts as 1. Refuses with 1, 2, 11, then 4 at
 * the first of these nodes that does not fit. What it has written is then a part: keep it, as words or by
 * wick_part_write, and go on by wick_build_on. a: the number of nodes, b: of pool words, and c: 1 where the tree is
 * whole, 0 where it is stopped. Only a tree that is whole may be searched. It uses as much stack as wick_build, and so
 * does wick_build_on. */
void wick_build_some(const uint32_t *rules, uint64_t rules_len, uint64_t most, uint32_t *nodes, uint64_t nodes_len,
                     uint32_t *pool, uint64_t pool_len, wick_answer *answer);

/* Goes on with a part, by `most` nodes; 0 counts as 1. `rule_count` is the number of rules that the part was built for,
 * as wick_part_read gives it. Refuses with 1, 2, 11 for the list, 5 for the part's words, 6 with place 0 where
 * `rule_count` is not the list's, then 6 or 7 at the first fault of the part, 8 where one of its leaves lacks a rule,
 * then 4 at the first node, from node 0 on, that does not fit. Writes all nodes and entries, those of the part
 * included, to the front of `nodes` and of `pool`; the rest of both is as found. However often a build stops, it ends
 * in the words or in the refusal of wick_build, with the same list and the same room each time. A part made by others
 * is taken where it is well formed as far as it goes and none of its leaves lacks a rule; what is whole always passes
 * wick_tree_check. a, b and c: as wick_build_some. */
void wick_build_on(const uint32_t *rules, uint64_t rules_len, uint64_t rule_count, const uint32_t *part_nodes,
                   uint64_t part_nodes_len, const uint32_t *part_pool, uint64_t part_pool_len, uint64_t most,
                   uint32_t *nodes, uint64_t nodes_len, uint32_t *pool, uint64_t pool_len, wick_answer *answer);

/* Writes the list as a rules file, which has no actions. Refuses with 1, then 2 at the lowest rule that is not good or
 * whose action is not 0, then 11, then 4. Writes the file's bytes to the front of `text`; the rest of `text` is as
 * found. WICK_MOST_FILE_BYTES bytes are always enough. a: how many bytes it wrote. */
void wick_rules_write(const uint32_t *rules, uint64_t rules_len, uint8_t *text, uint64_t text_len, wick_answer *answer);

/* Writes the list as an acl file, in which each rule has its action. Refuses with 1, 2, 11, 4. Writes as
 * wick_rules_write does, and WICK_MOST_FILE_BYTES bytes are always enough. a: how many bytes it wrote. */
void wick_acl_write(const uint32_t *rules, uint64_t rules_len, uint8_t *text, uint64_t text_len, wick_answer *answer);

/* Reads a rules file or an acl file, which is the whole of `text`. Refuses with 9 or 10 at the first fault, then 11,
 * then 4. Place and extra of 11 are rules, not lines. Writes eleven words for each rule to the front of `rules`, of
 * which the action is 0 where the file is a rules file; the rest of `rules` is as found. WICK_MOST_RULE_WORDS words are
 * always enough. What it has read is a good list. a: the number of rules, and b: 1 for an acl file, 0 for a rules
 * file. */
void wick_rules_read(const uint8_t *text, uint64_t text_len, uint32_t *rules, uint64_t rules_len, wick_answer *answer);

/* Writes the tree, which is for a list of `rule_count` rules, as a tree file. Refuses with 1, 5, then 6 or 7 at the
 * first node that is wrong in itself, then 4; whether the tree is well formed is the check's to say. Writes the file's
 * bytes to the front of `text`; the rest of `text` is as found. a: how many bytes it wrote. */
void wick_tree_write(uint64_t rule_count, const uint32_t *nodes, uint64_t nodes_len, const uint32_t *pool,
                     uint64_t pool_len, uint8_t *text, uint64_t text_len, wick_answer *answer);

/* Reads a tree file, which is the whole of `text`. Refuses with 9 or 10 at the first fault, then 4, for `nodes` before
 * `pool`. Writes three words for each node to the front of `nodes` and the leaf entries to the front of `pool`; the
 * rest of both is as found. WICK_MOST_NODE_WORDS and WICK_MOST_POOL_WORDS words are always enough. What it has read
 * must be checked before it is searched: see UNCHECKED TREES. a: the number of rules that the tree is for, b: of nodes,
 * and c: of pool words. */
void wick_tree_read(const uint8_t *text, uint64_t text_len, uint32_t *nodes, uint64_t nodes_len, uint32_t *pool,
                    uint64_t pool_len, wick_answer *answer);

/* Writes a part, which is for a list of `rule_count` rules, as a part file: as wick_tree_write does, but the file
 * begins with `part`. a: how many bytes it wrote. */
void wick_part_write(uint64_t rule_count, const uint32_t *nodes, uint64_t nodes_len, const uint32_t *pool,
                     uint64_t pool_len, uint8_t *text, uint64_t text_len, wick_answer *answer);

/* Reads a part file, as wick_tree_read reads a tree file. Each of the two takes its own file only: the other is 9,
 * line 1. a: the number of rules that the part is for, b: of nodes, and c: of pool words. */
void wick_part_read(const uint8_t *text, uint64_t text_len, uint32_t *nodes, uint64_t nodes_len, uint32_t *pool,
                    uint64_t pool_len, wick_answer *answer);

#ifdef __cplusplus
}
#endif

#endif
