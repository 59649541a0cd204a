/* The helpers of include/type_name.h: what they write, and that they keep to the room they are given.
 * Usage: header ROW, where ROW is examples/lane.row. */
#include <stdio.h>
#include <stdlib.h>
#include <string.h>

#include "type_name.h"

#define CHECK(what) ((what) ? (void)0 : fail(#what, __LINE__))

static void fail(const char *what, int line)
{
    fprintf(stderr, "header.c:%d: not so: %s\n", line, what);
    exit(1);
}

struct source_token {
    enum type_name_token_kind kind;
    const char *text;
};

/* Lane<(Key<8>>2)> */
static const struct source_token tokens[] = {
    {TYPE_NAME_KIND_IDENTIFIER, "Lane"}, {TYPE_NAME_KIND_LESS, "<"},         {TYPE_NAME_KIND_LEFT_PAREN, "("},
    {TYPE_NAME_KIND_IDENTIFIER, "Key"},  {TYPE_NAME_KIND_LESS, "<"},         {TYPE_NAME_KIND_INTEGER, "8"},
    {TYPE_NAME_KIND_SHIFT_RIGHT, ">>"},  {TYPE_NAME_KIND_INTEGER, "2"},      {TYPE_NAME_KIND_RIGHT_PAREN, ")"},
    {TYPE_NAME_KIND_GREATER, ">"},
};

enum { TOKENS = sizeof tokens / sizeof tokens[0], ROOM = 500 };

static size_t build(uint8_t *file, size_t room)
{
    size_t length = type_name_put_head(file, room, TYPE_NAME_LANGUAGE_CPP, TYPE_NAME_CPP17,
                                       TYPE_NAME_STRUCTURE_CHECK_OFF, 1000);
    uint64_t at = 0;
    size_t i;
    for (i = 0; i < TOKENS; i++) {
        size_t size = strlen(tokens[i].text);
        length = type_name_put_token(file, room, length, tokens[i].kind, tokens[i].text, size, at, at + size);
        at += size;
    }
    return length;
}

/* The shipped row, byte for byte; and with less room nothing is written past it. */
static void rows(const char *path)
{
    uint8_t shipped[ROOM], file[ROOM];
    FILE *row = fopen(path, "rb");
    size_t length, room, i;
    CHECK(row != NULL);
    length = fread(shipped, 1, sizeof shipped, row);
    fclose(row);
    CHECK(length > 100 && length < ROOM);
    CHECK(build(file, sizeof file) == length);
    CHECK(memcmp(file, shipped, length) == 0);
    for (room = 0; room <= length; room++) {
        memset(file, 0xa5, sizeof file);
        CHECK(build(file, room) == (room == length ? length : 0));
        for (i = room; i < sizeof file; i++)
            CHECK(file[i] == 0xa5);
    }
}

static size_t put(const char *word, size_t word_len, uint64_t start, uint64_t end)
{
    uint8_t file[ROOM];
    size_t length = type_name_put_head(file, sizeof file, TYPE_NAME_LANGUAGE_C, TYPE_NAME_C99,
                                       TYPE_NAME_STRUCTURE_CHECK_ON, 9);
    return type_name_put_token(file, sizeof file, length, TYPE_NAME_KIND_IDENTIFIER, word, word_len, start, end);
}

static void records(void)
{
    const uint64_t over = (uint64_t)1 << 32;
    char word[TYPE_NAME_LONGEST_WORD + 1];
    uint8_t file[ROOM];
    memset(word, 'w', sizeof word);
    CHECK(put(word, 1, 0, 0) == TYPE_NAME_HEAD_LENGTH + TYPE_NAME_TOKEN_LENGTH + 1);
    CHECK(put(word, TYPE_NAME_LONGEST_WORD, 0, UINT64_MAX) != 0);
    CHECK(put(word, TYPE_NAME_LONGEST_WORD + 1, 0, 1) == 0);
    CHECK(put(word, 0, 0, 1) == 0);
    CHECK(put(word, 1, 2, 1) == 0);
    CHECK(put(word, 1, over, over - 1) == 0 && put(word, 1, over - 1, over) != 0);
    CHECK(put("a b", 3, 0, 3) == 0);
    CHECK(put("a\177", 2, 0, 2) == 0);
    CHECK(put("a\200", 2, 0, 2) == 0);
    CHECK(put("!~", 2, 0, 2) != 0);
    /* Behind a record that could not be written none can be. */
    CHECK(type_name_put_token(file, sizeof file, 0, TYPE_NAME_KIND_STAR, NULL, 0, 0, 1) == 0);
    CHECK(type_name_put_token(file, sizeof file, sizeof file + 1, TYPE_NAME_KIND_STAR, NULL, 0, 0, 1) == 0);
}

static void allowances(void)
{
    uint8_t file[TYPE_NAME_HEAD_LENGTH], before[TYPE_NAME_HEAD_LENGTH];
    const uint8_t *field = file + TYPE_NAME_ALLOWANCE_AT;
    CHECK(type_name_put_head(file, sizeof file, TYPE_NAME_LANGUAGE_FORTRAN, TYPE_NAME_STANDARD_DEFAULT,
                             TYPE_NAME_STRUCTURE_CHECK_ON, 0x04030201) == sizeof file);
    CHECK(memcmp(field, "\1\2\3\4", 4) == 0);
    memcpy(before, file, sizeof file);
    type_name_limit_allowance(file, sizeof file, 0x04030201);
    type_name_limit_allowance(file, sizeof file, UINT32_MAX);
    type_name_limit_allowance(file, sizeof file - 1, 0);
    CHECK(memcmp(before, file, sizeof file) == 0);
    type_name_limit_allowance(file, sizeof file, 0x04030200);
    CHECK(memcmp(field, "\0\2\3\4", 4) == 0);
    CHECK(memcmp(before, file, TYPE_NAME_ALLOWANCE_AT) == 0);
}

/* `A list`, then `* group any rest`, byte for byte. */
static const uint8_t two_rules[] = {8, 0, 16, 1, 0, 1, 'A', 3, 9, 0, 16, 1, 1, 21, 2, 4, 5};

static int build_rules(uint8_t *table, size_t room, size_t *length)
{
    static const struct type_name_item first[] = {{TYPE_NAME_ITEM_WORD, 0, "A"}, {TYPE_NAME_ITEM_LIST, 0, NULL}};
    static const struct type_name_item second[] = {{TYPE_NAME_ITEM_KIND, TYPE_NAME_KIND_STAR, NULL},
                                                   {TYPE_NAME_ITEM_GROUP, 0, NULL},
                                                   {TYPE_NAME_ITEM_ANY, 0, NULL},
                                                   {TYPE_NAME_ITEM_REST, 0, NULL}};
    *length = 0;
    return type_name_put_rule(table, room, length, first, 2) && type_name_put_rule(table, room, length, second, 4);
}

/* With less room what was written before stays, and nothing is written past it. */
static void tables(void)
{
    uint8_t table[ROOM];
    size_t length, room, i;
    for (room = 0; room <= sizeof two_rules; room++) {
        memset(table, 0xa5, sizeof table);
        CHECK(build_rules(table, room, &length) == (room == sizeof two_rules));
        CHECK(length == (room < 8 ? 0 : room < sizeof two_rules ? 8 : sizeof two_rules));
        CHECK(memcmp(table, two_rules, length) == 0);
        for (i = length; i < sizeof table; i++)
            CHECK(table[i] == 0xa5);
    }
    length = sizeof table + 1;
    CHECK(!type_name_put_rule(table, sizeof table, &length, NULL, 0));
}

static int fits(enum type_name_item_kind item, uint8_t kind, const char *word)
{
    struct type_name_item one;
    uint8_t table[ROOM];
    size_t length = 0;
    one.item = item;
    one.kind = kind;
    one.word = word;
    return type_name_put_rule(table, sizeof table, &length, &one, 1);
}

static void items(void)
{
    struct type_name_item many[TYPE_NAME_MOST_ITEMS + 1];
    char word[TYPE_NAME_LONGEST_WORD + 2];
    uint8_t table[ROOM];
    size_t length = 0, i;
    memset(word, 'w', sizeof word);
    word[TYPE_NAME_LONGEST_WORD + 1] = 0;
    CHECK(!fits(TYPE_NAME_ITEM_WORD, 0, word));
    CHECK(fits(TYPE_NAME_ITEM_WORD, 0, word + 1));
    CHECK(!fits(TYPE_NAME_ITEM_WORD, 0, "") && !fits(TYPE_NAME_ITEM_WORD, 0, "a b") && fits(TYPE_NAME_ITEM_WORD, 0, "!~"));
    CHECK(!fits(TYPE_NAME_ITEM_KIND, 0, NULL) && !fits(TYPE_NAME_ITEM_KIND, TYPE_NAME_KIND_END + 1, NULL));
    CHECK(fits(TYPE_NAME_ITEM_KIND, 1, NULL) && fits(TYPE_NAME_ITEM_KIND, TYPE_NAME_KIND_END, NULL));
    for (i = 0; i <= TYPE_NAME_MOST_ITEMS; i++) {
        many[i].item = i < TYPE_NAME_MOST_ITEMS ? TYPE_NAME_ITEM_ANY : TYPE_NAME_ITEM_REST;
        many[i].kind = 0;
        many[i].word = NULL;
    }
    CHECK(!type_name_put_rule(table, sizeof table, &length, many, 0));
    CHECK(!type_name_put_rule(table, sizeof table, &length, many, TYPE_NAME_MOST_ITEMS + 1) && length == 0);
    CHECK(type_name_put_rule(table, sizeof table, &length, many + 1, TYPE_NAME_MOST_ITEMS));
    CHECK(length == TYPE_NAME_RULE_HEAD_LENGTH + TYPE_NAME_MOST_ITEMS);
    many[0].item = TYPE_NAME_ITEM_REST;
    CHECK(!type_name_put_rule(table, sizeof table, &length, many, 2));
}

/* The pairs of `two_rules`: none. A buffer is touched by no call that finds none. */
static void no_overlap(void)
{
    uint32_t answer[TYPE_NAME_ANSWER_LENGTH] = {9, 9, 9, 9};
    uint8_t sequence[2] = {7, 7};
    CHECK(type_name_overlap(two_rules, sizeof two_rules, 0, 0, sequence, sizeof sequence, answer, 4) == 0);
    CHECK(answer[0] == 0 && answer[1] == 0 && answer[2] == 0 && answer[3] == 0);
    CHECK(type_name_overlap(two_rules, 8 + 1, 0, 0, sequence, sizeof sequence, answer, 4) ==
          TYPE_NAME_ERROR_INVALID_RULE_TABLE);
    CHECK(answer[0] == TYPE_NAME_ERROR_INVALID_RULE_TABLE && answer[1] == TYPE_NAME_NO_TOKEN);
    CHECK(sequence[0] == 7 && sequence[1] == 7);
}

/* A row of one byte a token, `A` for every word; returns its length. */
static size_t build_row(uint8_t *file, size_t room, const char *text)
{
    static const char spelled[] = "A<>(),[]:";
    static const enum type_name_token_kind kinds[] = {
        TYPE_NAME_KIND_IDENTIFIER,   TYPE_NAME_KIND_LESS,  TYPE_NAME_KIND_GREATER,      TYPE_NAME_KIND_LEFT_PAREN,
        TYPE_NAME_KIND_RIGHT_PAREN,  TYPE_NAME_KIND_COMMA, TYPE_NAME_KIND_LEFT_BRACKET, TYPE_NAME_KIND_RIGHT_BRACKET,
        TYPE_NAME_KIND_SCOPE,        TYPE_NAME_KIND_SHIFT_RIGHT,
    };
    size_t length = type_name_put_head(file, room, TYPE_NAME_LANGUAGE_CPP, TYPE_NAME_CPP17,
                                       TYPE_NAME_STRUCTURE_CHECK_OFF, 1000);
    for (; *text != 0; text++) {
        /* `:` stands for `::`, `R` for `>>`. */
        size_t kind = *text == 'R' ? sizeof spelled - 1 : (size_t)(strchr(spelled, *text) - spelled);
        length = type_name_put_token(file, room, length, kinds[kind], "A", 1, 0, 1);
    }
    return length;
}

/* The first tokens of the parts, and that of no part behind them. */
static void finds_parts(const char *text, const uint32_t *first, uint32_t parts)
{
    uint8_t file[ROOM];
    uint32_t tree[6 * ROOM / TYPE_NAME_TOKEN_LENGTH], answer[TYPE_NAME_LIST_ANSWER_LENGTH], part, node, next, count = 0;
    size_t length = build_row(file, sizeof file, text);
    CHECK(length != 0);
    for (part = 0; part < parts; part++)
        CHECK(type_name_find_part(file, length, part) == first[part]);
    CHECK(type_name_find_part(file, length, parts) == TYPE_NAME_NO_TOKEN);
    CHECK(type_name_find_part(file, length, TYPE_NAME_NO_PART) == TYPE_NAME_NO_TOKEN);
    CHECK(type_name_read_list(file, length, tree, sizeof tree / sizeof tree[0], answer, 5) == 0);
    CHECK(answer[3] == 0 && answer[4] == parts);
    /* Each tree ends where the next begins: its top-level nodes fill it. */
    for (node = 0; node < answer[1]; count++) {
        next = type_name_next_part(tree, answer[1], node);
        CHECK(tree[3 * node] == TYPE_NAME_NODE_TOKEN && tree[3 * node + 1] == 0);
        for (; node < next; node += tree[3 * node + 2])
            CHECK(node + tree[3 * node + 2] <= next);
        CHECK(node == next);
    }
    CHECK(count == parts);
}

static void lists(void)
{
    static const uint32_t one[] = {0}, two[] = {0, 2}, angles[] = {0, 9, 15}, brackets[] = {0, 7, 14};
    uint8_t file[ROOM];
    uint32_t answer[TYPE_NAME_LIST_ANSWER_LENGTH] = {9, 9, 9, 9, 9}, no_tree = 0;
    size_t length;
    finds_parts("A", one, 1);
    finds_parts("A,A", two, 2);
    finds_parts("A<A<A,AR,A<,A>,A", angles, 3);
    finds_parts("A(A,<),A[A,A],ARA", brackets, 3);
    /* The refused part, and those before; an empty one stands where the row ends. */
    length = build_row(file, sizeof file, "A,A<A>,");
    CHECK(type_name_read_list(file, length, &no_tree, 0, answer, 5) == TYPE_NAME_ERROR_SHORT_BUFFER);
    CHECK(answer[1] == TYPE_NAME_NO_TOKEN && answer[4] == TYPE_NAME_NO_PART);
    CHECK(type_name_find_part(file, length, 1) == 2 && type_name_find_part(file, length, 2) == 7);
    length = build_row(file, sizeof file, "A,),A");
    CHECK(type_name_find_part(file, length, 1) == 2);
    /* What is no row file is looked at no further than it goes. */
    CHECK(type_name_find_part(file, 0, 0) == 0 && type_name_find_part(file, 0, 1) == TYPE_NAME_NO_TOKEN);
    memset(file, 0, sizeof file);
    CHECK(type_name_find_part(file, sizeof file, 1) == TYPE_NAME_NO_TOKEN);
}

enum { TREE_ROOM = TYPE_NAME_NUMBERS_PER_TOKEN * ROOM / TYPE_NAME_TOKEN_LENGTH };

/* Of the whole buffer, of its nodes alone and of each shorter slice: none where the list is cut off. */
static void has_outer(const char *text, uint32_t arguments)
{
    uint8_t file[ROOM];
    uint32_t tree[TREE_ROOM], answer[TYPE_NAME_ANSWER_LENGTH];
    size_t length = build_row(file, sizeof file, text), room, needed;
    CHECK(type_name_read(file, length, tree, TREE_ROOM, answer, 4) == 0);
    CHECK(type_name_outer(tree, TREE_ROOM) == arguments);
    CHECK(type_name_outer(tree, (size_t)TYPE_NAME_NODE_WIDTH * answer[1]) == arguments);
    needed = arguments == 0 ? 0 : (size_t)TYPE_NAME_NODE_WIDTH * (1 + tree[TYPE_NAME_NODE_WIDTH + 2]);
    for (room = 0; room <= TREE_ROOM; room++)
        CHECK(type_name_outer(tree, room) == (room < needed ? 0 : arguments));
}

/* Nodes by kind and extent, with a token number that none has. */
static uint32_t outer_of(const uint32_t (*nodes)[2], size_t count)
{
    uint32_t tree[TREE_ROOM];
    size_t i;
    for (i = 0; i < count; i++) {
        tree[TYPE_NAME_NODE_WIDTH * i] = nodes[i][0];
        tree[TYPE_NAME_NODE_WIDTH * i + 1] = UINT32_MAX;
        tree[TYPE_NAME_NODE_WIDTH * i + 2] = nodes[i][1];
    }
    return type_name_outer(tree, TYPE_NAME_NODE_WIDTH * count);
}

static void outer_templates(void)
{
    static const uint32_t not_looked_at[][2] = {{0, 1}, {3, 4}, {4, 3}, {9, 9}, {9, 9}};
    static const uint32_t past_list[][2] = {{0, 1}, {3, 3}, {4, 1}, {4, UINT32_MAX}};
    static const uint32_t wide_word[][2] = {{0, 2}, {3, 2}, {4, 1}};
    static const uint32_t bare_arguments[][2] = {{0, 1}, {3, 3}, {4, 1}, {4, 1}};
    static const uint32_t no_extent[][2] = {{0, 1}, {3, 2}, {4, 0}};
    static const uint32_t past_buffer[][2] = {{0, 1}, {3, UINT32_MAX}, {4, UINT32_MAX - 1}};
    /* Three times 0x55555556 nodes are 2 in 32 bits. */
    static const uint32_t wrapped[][2] = {{0, 1}, {3, 0x55555555}, {4, 0x55555554}};
    uint8_t file[ROOM];
    uint32_t tree[TREE_ROOM], answer[TYPE_NAME_LIST_ANSWER_LENGTH], next;
    size_t length;
    has_outer("A<A,A>", 2);
    has_outer(":A<A>", 0);
    has_outer("A", 0);
    has_outer("A<A<AR", 1);
    has_outer("A<A<A,A>,A,A>:A<A>", 3);
    has_outer("A:A<A>", 0);
    CHECK(outer_of(not_looked_at, 5) == 1);
    CHECK(outer_of(past_list, 4) == 0);
    CHECK(outer_of(wide_word, 3) == 0);
    CHECK(outer_of(bare_arguments, 4) == 2);
    CHECK(outer_of(no_extent, 3) == 0);
    CHECK(outer_of(past_buffer, 3) == 0 && outer_of(wrapped, 3) == 0);
    /* Of a list the first part decides, and each of the others if it is handed in. */
    length = build_row(file, sizeof file, "A,A<A,A>,A<A>");
    CHECK(type_name_read_list(file, length, tree, TREE_ROOM, answer, 5) == 0);
    CHECK(type_name_outer(tree, TREE_ROOM) == 0);
    next = type_name_next_part(tree, answer[1], 0);
    CHECK(type_name_outer(tree + TYPE_NAME_NODE_WIDTH * next, TREE_ROOM - TYPE_NAME_NODE_WIDTH * next) == 2);
    next = type_name_next_part(tree, answer[1], next);
    CHECK(type_name_outer(tree + TYPE_NAME_NODE_WIDTH * next, TREE_ROOM - TYPE_NAME_NODE_WIDTH * next) == 1);
    /* A refusal leaves zeros. */
    length = build_row(file, sizeof file, "A<A");
    CHECK(type_name_read(file, length, tree, TREE_ROOM, answer, 4) == TYPE_NAME_ERROR_UNCLOSED_ANGLE);
    CHECK(type_name_outer(tree, TREE_ROOM) == 0);
}

/* `int` in C89 with the structure check and an allowance of 1,000, byte for byte: as it was, and as it is. */
static const uint8_t old_int[] = {
    11, 0, 0, 1, 0, 0, 1, 0xe8, 3, 0, 0,
    15, 0, 0, 0, 0, 0, 0, 0, 3, 0, 0, 0, 'i', 'n', 't',
};
static const uint8_t new_int[] = {
    11, 0, 5, 1, 0, 0, 1, 0xe8, 3, 0, 0,
    23, 0, 0, 0, 0, 0, 0, 0, 0, 0, 0, 0, 3, 0, 0, 0, 0, 0, 0, 0, 'i', 'n', 't',
};

typedef uint32_t conversion(const uint8_t *, size_t, uint8_t *, size_t, uint32_t *, size_t);

/* With any room; bytes behind the output stay, and no refusal touches it. */
static void converts(conversion *convert, const uint8_t *from, size_t from_len, const uint8_t *to, size_t to_len)
{
    uint8_t output[ROOM];
    uint32_t answer[TYPE_NAME_ANSWER_LENGTH];
    size_t room, written, i;
    for (room = 0; room <= to_len + 2; room++) {
        memset(output, 0xa5, sizeof output);
        written = room < to_len ? 0 : to_len;
        CHECK(convert(from, from_len, output, room, answer, 4) == (written == 0 ? TYPE_NAME_ERROR_SHORT_BUFFER : 0));
        CHECK(answer[1] == (written == 0 ? TYPE_NAME_NO_TOKEN : to_len) && answer[2] == 0 && answer[3] == 0);
        CHECK(memcmp(output, to, written) == 0);
        for (i = written; i < sizeof output; i++)
            CHECK(output[i] == 0xa5);
    }
}

static void conversions(void)
{
    uint8_t file[ROOM], output[ROOM];
    uint32_t answer[TYPE_NAME_ANSWER_LENGTH] = {9, 9, 9, 9};
    size_t length = type_name_put_head(file, sizeof file, TYPE_NAME_LANGUAGE_C, TYPE_NAME_C89,
                                       TYPE_NAME_STRUCTURE_CHECK_ON, 1000);
    length = type_name_put_token(file, sizeof file, length, TYPE_NAME_KIND_IDENTIFIER, "int", 3, 0, 3);
    CHECK(length == sizeof new_int && memcmp(file, new_int, length) == 0);
    CHECK(sizeof old_int == 26 && sizeof new_int == 34);
    converts(type_name_widen, old_int, sizeof old_int, new_int, sizeof new_int);
    converts(type_name_narrow, new_int, sizeof new_int, old_int, sizeof old_int);
    CHECK(type_name_widen(new_int, sizeof new_int, output, ROOM, answer, 4) == TYPE_NAME_ERROR_INVALID_HEAD);
    CHECK(type_name_narrow(old_int, sizeof old_int, output, ROOM, answer, 4) == TYPE_NAME_ERROR_INVALID_HEAD);
    CHECK(type_name_read_or_null(old_int, sizeof old_int, NULL, 0, NULL, 0) == TYPE_NAME_ERROR_INVALID_HEAD);
    /* An end at 2^32, of which a malformed record behind it is told before. */
    length = type_name_put_token(file, sizeof file, length, TYPE_NAME_KIND_STAR, NULL, 0, 3, (uint64_t)1 << 32);
    CHECK(type_name_narrow(file, length, output, 0, answer, 4) == TYPE_NAME_ERROR_OFFSET_OVER_32_BITS);
    CHECK(answer[0] == 7 && answer[1] == TYPE_NAME_NO_TOKEN && answer[2] == 0 && answer[3] == 0);
    file[length] = 0;
    CHECK(type_name_narrow(file, length + 1, output, 0, answer, 4) == TYPE_NAME_ERROR_INVALID_RECORD);
    CHECK(answer[0] == 4 && answer[1] == TYPE_NAME_NO_TOKEN && answer[2] == length && answer[3] == 0);
    CHECK(TYPE_NAME_MOST_WIDENED == TYPE_NAME_OLD_MOST_BYTES + 8 * TYPE_NAME_MOST_TOKENS);
}

/* The standard byte of the head that `convert` writes for one with this standard, or 0xa5 if it refuses it with 3. */
static uint8_t converted_standard(conversion *convert, unsigned kind, enum type_name_language language, uint8_t standard)
{
    uint8_t head[TYPE_NAME_HEAD_LENGTH], output[TYPE_NAME_HEAD_LENGTH];
    uint32_t answer[TYPE_NAME_ANSWER_LENGTH];
    memset(output, 0xa5, sizeof output);
    CHECK(type_name_put_head(head, sizeof head, language, standard, TYPE_NAME_STRUCTURE_CHECK_ON, 9) == sizeof head);
    type_name_put_number(head + 2, kind, 2);
    if (convert(head, sizeof head, output, sizeof output, answer, 4) != 0) {
        CHECK(answer[0] == TYPE_NAME_ERROR_UNKNOWN_PROFILE && output[0] == 0xa5);
        return 0xa5;
    }
    CHECK(answer[1] == sizeof head && memcmp(head + 6, output + 6, sizeof head - 6) == 0);
    return output[5];
}

/* `_BitInt(8)` in C by a standard; returns what the reader does. */
static uint32_t reads_bit_int(uint8_t standard, uint32_t *answer)
{
    uint8_t file[ROOM];
    uint32_t tree[4 * TYPE_NAME_NUMBERS_PER_TOKEN];
    size_t length = type_name_put_head(file, sizeof file, TYPE_NAME_LANGUAGE_C, standard, TYPE_NAME_STRUCTURE_CHECK_ON, 1000);
    length = type_name_put_token(file, sizeof file, length, TYPE_NAME_KIND_IDENTIFIER, "_BitInt", 7, 0, 7);
    length = type_name_put_token(file, sizeof file, length, TYPE_NAME_KIND_LEFT_PAREN, NULL, 0, 7, 8);
    length = type_name_put_token(file, sizeof file, length, TYPE_NAME_KIND_INTEGER, NULL, 0, 8, 9);
    length = type_name_put_token(file, sizeof file, length, TYPE_NAME_KIND_RIGHT_PAREN, NULL, 0, 9, 10);
    CHECK(length == TYPE_NAME_HEAD_LENGTH + 4 * TYPE_NAME_TOKEN_LENGTH + 7);
    return type_name_read(file, length, tree, sizeof tree / sizeof tree[0], answer, 4);
}

/* What 254 and 255 mean, and what the conversions write for them. */
static void standards(void)
{
    static const uint8_t newest[] = {TYPE_NAME_C23, TYPE_NAME_CPP23, TYPE_NAME_FORTRAN2023};
    uint32_t answer[TYPE_NAME_ANSWER_LENGTH];
    int i;
    CHECK(reads_bit_int(TYPE_NAME_STANDARD_DEFAULT, answer) == 0 && answer[1] == 3 && answer[2] == 5);
    CHECK(reads_bit_int(TYPE_NAME_C23, answer) == 0 && answer[1] == 3 && answer[2] == 5);
    CHECK(reads_bit_int(TYPE_NAME_STANDARD_ARCHIVE, answer) == TYPE_NAME_ERROR_NOT_AVAILABLE_IN_PROFILE);
    CHECK(answer[1] == TYPE_NAME_NO_TOKEN && answer[2] == TYPE_NAME_FEATURE_BIT_INT && answer[3] == 5);
    CHECK(reads_bit_int(TYPE_NAME_C18, answer) == TYPE_NAME_ERROR_NOT_AVAILABLE_IN_PROFILE);
    CHECK(reads_bit_int(253, answer) == TYPE_NAME_ERROR_UNKNOWN_PROFILE);
    for (i = 0; i < 3; i++) {
        enum type_name_language language = (enum type_name_language)i;
        CHECK(converted_standard(type_name_widen, TYPE_NAME_OLD_HEAD_KIND, language, 255) == TYPE_NAME_STANDARD_ARCHIVE);
        CHECK(converted_standard(type_name_widen, TYPE_NAME_OLD_HEAD_KIND, language, 254) == 0xa5);
        CHECK(converted_standard(type_name_narrow, TYPE_NAME_HEAD_KIND, language, TYPE_NAME_STANDARD_ARCHIVE) == 255);
        CHECK(converted_standard(type_name_narrow, TYPE_NAME_HEAD_KIND, language, TYPE_NAME_STANDARD_DEFAULT) == newest[i]);
        CHECK(converted_standard(type_name_narrow, TYPE_NAME_HEAD_KIND, language, 253) == 0xa5);
        CHECK(converted_standard(type_name_widen, TYPE_NAME_OLD_HEAD_KIND, language, newest[i]) == newest[i]);
    }
}

/* `A` and `~!`, byte for byte: a name list has no head. */
static const uint8_t two_names[] = {
    21, 0, 0, 0, 0, 0, 0, 0, 0, 0, 0, 0, 0, 0, 0, 0, 0, 0, 0, 0, 'A',
    22, 0, 0, 0, 0, 0, 0, 0, 0, 0, 0, 0, 0, 0, 0, 0, 0, 0, 0, 0, '~', '!',
};

/* With less room what was written before stays, and nothing is written past it. */
static void name_lists(void)
{
    char word[TYPE_NAME_LONGEST_WORD + 1];
    uint8_t names[ROOM];
    size_t length, room, i;
    for (room = 0; room <= sizeof two_names; room++) {
        memset(names, 0xa5, sizeof names);
        length = 0;
        CHECK(type_name_put_name(names, room, &length, "A", 1) == (room >= 21));
        CHECK(type_name_put_name(names, room, &length, "~!", 2) == (room == sizeof two_names));
        CHECK(length == (room < 21 ? 0 : room < sizeof two_names ? 21 : sizeof two_names));
        CHECK(memcmp(names, two_names, length) == 0);
        for (i = length; i < sizeof names; i++)
            CHECK(names[i] == 0xa5);
    }
    memset(word, 'w', sizeof word);
    length = 0;
    CHECK(!type_name_put_name(names, sizeof names, &length, word, TYPE_NAME_LONGEST_WORD + 1) && length == 0);
    CHECK(!type_name_put_name(names, sizeof names, &length, "", 0) && length == 0);
    CHECK(!type_name_put_name(names, sizeof names, &length, "a b", 3) && length == 0);
    CHECK(type_name_put_name(names, sizeof names, &length, word, TYPE_NAME_LONGEST_WORD));
    CHECK(length == TYPE_NAME_TOKEN_LENGTH + TYPE_NAME_LONGEST_WORD);
    length = sizeof names + 1;
    CHECK(!type_name_put_name(names, sizeof names, &length, "A", 1) && length == sizeof names + 1);
}

/* What comes of a row in which every word is the name `A`; the answer's numbers behind the first. */
static void reads_named(const char *text, uint32_t number, uint32_t second, uint32_t third, uint32_t fourth)
{
    uint8_t file[ROOM];
    uint32_t tree[TREE_ROOM], answer[TYPE_NAME_ANSWER_LENGTH + 1] = {9, 9, 9, 9, 9};
    size_t length = build_row(file, sizeof file, text), i;
    memset(tree, 0xa5, sizeof tree);
    CHECK(length != 0);
    CHECK(type_name_read_named(file, length, two_names, sizeof two_names, tree, TREE_ROOM, answer, 5) == number);
    CHECK(answer[0] == number && answer[1] == second && answer[2] == third && answer[3] == fourth && answer[4] == 9);
    for (i = number == 0 ? (size_t)TYPE_NAME_NODE_WIDTH * second : 0; i < TREE_ROOM; i++)
        CHECK(tree[i] == 0);
}

static void named(void)
{
    const uint32_t none = TYPE_NAME_NO_TOKEN;
    uint8_t file[ROOM], names[ROOM];
    uint32_t tree[TREE_ROOM], answer[TYPE_NAME_ANSWER_LENGTH];
    size_t length, names_len = 0;
    reads_named("A<A<AR", 0, 7, 5, 0);
    reads_named("A<A,A>", 0, 6, 4, 0);
    /* `>>` and `,` in brackets, where no list is open: plain tokens. */
    reads_named("A<(ARA,)>", 0, 8, 7, 0);
    reads_named("A(A<ARA)", TYPE_NAME_ERROR_SHIFT_WITHOUT_LIST, none, 0, 5);
    reads_named("A<>", TYPE_NAME_ERROR_EMPTY_OR_UNCLOSED_LIST, none, 0, 2);
    reads_named("A(A<A)", TYPE_NAME_ERROR_EMPTY_OR_UNCLOSED_LIST, none, 0, 5);
    reads_named("A<A", TYPE_NAME_ERROR_UNCLOSED_ANGLE, 1, 0, 0);
    /* A name twice; another language; a buffer that is too short is told before. */
    length = build_row(file, sizeof file, "A<A>");
    CHECK(type_name_put_name(names, sizeof names, &names_len, "A", 1));
    CHECK(type_name_read_named(file, length, names, names_len, tree, TREE_ROOM, answer, 4) == 0);
    CHECK(type_name_read_named(file, length, names, names_len - 1, tree, TREE_ROOM, answer, 4) ==
          TYPE_NAME_ERROR_INVALID_NAME_LIST);
    CHECK(answer[0] == 8 && answer[1] == none && answer[2] == 0 && answer[3] == 0 && tree[0] == 0 && tree[3] == 0);
    CHECK(type_name_put_name(names, sizeof names, &names_len, "A", 1));
    CHECK(type_name_read_named(file, length, names, names_len, tree, TREE_ROOM, answer, 4) ==
          TYPE_NAME_ERROR_INVALID_NAME_LIST);
    CHECK(type_name_read_named(file, length, names, names_len, tree, 23, answer, 4) == TYPE_NAME_ERROR_SHORT_BUFFER);
    file[4] = TYPE_NAME_LANGUAGE_C;
    CHECK(type_name_read_named(file, length, two_names, sizeof two_names, tree, TREE_ROOM, answer, 4) ==
          TYPE_NAME_ERROR_INVALID_NAME_LIST);
}

static void no_pointers(void)
{
    uint32_t answer[TYPE_NAME_ANSWER_LENGTH] = {9, 9, 9, 9};
    static const uint32_t lane[] = {0, 0, 1, 3, 1, 3, 4, 2, 2, 0, 2, 1};
    CHECK(type_name_outer_or_null(NULL, 0) == 0 && type_name_outer_or_null(lane, 12) == 1);
    CHECK(type_name_match_or_null(NULL, 0, NULL, 0, NULL, 0, NULL, 0) == TYPE_NAME_ERROR_INVALID_HEAD);
    CHECK(type_name_overlap_or_null(NULL, 0, 0, 0, NULL, 0, NULL, 0) == 0);
    CHECK(type_name_overlap_or_null(NULL, 0, 0, 0, NULL, 0, answer, 2) == 0);
    CHECK(answer[0] == 0 && answer[1] == 0 && answer[2] == 9 && answer[3] == 9);
    CHECK(type_name_read_list_or_null(NULL, 0, NULL, 0, NULL, 0) == TYPE_NAME_ERROR_INVALID_HEAD);
    CHECK(type_name_read_named_or_null(NULL, 0, NULL, 0, NULL, 0, NULL, 0) == TYPE_NAME_ERROR_INVALID_HEAD);
    CHECK(type_name_read_named_or_null(new_int, TYPE_NAME_HEAD_LENGTH, NULL, 0, NULL, 0, NULL, 0) ==
          TYPE_NAME_ERROR_INVALID_NAME_LIST);
    CHECK(type_name_widen_or_null(NULL, 0, NULL, 0, NULL, 0) == TYPE_NAME_ERROR_INVALID_HEAD);
    CHECK(type_name_narrow_or_null(NULL, 0, NULL, 0, NULL, 0) == TYPE_NAME_ERROR_INVALID_HEAD);
    CHECK(type_name_widen_or_null(old_int, sizeof old_int, NULL, 0, NULL, 0) == TYPE_NAME_ERROR_SHORT_BUFFER);
    CHECK(type_name_read_or_null(NULL, 0, NULL, 0, NULL, 0) == TYPE_NAME_ERROR_INVALID_HEAD);
    CHECK(type_name_read_or_null(NULL, 0, NULL, 0, answer, 4) == TYPE_NAME_ERROR_INVALID_HEAD);
    CHECK(answer[0] == TYPE_NAME_ERROR_INVALID_HEAD && answer[1] == TYPE_NAME_NO_TOKEN);
    CHECK(answer[2] == 0 && answer[3] == 0);
}

int main(int count, char **arguments)
{
    char version[32];
    CHECK(count == 2);
    rows(arguments[1]);
    records();
    allowances();
    tables();
    items();
    no_overlap();
    lists();
    outer_templates();
    conversions();
    standards();
    name_lists();
    named();
    no_pointers();
    snprintf(version, sizeof version, "%d.%d.%d", TYPE_NAME_VERSION_MAJOR, TYPE_NAME_VERSION_MINOR,
             TYPE_NAME_VERSION_PATCH);
    CHECK(strcmp(version, TYPE_NAME_VERSION) == 0);
    return 0;
}
