/* Builds the row of `Lane<Key>`, reads it and prints its tree: an example of linking the reader from C. */
#include <stdio.h>
#include <string.h>

#include "type_name.h"

struct source_token {
    enum type_name_token_kind kind;
    const char *text;
};

static const struct source_token tokens[] = {
    {TYPE_NAME_KIND_IDENTIFIER, "Lane"},
    {TYPE_NAME_KIND_LESS, "<"},
    {TYPE_NAME_KIND_IDENTIFIER, "Key"},
    {TYPE_NAME_KIND_GREATER, ">"},
};

enum { TOKENS = sizeof tokens / sizeof tokens[0] };

/* Lays out the row file; returns its length, or 0 if a token cannot be written. */
static size_t build(uint8_t *file, size_t room)
{
    size_t length = type_name_put_head(file, room, TYPE_NAME_LANGUAGE_CPP, TYPE_NAME_STANDARD_DEFAULT,
                                       TYPE_NAME_STRUCTURE_CHECK_ON, TYPE_NAME_AMPLE_ALLOWANCE);
    uint64_t at = 0;
    for (size_t i = 0; i < TOKENS; i++) {
        size_t size = strlen(tokens[i].text);
        length = type_name_put_token(file, room, length, tokens[i].kind, tokens[i].text, size, at, at + size);
        at += size;
    }
    return length;
}

/* Prints `count` nodes that stand beside each other or below those before them. */
static void print(const uint32_t *node, uint32_t count, int indent)
{
    static const char *const names[] = {"token", "( )", "[ ]", "< >", "argument"};
    const uint32_t *end = node + (size_t)TYPE_NAME_NODE_WIDTH * count;
    while (node < end) {
        uint32_t kind = node[0], token = node[1], extent = node[2];
        printf("%*s%s\n", indent, "", kind == TYPE_NAME_NODE_TOKEN ? tokens[token].text : names[kind]);
        print(node + TYPE_NAME_NODE_WIDTH, extent - 1, indent + 2);
        node += (size_t)TYPE_NAME_NODE_WIDTH * extent;
    }
}

int main(void)
{
    uint8_t file[256];
    uint32_t tree[TYPE_NAME_NUMBERS_PER_TOKEN * TOKENS], answer[TYPE_NAME_ANSWER_LENGTH];
    size_t length = build(file, sizeof file);
    if (length == 0) {
        puts("a token cannot be written");
        return 2;
    }
    if (type_name_read(file, length, tree, TYPE_NAME_NUMBERS_PER_TOKEN * TOKENS, answer, TYPE_NAME_ANSWER_LENGTH) != 0) {
        printf("refusal %u, token %u, detail %u\n", answer[0], answer[1], answer[2]);
        return 1;
    }
    print(tree, answer[1], 0);
    return 0;
}
