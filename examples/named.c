/* Reads `Slots<(Lanes<8)>`, a valid type name of C++, without the names of its templates and with them: an example of name lists
 * from C. */
#include <stdio.h>
#include <string.h>

#include "type_name.h"

struct source_token {
    enum type_name_token_kind kind;
    const char *text;
};

static const struct source_token tokens[] = {
    {TYPE_NAME_KIND_IDENTIFIER, "Slots"}, {TYPE_NAME_KIND_LESS, "<"},        {TYPE_NAME_KIND_LEFT_PAREN, "("},
    {TYPE_NAME_KIND_IDENTIFIER, "Lanes"}, {TYPE_NAME_KIND_LESS, "<"},        {TYPE_NAME_KIND_INTEGER, "8"},
    {TYPE_NAME_KIND_RIGHT_PAREN, ")"},    {TYPE_NAME_KIND_GREATER, ">"},
};

/* `Lanes` is a number, and no template. */
static const char *const templates[] = {"Slots"};

enum {
    TOKENS = sizeof tokens / sizeof tokens[0],
    TEMPLATES = sizeof templates / sizeof templates[0],
    NUMBERS = TYPE_NAME_NUMBERS_PER_TOKEN * TOKENS
};

/* Lays out the row file; returns its length, or 0 if a token cannot be written. */
static size_t build(uint8_t *file, size_t room)
{
    size_t length = type_name_put_head(file, room, TYPE_NAME_LANGUAGE_CPP, TYPE_NAME_STANDARD_DEFAULT,
                                       TYPE_NAME_STRUCTURE_CHECK_ON, TYPE_NAME_AMPLE_ALLOWANCE);
    uint64_t at = 0;
    for (size_t i = 0; i < TOKENS; i++) {
        size_t size = strlen(tokens[i].text);
        length = type_name_put_token(file, room, length, tokens[i].kind, tokens[i].text, size, at, at + size);
        at += size;
    }
    return length;
}

/* Lays out the name list; returns its length, or 0 if a name cannot be written. */
static size_t build_names(uint8_t *names, size_t room)
{
    size_t length = 0;
    for (size_t i = 0; i < TEMPLATES; i++)
        if (!type_name_put_name(names, room, &length, templates[i], strlen(templates[i])))
            return 0;
    return length;
}

/* Prints `count` nodes that stand beside each other or below those before them. */
static void print(const uint32_t *node, uint32_t count, int indent)
{
    static const char *const labels[] = {"token", "( )", "[ ]", "< >", "argument"};
    const uint32_t *end = node + (size_t)TYPE_NAME_NODE_WIDTH * count;
    while (node < end) {
        uint32_t kind = node[0], token = node[1], extent = node[2];
        printf("%*s%s\n", indent, "", kind == TYPE_NAME_NODE_TOKEN ? tokens[token].text : labels[kind]);
        print(node + TYPE_NAME_NODE_WIDTH, extent - 1, indent + 2);
        node += (size_t)TYPE_NAME_NODE_WIDTH * extent;
    }
}

int main(void)
{
    uint8_t file[256], names[64];
    uint32_t tree[NUMBERS], answer[TYPE_NAME_ANSWER_LENGTH];
    size_t length = build(file, sizeof file), names_len = build_names(names, sizeof names);
    if (length == 0 || names_len == 0) {
        puts("a token or a name cannot be written");
        return 2;
    }
    if (type_name_read(file, length, tree, NUMBERS, answer, TYPE_NAME_ANSWER_LENGTH) != 0)
        printf("without names: refusal %u\n", (unsigned)answer[0]);
    if (type_name_read_named(file, length, names, names_len, tree, NUMBERS, answer, TYPE_NAME_ANSWER_LENGTH) != 0) {
        printf("with names: refusal %u\n", (unsigned)answer[0]);
        return 1;
    }
    print(tree, answer[1], 0);
    return 0;
}
