/* Reads a few type names and says how many arguments the outer template of each has: an example of a first pass over trees
 * from C. */
#include <stdio.h>
#include <string.h>

#include "type_name.h"

/* With a blank between tokens. */
static const char *const names[] = {
    "Lane < 8 , Key >",
    "Lane < Map < Key , Lane < 8 > > >",
    "const Lane < 8 >",
    "int",
    "Lane < 8",
};

enum { NAMES = sizeof names / sizeof names[0], MOST_TOKENS = 16 };

static enum type_name_token_kind kind_of(const char *token)
{
    switch (token[0]) {
    case '<':
        return TYPE_NAME_KIND_LESS;
    case '>':
        return TYPE_NAME_KIND_GREATER;
    case ',':
        return TYPE_NAME_KIND_COMMA;
    case '8':
        return TYPE_NAME_KIND_INTEGER;
    default:
        return TYPE_NAME_KIND_IDENTIFIER;
    }
}

/* Lays out the row file; returns its length, or 0 if a token cannot be written. */
static size_t build(uint8_t *file, size_t room, const char *name)
{
    size_t length = type_name_put_head(file, room, TYPE_NAME_LANGUAGE_CPP, TYPE_NAME_STANDARD_DEFAULT,
                                       TYPE_NAME_STRUCTURE_CHECK_ON, TYPE_NAME_AMPLE_ALLOWANCE);
    const char *token = name;
    while (*token != 0) {
        size_t size = strcspn(token, " ");
        uint64_t at = (uint64_t)(token - name);
        length = type_name_put_token(file, room, length, kind_of(token), token, size, at, at + size);
        token += size;
        token += strspn(token, " ");
    }
    return length;
}

int main(void)
{
    uint8_t file[512];
    uint32_t tree[TYPE_NAME_NUMBERS_PER_TOKEN * MOST_TOKENS], answer[TYPE_NAME_ANSWER_LENGTH];
    for (size_t i = 0; i < NAMES; i++) {
        size_t length = build(file, sizeof file, names[i]);
        if (length == 0) {
            puts("a token cannot be written");
            return 2;
        }
        printf("%s: ", names[i]);
        if (type_name_read(file, length, tree, TYPE_NAME_NUMBERS_PER_TOKEN * MOST_TOKENS, answer,
                           TYPE_NAME_ANSWER_LENGTH) != 0) {
            printf("refusal %u\n", (unsigned)answer[0]);
            continue;
        }
        /* The nodes alone; the whole buffer would do as well. */
        uint32_t arguments = type_name_outer(tree, (size_t)TYPE_NAME_NODE_WIDTH * answer[1]);
        if (arguments == 0)
            puts("no outer template");
        else
            printf("%u argument%s\n", (unsigned)arguments, arguments == 1 ? "" : "s");
    }
    return 0;
}
