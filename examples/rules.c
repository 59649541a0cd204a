/* Builds a table of two rules, says which wins for the row file on standard input and walks the rules that overlap: an
 * example of rule tables from C. */
#include <stdio.h>

#include "type_name.h"

/* One byte more than a file may have, so that a longer one is refused and not cut. */
static uint8_t file[TYPE_NAME_MOST_BYTES + 1];
static uint32_t tree[TYPE_NAME_TREE_LENGTH];

/* Lane list */
static const struct type_name_item lane[] = {
    {TYPE_NAME_ITEM_WORD, 0, "Lane"},
    {TYPE_NAME_ITEM_LIST, 0, NULL},
};

/* any list rest */
static const struct type_name_item capacity[] = {
    {TYPE_NAME_ITEM_ANY, 0, NULL},
    {TYPE_NAME_ITEM_LIST, 0, NULL},
    {TYPE_NAME_ITEM_REST, 0, NULL},
};

/* Prints the items of a sequence that is shown. */
static void print(const uint8_t *item, const uint8_t *end)
{
    while (item < end) {
        switch (*item++) {
        case TYPE_NAME_ITEM_WORD:
            printf(" %.*s", *item, (const char *)item + 1);
            item += 1 + *item;
            break;
        case TYPE_NAME_ITEM_KIND:
            printf(" kind:%u", (unsigned)*item++);
            break;
        case TYPE_NAME_ITEM_GROUP:
            printf(" group");
            break;
        case TYPE_NAME_ITEM_LIST:
            printf(" list");
            break;
        default:
            printf(" any");
            break;
        }
    }
    printf("\n");
}

/* Prints each pair of rules that overlap. */
static void print_overlaps(const uint8_t *rules, size_t rules_len)
{
    static uint8_t sequence[TYPE_NAME_LONGEST_SEQUENCE];
    uint32_t answer[TYPE_NAME_ANSWER_LENGTH] = {0, 0, 0, 0};
    while (type_name_overlap(rules, rules_len, answer[1], answer[2], sequence, sizeof sequence, answer,
                             TYPE_NAME_ANSWER_LENGTH) == 0 && answer[2] != 0) {
        printf("rules %u and %u overlap:", (unsigned)answer[1], (unsigned)answer[2]);
        print(sequence, sequence + answer[3]);
    }
}

int main(void)
{
    uint8_t rules[64];
    uint32_t answer[TYPE_NAME_ANSWER_LENGTH];
    size_t rules_len = 0, length = fread(file, 1, sizeof file, stdin);
    if (!type_name_put_rule(rules, sizeof rules, &rules_len, lane, sizeof lane / sizeof lane[0]) ||
        !type_name_put_rule(rules, sizeof rules, &rules_len, capacity, sizeof capacity / sizeof capacity[0])) {
        puts("a rule cannot be written");
        return 2;
    }
    print_overlaps(rules, rules_len);
    /* The file is somebody else's. */
    type_name_limit_allowance(file, length, TYPE_NAME_AMPLE_ALLOWANCE);
    if (type_name_match(file, length, rules, rules_len, tree, TYPE_NAME_TREE_LENGTH, answer,
                        TYPE_NAME_ANSWER_LENGTH) == 0) {
        printf("rule %u wins\n", (unsigned)answer[3]);
        return 0;
    }
    printf("refusal %u\n", (unsigned)answer[0]);
    return 1;
}
