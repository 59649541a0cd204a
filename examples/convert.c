/* Brings a file of the old format over, reads it and brings it back: an example of the two conversions from C. */
#include <stdio.h>
#include <string.h>

#include "type_name.h"

/* `int` in the old format: C89 with the structure check and an allowance of 1,000; the token from 0 to 3. */
static const uint8_t old_file[] = {
    11, 0, 0, 1, 0, 0, 1, 0xe8, 3, 0, 0,
    15, 0, 0, 0, 0, 0, 0, 0, 3, 0, 0, 0, 'i', 'n', 't',
};

/* Room for every file that is converted. */
static uint8_t file[TYPE_NAME_MOST_WIDENED], back[TYPE_NAME_OLD_MOST_BYTES];
static uint32_t tree[TYPE_NAME_TREE_LENGTH];

static int refused(const char *what, const uint32_t *answer)
{
    printf("%s: refusal %u, detail %u\n", what, (unsigned)answer[0], (unsigned)answer[2]);
    return 1;
}

int main(void)
{
    uint32_t answer[TYPE_NAME_ANSWER_LENGTH];
    size_t length, back_length;
    /* The reader takes no old file: refusal 2. */
    type_name_read(old_file, sizeof old_file, tree, TYPE_NAME_TREE_LENGTH, answer, TYPE_NAME_ANSWER_LENGTH);
    refused("the old file is not read", answer);
    if (type_name_widen(old_file, sizeof old_file, file, sizeof file, answer, TYPE_NAME_ANSWER_LENGTH) != 0)
        return refused("not widened", answer);
    length = answer[1];
    printf("widened: %u bytes for %u\n", (unsigned)length, (unsigned)sizeof old_file);
    if (type_name_read(file, length, tree, TYPE_NAME_TREE_LENGTH, answer, TYPE_NAME_ANSWER_LENGTH) != 0)
        return refused("not accepted", answer);
    printf("accepted: %u node after %u steps\n", (unsigned)answer[1], (unsigned)answer[2]);
    if (type_name_narrow(file, length, back, sizeof back, answer, TYPE_NAME_ANSWER_LENGTH) != 0)
        return refused("not narrowed", answer);
    back_length = answer[1];
    if (back_length != sizeof old_file || memcmp(back, old_file, back_length) != 0)
        return 1;
    printf("narrowed: the old file again\n");
    return 0;
}
