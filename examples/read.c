/* Reads the row file on standard input and says what comes of it. */
#include <stdio.h>

#include "type_name.h"

/* One byte more than a file may have, so that a longer one is refused and not cut. */
static uint8_t file[TYPE_NAME_MOST_BYTES + 1];
static uint32_t tree[TYPE_NAME_TREE_LENGTH];

int main(void)
{
    uint32_t answer[TYPE_NAME_ANSWER_LENGTH];
    size_t length = fread(file, 1, sizeof file, stdin);
    /* The file is somebody else's. */
    type_name_limit_allowance(file, length, TYPE_NAME_AMPLE_ALLOWANCE);
    if (type_name_read(file, length, tree, TYPE_NAME_TREE_LENGTH, answer, TYPE_NAME_ANSWER_LENGTH) == 0) {
        printf("accepted: %u nodes after %u steps\n", answer[1], answer[2]);
        for (uint32_t node = 0; node < answer[1]; node++) {
            const uint32_t *record = tree + (size_t)TYPE_NAME_NODE_WIDTH * node;
            printf("kind %u, token %u, extent %u\n", record[0], record[1], record[2]);
        }
        return 0;
    }
    printf("refused: number %u, token %u, detail %u after %u steps\n", answer[0], answer[1], answer[2], answer[3]);
    return 1;
}
