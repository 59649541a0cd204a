/* Answers many rows in one run, for harness/iso and its like: standard input is a sequence of row files and name lists, each pair
   after its two lengths (four bytes each; with no list of names the row is read without); standard output has for each the
   answer's four numbers and, if it is accepted, the numbers of its tree. Numbers are four bytes each, little-endian as on the
   machine that this runs on. */
#include <stdint.h>
#include <stdio.h>
#include "type_name.h"

static uint8_t file[131073], names[513 * 275];
static uint32_t tree[6 * 1024];

int main(void) {
    uint32_t length[2];
    while (fread(length, sizeof length, 1, stdin) == 1) {
        if (length[0] > sizeof file || fread(file, 1, length[0], stdin) != length[0])
            return 1;
        if (length[1] > sizeof names || fread(names, 1, length[1], stdin) != length[1])
            return 1;
        uint32_t answer[4];
        if (length[1] == 0)
            type_name_read(file, length[0], tree, 6 * 1024, answer, 4);
        else
            type_name_read_named(file, length[0], names, length[1], tree, 6 * 1024, answer, 4);
        if (fwrite(answer, sizeof answer[0], 4, stdout) != 4)
            return 1;
        if (answer[0] == 0 && fwrite(tree, sizeof tree[0], 3 * (size_t) answer[1], stdout) != 3 * (size_t) answer[1])
            return 1;
    }
    return 0;
}
