/* Lists the packages of a document in standard input: `cargo metadata --format-version 1 | example`. */
#include "krates.h"

#include <stdio.h>
#include <stdlib.h>
#include <string.h>

int main(void) {
    static uint8_t document[64 << 20];
    const char *options = "--ignore-kind\ndev\n";
    size_t length = fread(document, 1, sizeof document, stdin);
    uint8_t *room = malloc(length + 1024);
    if (room == NULL)
        return 2;
    struct krates_answer told =
        krates_list(document, length, (const uint8_t *)options, strlen(options), room, length + 1024);
    FILE *where = told.status == KRATES_ANSWERED ? stdout : stderr;
    if (told.status < KRATES_TOO_SHORT)
        fwrite(room, 1, told.length, where);
    free(room);
    return told.status == KRATES_ANSWERED ? 0 : 1;
}
