/* samples/current.c: prints which version of the signers' list is current in a pack. */
#include <stdio.h>
#include <stdlib.h>
#include <string.h>
#include "vof.h"

int main(int argc, char **argv) {
    FILE *file = argc == 2 ? fopen(argv[1], "rb") : NULL;
    if (file == NULL || fseek(file, 0, SEEK_END) != 0)
        return 2;
    size_t length = (size_t)ftell(file);
    uint8_t *pack = malloc(length + 1);
    rewind(file);
    if (pack == NULL || fread(pack, 1, length, file) != length)
        return 2;

    const char *bucket = "herd", *object = "signers/list";
    uint64_t told[VOF_CURRENT_NUMBERS];
    uint8_t ulid[VOF_ULID_LENGTH];
    uint64_t answer = vof_current(pack, length, (const uint8_t *)bucket, strlen(bucket),
                                  (const uint8_t *)object, strlen(object), told,
                                  VOF_CURRENT_NUMBERS, ulid, VOF_ULID_LENGTH);
    if (vof_number(answer) != 0)
        printf("refused %u: %s\n", vof_number(answer), vof_reason(vof_number(answer)));
    else if (!told[VOF_CURRENT_FOUND] || told[VOF_CURRENT_IS_DELETE_MARKER])
        puts("there is no such object");
    else
        printf("%.26s\n", (const char *)ulid);
    return vof_number(answer) != 0;
}
