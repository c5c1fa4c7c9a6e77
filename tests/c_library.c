/* Prints the key Select of a hive, through the library: c_library HIVE. Ends with the status of the call. */
#include "ntboot.h"

#include <stdio.h>
#include <stdlib.h>
#include <string.h>

static uint8_t *read_file(const char *path, size_t *length) {
    FILE *file = fopen(path, "rb");
    if (file == NULL || fseek(file, 0, SEEK_END) != 0) {
        perror(path);
        exit(2);
    }
    *length = (size_t)ftell(file);
    rewind(file);
    uint8_t *bytes = (uint8_t *)malloc(*length + 1);
    if (bytes == NULL || fread(bytes, 1, *length, file) != *length) {
        perror(path);
        exit(2);
    }
    fclose(file);
    return bytes;
}

int main(int argc, char **argv) {
    static const char words[] = "key\n--hive\nhive\n--key\nSelect\n";
    if (argc != 2) {
        fprintf(stderr, "usage: c_library HIVE\n");
        return 1;
    }
    size_t length, said_length, hive_length, log_length;
    uint8_t *hive = read_file(argv[1], &length), none[1] = {0}, said[4096];
    struct ntboot_given given = {true, false, false, false};
    uint8_t status = ntboot_call((const uint8_t *)words, strlen(words), &given, hive, length, none, 0, none, 0, none, 0, said, sizeof said,
                                 &said_length, none, 0, &hive_length, none, 0, &log_length);
    fwrite(said, 1, said_length < sizeof said ? said_length : sizeof said, stdout);
    free(hive);
    return status;
}
