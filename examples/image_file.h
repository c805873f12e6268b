/* What the examples share: a memory, the bytes of an image file, and a call that must not be refused. */
#ifndef IMAGE_FILE_H
#define IMAGE_FILE_H

#include <cp1610.h>

#include <stdio.h>
#include <stdlib.h>

enum { MEMORY_WORDS = 65536, FILE_ROOM = 1 << 20, USUAL_BOARD = 2 };

/* The memory and the file are too large for a small stack. */
static uint16_t memory[MEMORY_WORDS];
static uint8_t file_room[FILE_ROOM];

struct image {
    const uint8_t *bytes;
    size_t length;
};

static struct image read_image(const char *path) {
    FILE *file = fopen(path, "rb");
    if (!file) {
        perror(path);
        exit(1);
    }
    size_t length = fread(file_room, 1, FILE_ROOM, file);
    if (ferror(file) || fgetc(file) != EOF) {
        fprintf(stderr, "%s can't be read, or is longer than %d bytes\n", path, FILE_ROOM);
        exit(1);
    }
    fclose(file);
    return (struct image){file_room, length};
}

/* Every answer below 2^32 is a refusal, and then the call has altered nothing. */
static uint64_t taken(const char *call, uint64_t answer) {
    if (cp1610_is_refused(answer)) {
        fprintf(stderr, "%s refused by %u\n", call, cp1610_value_of(answer));
        exit(1);
    }
    return answer;
}

#endif
