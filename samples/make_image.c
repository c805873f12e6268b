/* Makes an image file from lines of assembly, with the kit's own assembler and writer.
 *
 *     make_image BOARD FIRST <source >image        (both numbers hexadecimal)
 *
 * A source line is one line as the disassembler prints it. What follows a `;` is a remark, and empty lines are skipped. The first
 * instruction goes to the address FIRST. */
#include <cp1610.h>
#include <stdio.h>
#include <stdlib.h>
#include <string.h>

static uint16_t memory[65536];
static uint8_t file[CP1610_IMAGE_ROOM];

/* The length of a line without its remark and the blanks before it. */
static size_t line_length(const char *line) {
    size_t n = strcspn(line, ";\n");
    while (n > 0 && line[n - 1] == ' ')
        n--;
    return n;
}

static int is_sdbd(const char *line, size_t length) { return length == 4 && memcmp(line, "SDBD", 4) == 0; }

int main(int argc, char **argv) {
    if (argc != 3) {
        fprintf(stderr, "usage: make_image BOARD FIRST <source >image\n");
        return 2;
    }
    uint16_t board = (uint16_t)strtoul(argv[1], NULL, 16);
    uint32_t first = (uint32_t)strtoul(argv[2], NULL, 16) & 0xFFFF;
    uint32_t next = first;
    uint8_t d = 0;
    char line[256];
    for (int number = 1; fgets(line, sizeof line, stdin); number++) {
        size_t length = line_length(line);
        if (length == 0)
            continue;
        uint16_t words[CP1610_LINE_WORDS];
        uint64_t answer = cp1610_assemble((const uint8_t *)line, length, d, words, CP1610_LINE_WORDS);
        if (cp1610_is_refused(answer)) {
            fprintf(stderr, "line %d: refused by %u: %.*s\n", number, cp1610_value_of(answer), (int)length, line);
            return 1;
        }
        for (uint32_t i = 0; i < cp1610_value_of(answer); i++)
            memory[next++ & 0xFFFF] = words[i];
        d = is_sdbd(line, length);
    }
    uint64_t answer = cp1610_write(board, memory, 65536, (uint16_t)first, (uint16_t)(next - 1), file, sizeof file);
    if (cp1610_is_refused(answer)) {
        fprintf(stderr, "not written: refused by %u\n", cp1610_value_of(answer));
        return 1;
    }
    return fwrite(file, 1, cp1610_value_of(answer), stdout) == cp1610_value_of(answer) ? 0 : 1;
}
