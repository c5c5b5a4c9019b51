/* The peer of bench/run: makes the disk calls of a journal of two words on an image, as `ygg run` makes them for the script that it is given.

Usage: run_peer IMAGE SCRIPT.  The image is one of examples/pair.ygg, and each line of the script `call put A B` or `call get I`. */
#include <fcntl.h>
#include <stdio.h>
#include <stdlib.h>
#include <string.h>
#include <unistd.h>

enum { BLOCK = 16 };

static int image;

static void fail(const char *what) {
    perror(what);
    exit(4);
}

static void write_row(int row, int word) {
    unsigned char block[BLOCK] = {(unsigned char)word};
    if (pwrite(image, block, BLOCK, (row + 1) * BLOCK) != BLOCK)
        fail("write");
}

static int read_row(int row) {
    unsigned char block[BLOCK];
    if (pread(image, block, BLOCK, (row + 1) * BLOCK) != BLOCK)
        fail("read");
    return block[0];
}

static void flush(void) {
    if (fdatasync(image) != 0)
        fail("flush");
}

static void finish(int first, int second) {
    write_row(3, first);
    write_row(4, second);
    flush();
    write_row(0, 0);
    flush();
}

static void put(int first, int second) {
    write_row(1, first);
    write_row(2, second);
    flush();
    write_row(0, 1);
    flush();
    finish(first, second);
}

static void say(const char *line) {
    size_t size = strlen(line);
    if (write(1, line, size) != (ssize_t)size)
        fail("output");
}

int main(int count, char **words) {
    if (count != 3)
        return 2;
    image = open(words[1], O_RDWR);
    FILE *script = fopen(words[2], "r");
    if (image < 0 || script == NULL)
        fail("open");
    for (int row = -1; row < 5; row++)
        read_row(row);
    flush();
    if (read_row(0) == 1)
        finish(read_row(1), read_row(2));
    say("up\n");
    char line[256], answer[256];
    unsigned first, second, done = 0;
    while (fgets(line, sizeof line, script) != NULL) {
        if (sscanf(line, "call put %x %x", &first, &second) == 2) {
            put((int)first, (int)second);
            say("done\n");
            done++;
        } else if (sscanf(line, "call get %x", &first) == 1) {
            snprintf(answer, sizeof answer, "answer %02x\n", (unsigned)read_row(first ? 4 : 3));
            say(answer);
            done++;
        }
    }
    snprintf(answer, sizeof answer, "ran %u\n", done);
    say(answer);
    return 0;
}
