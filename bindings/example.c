// Prints whether two bid files are the same auction, and if not, where they first differ; then the canonical text of the first file.
//     example FILE FILE
// The status is 0 for the same auction, 1 for different ones, and else that of the call that failed. 5: a file cannot be read. 64: the
// command line is wrong.
#include <stdio.h>
#include <stdlib.h>

#include "cats.h"

enum { FILE_FAILED = 5, WRONG_USAGE = 64, FIRST_SIZE = 1 << 12 };

// A buffer of so many bytes in the place of an old one.
static struct cats_buffer grown(struct cats_buffer old, size_t size) {
    struct cats_buffer buffer = {realloc(old.bytes, size), size, 0};
    if (buffer.bytes)
        return buffer;
    fprintf(stderr, "want of memory\n");
    exit(CATS_WANT_OF_MEMORY);
}

// Reads the whole of a file into a block that is made twice as large until it suffices. Ends the program if that fails.
static struct cats_text read_text(const char *path) {
    struct cats_buffer buffer = {NULL, 0, 0};
    FILE *file = fopen(path, "rb");
    for (size_t length = 0; file; length = buffer.size) {
        buffer = grown(buffer, length ? 2 * length : FIRST_SIZE);
        length += fread(buffer.bytes + length, 1, buffer.size - length, file);
        if (ferror(file))
            break;
        if (length < buffer.size) {
            fclose(file);
            return cats_text_of(buffer.bytes, length);
        }
    }
    fprintf(stderr, "%s cannot be read\n", path);
    exit(FILE_FAILED);
}

// Prints what the program prints of these texts. If a buffer was too small, the call is made again.
static uint8_t print_answer(enum cats_task task, const struct cats_text *texts, size_t count) {
    struct cats_request request = cats_request_of(task);
    struct cats_buffer out = grown((struct cats_buffer){NULL, 0, 0}, texts[0].length + FIRST_SIZE);
    struct cats_buffer err = grown((struct cats_buffer){NULL, 0, 0}, FIRST_SIZE);
    uint8_t status = cats_run(&request, texts, count, &out, &err);
    if (out.needed > out.size || err.needed > err.size) {
        out = grown(out, out.needed + 1);
        err = grown(err, err.needed + 1);
        status = cats_run(&request, texts, count, &out, &err);
    }
    fwrite(out.bytes, 1, out.needed, stdout);
    fwrite(err.bytes, 1, err.needed, stderr);
    free(out.bytes);
    free(err.bytes);
    return status;
}

int main(int count, char **words) {
    if (count != 3) {
        fprintf(stderr, "usage: example FILE FILE\n");
        return WRONG_USAGE;
    }
    struct cats_text texts[] = {read_text(words[1]), read_text(words[2])};
    uint8_t status = print_answer(CATS_COMPARE, texts, 2);
    if (status <= CATS_DIFFERENT) {
        uint8_t second = print_answer(CATS_NORMALISE, texts, 1);
        status = second == CATS_DONE ? status : second;
    }
    free((void *)texts[0].bytes);
    free((void *)texts[1].bytes);
    return status;
}
