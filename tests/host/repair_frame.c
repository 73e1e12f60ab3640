/* repair_frame IN OUT N [ALLOWANCE]
 *
 * Repairs the frame of N rows in the file IN and writes it to the file OUT: a small host program in C.
 * It says on standard output what happened, and exits with
 *   0  clean or repaired: OUT is written
 *   1  stuck, spent or erased: nothing is written
 *   2  refused, or called in another way than above: nothing is written
 *   3  a file could not be read or written
 * OUT is there in full or not at all, and IN is never overwritten: where the damage is past what is promised, a repair can be
 * wrong, and only the received frame can be tried again. */
#define _POSIX_C_SOURCE 200809L
#include "gazenohyri.h"

#include <errno.h>
#include <stdbool.h>
#include <stdio.h>
#include <stdlib.h>
#include <string.h>
#include <sys/stat.h>
#include <unistd.h>

enum { DONE, NOT_REPAIRED, REFUSED, FILE_ERROR };

/* All that is promised to come back does so in two passes; more passes may mend more, and no promise covers that. */
enum { USUAL_ALLOWANCE = 2 };

static int usage(const char *why)
{
    fprintf(stderr, "%susage: repair_frame IN OUT N [ALLOWANCE]\n", why);
    fprintf(stderr, "repairs the frame of N rows, %d to %d, in the file IN, and writes it to the file OUT\n",
            GAZENOHYRI_SMALLEST_N, GAZENOHYRI_GREATEST_N);
    fprintf(stderr, "ALLOWANCE: passes over rows and columns, %d to %d, %d if it is not given\n",
            GAZENOHYRI_SMALLEST_ALLOWANCE, GAZENOHYRI_GREATEST_ALLOWANCE, USUAL_ALLOWANCE);
    return REFUSED;
}

/* Decimal digits alone. A number too great for size_t becomes the greatest one, and is refused like any that is too great. */
static bool parse(const char *text, size_t *value)
{
    *value = 0;
    if (*text == '\0')
        return false;
    for (; *text != '\0'; text++) {
        if (*text < '0' || *text > '9')
            return false;
        size_t digit = (size_t)(*text - '0');
        *value = *value > (SIZE_MAX - digit) / 10 ? SIZE_MAX : *value * 10 + digit;
    }
    return true;
}

static bool file_error(const char *what, const char *name)
{
    fprintf(stderr, "repair_frame: cannot %s %s: %s\n", what, name, strerror(errno));
    return false;
}

/* Reads at most `most` bytes. */
static bool read_file(const char *name, uint8_t *bytes, size_t most, size_t *length)
{
    FILE *file = fopen(name, "rb");
    if (file == NULL)
        return file_error("open", name);
    *length = fread(bytes, 1, most, file);
    bool good = !ferror(file) || file_error("read", name);
    fclose(file);
    return good;
}

static bool write_new_file(const char *name, const uint8_t *bytes, size_t length)
{
    FILE *file = fopen(name, "wbx"); /* x: not over a file that is there */
    if (file == NULL)
        return file_error("make", name);
    bool good = fwrite(bytes, 1, length, file) == length && fflush(file) == 0 && fsync(fileno(file)) == 0;
    good = good || file_error("write", name);
    if (fclose(file) != 0 && good)
        good = file_error("write", name);
    if (!good)
        remove(name);
    return good;
}

/* Under another name first, so that half a frame never has the name OUT. */
static bool write_file(const char *name, const uint8_t *bytes, size_t length)
{
    char *part = (char *)malloc(strlen(name) + sizeof ".part");
    if (part == NULL)
        return file_error("write", name);
    strcat(strcpy(part, name), ".part");
    bool good = write_new_file(part, bytes, length);
    if (good && rename(part, name) != 0) {
        good = file_error("write", name);
        remove(part);
    }
    free(part);
    return good;
}

static bool is_same_file(const char *one, const char *other)
{
    struct stat a, b;
    return stat(one, &a) == 0 && stat(other, &b) == 0 && a.st_dev == b.st_dev && a.st_ino == b.st_ino;
}

static void print_reason(uint32_t number)
{
    switch (number) {
    case GAZENOHYRI_BAD_N:
        printf("N is not %d to %d", GAZENOHYRI_SMALLEST_N, GAZENOHYRI_GREATEST_N);
        break;
    case GAZENOHYRI_BAD_INPUT_LENGTH:
        printf("the file does not have the length of a frame of N rows");
        break;
    case GAZENOHYRI_BAD_ALLOWANCE:
        printf("the allowance is not %d to %d", GAZENOHYRI_SMALLEST_ALLOWANCE, GAZENOHYRI_GREATEST_ALLOWANCE);
        break;
    default: /* decode gives no other to this program */
        printf("unknown");
    }
}

static void print_count(const char *before, uint32_t count, const char *one, const char *more)
{
    printf("%s%u %s", before, (unsigned)count, count == 1 ? one : more);
}

static int report(const uint8_t *block)
{
    uint32_t number = gazenohyri_number(block), passes = gazenohyri_passes(block);
    if (number == GAZENOHYRI_OK && passes == 0) {
        printf("clean\n");
        return DONE;
    }
    if (number == GAZENOHYRI_OK) {
        print_count("repaired in ", passes, "pass", "passes");
        print_count(", ", gazenohyri_bits(block), "bit mended\n", "bits mended\n");
        return DONE;
    }
    if (number == GAZENOHYRI_STUCK || number == GAZENOHYRI_SPENT) {
        print_count(number == GAZENOHYRI_STUCK ? "stuck after " : "spent after ", passes, "pass", "passes");
        print_count(": ", gazenohyri_bad_rows(block), "row", "rows");
        print_count(" and ", gazenohyri_bad_columns(block), "column", "columns");
        printf(" left that are not codewords, nothing written\n");
        return NOT_REPAIRED;
    }
    if (number == GAZENOHYRI_ERASED) {
        printf("erased: all bits are ones, nothing written\n");
        return NOT_REPAIRED;
    }
    printf("refused, number %u: ", (unsigned)number);
    print_reason(number);
    printf(", nothing written\n");
    return REFUSED;
}

int main(int count, char **words)
{
    static uint8_t received[GAZENOHYRI_GREATEST_FRAME_BYTES + 1]; /* one more, to see that a file is too long */
    static uint8_t frame[GAZENOHYRI_GREATEST_FRAME_BYTES];
    uint8_t block[GAZENOHYRI_BLOCK_BYTES];
    size_t n = 0, allowance = USUAL_ALLOWANCE, length = 0;
    if (count < 4 || count > 5 || !parse(words[3], &n) || (count == 5 && !parse(words[4], &allowance)))
        return usage("");
    const char *in = words[1], *out = words[2];
    if (!read_file(in, received, sizeof received, &length))
        return FILE_ERROR;
    if (is_same_file(in, out))
        return usage("OUT is the file IN\n");
    size_t bytes = gazenohyri_frame_bytes(n);
    uint32_t number = gazenohyri_decode(n, allowance, received, length, frame, bytes, block, sizeof block);
    if (number == GAZENOHYRI_OK && !write_file(out, frame, bytes))
        return FILE_ERROR;
    int status = report(block);
    return fflush(stdout) == 0 || file_error("write", "standard output") ? status : FILE_ERROR;
}
