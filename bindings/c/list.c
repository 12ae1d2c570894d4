/* Lists the records of the files that are named, in just the words of the program `list`: each file is mapped, asked what it needs, and
 * read into memory that is allocated once. */
#include <fcntl.h>
#include <inttypes.h>
#include <stdio.h>
#include <stdlib.h>
#include <sys/mman.h>
#include <sys/stat.h>
#include <unistd.h>

#include "hooflift.h"

/* Document 01's words for each refusal, and for each reason of number 7. */
static const char *const words[] = {"", "no Part 21 marker", "file too long", "comment open", "string open", "record without ;",
    "parenthesis open", "bad record", "no row left", "span or kept row outside the file or backwards", "no parameter left",
    "literal open in a parameter", "parameter of another type", "real outside the class", "no record with this id",
    "unit chain too deep", "output too short"};
static const char *const reasons[] = {"", "header record without (", "no #", "id above 4294967295", "no digits", "no =",
    "nothing after =", "no ("};

struct refusal {
    uint8_t number, reason;
    size_t place;
};

static void refuse(struct refusal why) {
    printf("refused %d/%d@%zu: %s", why.number, why.reason, why.place, words[why.number]);
    printf(why.reason ? ": %s\n" : "%s\n", reasons[why.reason]);
}

/* A byte below a space, and 127, as \x and two hex digits: a line end in a keyword ends no line. */
static void print_part(const uint8_t *bytes, size_t count) {
    for (size_t i = 0; i < count; i++)
        printf(bytes[i] < ' ' || bytes[i] == 127 ? "\\x%02x" : "%c", bytes[i]);
}

/* One line a record: id, keyword, and where its arguments begin and end. */
static void print_rows(const uint8_t *file, const uint32_t *rows, size_t count) {
    for (size_t k = 0; k < count; k++) {
        const uint32_t *row = rows + k * HOOFLIFT_ROW;
        printf("%" PRIu32 " ", row[0]);
        if (row[5] == 1)
            fputs("(complex)", stdout);
        else
            print_part(file + row[1], row[2] - row[1]);
        printf(" %" PRIu32 " %" PRIu32 "\n", row[3], row[4]);
    }
}

/* All that is lent, in one allocation: the id slots, the header rows and the data rows. Sized by records, never by ids. */
static int list(const uint8_t *file, size_t len) {
    uint64_t needs[HOOFLIFT_NEEDS], tables[HOOFLIFT_TABLES];
    struct refusal why = {0, 0, 0};
    why.number = hooflift_needs(file, len, needs, HOOFLIFT_NEEDS, &why.reason, &why.place);
    if (why.number) {
        refuse(why);
        return 0;
    }
    size_t headers_len = needs[0] * HOOFLIFT_HEADER_ROW, rows_len = needs[1] * HOOFLIFT_ROW, slots_len = needs[1];
    uint64_t *slots = malloc((slots_len + 1) * sizeof *slots + (headers_len + rows_len) * sizeof(uint32_t));
    if (!slots) {
        fputs("no memory\n", stderr);
        return 1;
    }
    uint32_t *headers = (uint32_t *)(slots + slots_len), *rows = headers + headers_len;
    why.number = hooflift_open(file, len, headers, headers_len, rows, rows_len, slots, slots_len, tables, HOOFLIFT_TABLES, &why.reason,
        &why.place);
    if (why.number) {
        refuse(why);
    } else {
        printf("records %" PRIu64 " max %" PRIu64 "\n", tables[9], tables[10]);
        print_rows(file, rows, hooflift_len(tables, HOOFLIFT_TABLES));
    }
    free(slots);
    return 0;
}

static int list_path(const char *path) {
    static const uint8_t nothing[1];
    struct stat about;
    int fd = open(path, O_RDONLY);
    if (fd < 0 || fstat(fd, &about) != 0) {
        puts("cannot be opened");
        return 1;
    }
    size_t len = (size_t)about.st_size;
    void *file = len ? mmap(NULL, len, PROT_READ, MAP_PRIVATE, fd, 0) : (void *)nothing;
    close(fd);
    if (file == MAP_FAILED) {
        puts("cannot be read");
        return 1;
    }
    int status = list(file, len);
    if (len) munmap(file, len);
    return status;
}

int main(int argc, char **argv) {
    int status = 0;
    if (argc < 2) {
        fputs("usage: list FILE..\n", stderr);
        return 2;
    }
    for (int i = 1; i < argc; i++) {
        if (argc > 2) printf("%s:\n", argv[i]);
        status |= list_path(argv[i]);
    }
    return status;
}
