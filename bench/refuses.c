/* The least host of the library, for object.sh: an empty file is refused with 1, whatever is lent. */
#include <stddef.h>
#include <stdint.h>

uint8_t hooflift_scan(const uint8_t *file, size_t file_len, uint32_t *headers, size_t headers_len, uint32_t *rows,
                      size_t rows_len, size_t slots, uint64_t *out, size_t out_len);

int main(void) {
    uint8_t file[1] = {0};
    uint32_t headers[4] = {0}, rows[6] = {0};
    uint64_t out[3] = {0};
    return hooflift_scan(file, 0, headers, 4, rows, 6, 1, out, 3) == 1 ? 0 : 1;
}
