/* A proved reader of STEP exchange files (ISO 10303-21), for hosts in C and in languages that call C.
 *
 * Memory. The library allocates nothing, keeps nothing between calls and has no global state: every table and room is lent by the host
 * for one call. A slice is a pointer and its length in elements, and an empty slice has any non-null pointer that is aligned for its
 * elements. What is lent for writing overlaps nothing else that is lent to the same call. Every other argument may hold any value: no
 * function here has a precondition beyond this, and each is proved to answer for every input.
 *
 * Answers. Unless said otherwise a function answers 0; or the number of a refusal of document 01, 'Refusal numbers', 1 to 16; or
 * HOOFLIFT_NONE where there is nothing to tell. On a refusal, and on HOOFLIFT_NONE, all that the call would have told stays as it was
 * ("A refusal returns only its number, reason and place; lent rows and output keep their bytes, as does all room beyond an answer"; of a
 * lent float that is a NaN only that it is one). A refusal of document 01 sets `fault` to its place in the file, and `reason`, where
 * there is one, to its reason, which is 0 but for 7; `hooflift_scan` puts both into `out`. Where one of these lists
 * that are lent for writing is too short, the answer is 16 and nothing at all is set: `tables` of fewer than HOOFLIFT_TABLES numbers, `ids` of
 * fewer than HOOFLIFT_IDS and `needs` of fewer than HOOFLIFT_NEEDS, though not all of these are told so far, and `found` of fewer than there are
 * ids, before anything else; a `row` of fewer than HOOFLIFT_ROW and a `part` of fewer than 4 only where there is one to tell, so that every other
 * refusal and HOOFLIFT_NONE come first. The place of this 16 is 0, and so is that of every refusal of a function without a `fault`.
 *
 * Rows. A data row is six 32-bit numbers: id, keyword start and end (0, 0 if complex), argument start and end, complex 0 or 1. A header row
 * is four: keyword start and end, argument start and end. Places count bytes from the file's start, and an end is the place after the last.
 *
 * Readers. A reader is a place and an end in the file: those of a record's arguments to begin with. Each reading function takes the next
 * parameter and moves `*place`: "after 12, 13 and 16 [it] stands past the parameter and its comma; after 10 at the place reached by
 * skipping trivia; after 11 at the parameter's start". 9 is given where the place and the end do not lie in the file in this order. */
#ifndef HOOFLIFT_H
#define HOOFLIFT_H

#include <stddef.h>
#include <stdint.h>

#ifdef __cplusplus
extern "C" {
#endif

/* There is none: no such row, header record or part. */
#define HOOFLIFT_NONE 255
/* `hooflift_get` found no record. */
#define HOOFLIFT_NO_ROW 4294967295u
/* Numbers in a data row, a header row, what goes with the tables, what stands beside the id slots, and what a file needs. */
#define HOOFLIFT_ROW 6
#define HOOFLIFT_HEADER_ROW 4
#define HOOFLIFT_TABLES 16
#define HOOFLIFT_IDS 8
#define HOOFLIFT_NEEDS 12

/* Kinds of records, by number. */
enum {
    HOOFLIFT_GEOMETRIC_REPRESENTATION_CONTEXT = 0,
    HOOFLIFT_GLOBAL_UNIT_ASSIGNED_CONTEXT = 1,
    HOOFLIFT_GLOBAL_UNCERTAINTY_ASSIGNED_CONTEXT = 2,
    HOOFLIFT_LENGTH_UNIT = 3,
    HOOFLIFT_PLANE_ANGLE_UNIT = 4,
    HOOFLIFT_SOLID_ANGLE_UNIT = 5,
    HOOFLIFT_SI_UNIT = 6,
    HOOFLIFT_CONVERSION_BASED_UNIT = 7,
    HOOFLIFT_UNCERTAINTY_MEASURE_WITH_UNIT = 8,
    HOOFLIFT_LENGTH_MEASURE_WITH_UNIT = 9,
    HOOFLIFT_COMPLEX = 10,
    HOOFLIFT_OTHER = 11
};

/* ---- a file's tables */

/* What a file needs: needs[0] header rows, needs[1] data rows, which is how many id slots, needs[2] the largest id, needs[3] how many numbers
 * the longest list or grid of its records has, needs[4] how many bytes the longest text of a parameter has, needs[5] how many rows the longest
 * grid has, for its row ends; the others are free for later and stay as they were. Rooms of these sizes suffice, and fewer header rows, data rows
 * or id slots do not. Items are counted whatever they read as, in all parameters that a reader comes to which begins with the arguments of a
 * record or of a part; not what a reader comes to that a host sets into a list: how long a string there is `hooflift_text_length` tells. A file
 * that no room helps is refused here as it is in `hooflift_open`, with the reason of refusal 7 in `reason`. 16 where `needs` is shorter than
 * HOOFLIFT_NEEDS, before anything is read. The time grows with the square of the file's length where many complex records have a `(` in a string
 * or a comment, as `#1=('(');`: each takes it for a part's and seeks its `)` as far as the file's end (docs/DECISIONS.md, 'What is not linear').
 * 01: "8 is given exactly when a record has been read whole and the lent rows of its kind (or id slots, one a record) are already used up";
 * "16 comes only if all read and either list is too short"; "16 exactly when a text of this second kind is longer than the output". */
uint8_t hooflift_needs(const uint8_t *file, size_t file_len, uint64_t *needs, size_t needs_len, uint8_t *reason, size_t *fault);

/* Reads a file into header rows, data rows and id slots, one a record, and tells what goes with them in HOOFLIFT_TABLES numbers, which the
 * functions below take: tables[8] header rows, tables[9] data rows, tables[10] the largest id; the first HOOFLIFT_IDS are those of
 * `hooflift_index`. 16 where `tables` is shorter, before anything is read.
 * 01, 'Reading the file': "the file is read in order and the first fault is given". */
uint8_t hooflift_open(const uint8_t *file, size_t file_len, uint32_t *headers, size_t headers_len, uint32_t *rows, size_t rows_len,
                      uint64_t *slots, size_t slots_len, uint64_t *tables, size_t tables_len, uint8_t *reason, size_t *fault);

/* The same without the index: the rows alone, for so many id slots. out[0] header rows, out[1] data rows, out[2] the largest id; on a
 * refusal out[0] its reason and out[1] its place. `out` of fewer than 3 numbers stays as it was. */
uint8_t hooflift_scan(const uint8_t *file, size_t file_len, uint32_t *headers, size_t headers_len, uint32_t *rows, size_t rows_len,
                      size_t slots, uint64_t *out, size_t out_len);

/* Indexes the first `count` rows by id in the slots, or all where the table has fewer, and tells what stands beside them in HOOFLIFT_IDS numbers; 16 where `ids` is shorter, where
 * there are fewer slots than rows to index, or where these are more than 1073741824 (2^30, which no file has that is read here), and nothing is
 * written: no row is left out unseen. */
uint8_t hooflift_index(const uint32_t *rows, size_t rows_len, size_t count, uint64_t *slots, size_t slots_len, uint64_t *ids, size_t ids_len);

/* The number of the last row with this id, or HOOFLIFT_NO_ROW. `ids` is what `hooflift_index` or `hooflift_open` told.
 * 01: "Lookup of an id answers like a map written to in file order: the last record of that id, or none." */
uint32_t hooflift_get(const uint32_t *rows, size_t rows_len, const uint64_t *slots, size_t slots_len, const uint64_t *ids, size_t ids_len,
                      uint32_t id);

/* The same for each of many ids: found[k] is the number of the last row of ids[k], or HOOFLIFT_NO_ROW; 16 where `found` is shorter than `ids`, and
 * nothing is written. A call for many costs less than a call for each. */
uint8_t hooflift_get_all(const uint32_t *rows, size_t rows_len, const uint64_t *slots, size_t slots_len, const uint64_t *beside, size_t beside_len,
                         const uint32_t *ids, size_t ids_len, uint32_t *found, size_t found_len);

/* The last record with this id as a row of HOOFLIFT_ROW numbers; 14 where there is none, 16 where `row` is shorter. 01: "14 arguments asked of an id with no record". */
uint8_t hooflift_require(const uint32_t *rows, size_t rows_len, const uint64_t *slots, size_t slots_len, const uint64_t *tables,
                         size_t tables_len, uint32_t id, uint64_t *row, size_t row_len);

/* Where the arguments of the last record with this id stand; 14 where there is none, 9 where they lie outside the file. */
uint8_t hooflift_args(const uint8_t *file, size_t file_len, const uint32_t *rows, size_t rows_len, const uint64_t *slots, size_t slots_len,
                      const uint64_t *tables, size_t tables_len, uint32_t id, size_t *start, size_t *stop);

/* The kind of the last record with this id; HOOFLIFT_OTHER where there is none. Answers the kind's number. */
uint32_t hooflift_kind_of(const uint8_t *file, size_t file_len, const uint32_t *rows, size_t rows_len, const uint64_t *slots,
                          size_t slots_len, const uint64_t *tables, size_t tables_len, uint32_t id);

/* How many records there are. Answers the count. */
size_t hooflift_len(const uint64_t *tables, size_t tables_len);

/* Row k in file order as HOOFLIFT_ROW numbers; HOOFLIFT_NONE past the table, 16 where `row` is shorter. */
uint8_t hooflift_entity(const uint32_t *rows, size_t rows_len, const uint64_t *tables, size_t tables_len, size_t k, uint64_t *row,
                        size_t row_len);

/* Where row k's keyword stands, and where its arguments do; HOOFLIFT_NONE past the table, 9 where that lies outside the file. */
uint8_t hooflift_keyword(const uint8_t *file, size_t file_len, const uint32_t *rows, size_t rows_len, const uint64_t *tables,
                         size_t tables_len, size_t k, size_t *start, size_t *stop);
uint8_t hooflift_args_of(const uint8_t *file, size_t file_len, const uint32_t *rows, size_t rows_len, const uint64_t *tables,
                         size_t tables_len, size_t k, size_t *start, size_t *stop);

/* The kind of row k; HOOFLIFT_OTHER past the table. The kind of a keyword, letters in either case. Both answer the kind's number. */
uint32_t hooflift_kind(const uint8_t *file, size_t file_len, const uint32_t *rows, size_t rows_len, const uint64_t *tables,
                       size_t tables_len, size_t k);
uint32_t hooflift_intern(const uint8_t *keyword, size_t keyword_len);

/* The next row of a kind from row `from` on, in file order, by its number; HOOFLIFT_NONE where there is none. A kind's number above HOOFLIFT_OTHER
 * means HOOFLIFT_OTHER, here and for parts. */
uint8_t hooflift_by_kind(const uint8_t *file, size_t file_len, const uint32_t *rows, size_t rows_len, const uint64_t *tables,
                         size_t tables_len, uint32_t kind, size_t from, size_t *row);

/* ---- header records */

/* The first header record with this keyword, by its row's number, and where its arguments stand; HOOFLIFT_NONE where there is none, 9 where
 * they lie outside the file. 01: "The first header record with a given keyword is found, letters in either case." */
uint8_t hooflift_header_row(const uint8_t *file, size_t file_len, const uint32_t *headers, size_t headers_len, const uint64_t *tables,
                            size_t tables_len, const uint8_t *name, size_t name_len, size_t *row);
uint8_t hooflift_header_args(const uint8_t *file, size_t file_len, const uint32_t *headers, size_t headers_len, const uint64_t *tables,
                             size_t tables_len, const uint8_t *name, size_t name_len, size_t *start, size_t *stop);

/* The file's name and the system that wrote it, the first and the sixth parameter of FILE_NAME: from `start` up to `stop`, in the file where
 * `room` is then 0 and in `out` where it is 1. Empty where there is none; 16 where `out` is too short, 9 where the record's arguments lie
 * outside the file. 01, 'Strings'. */
uint8_t hooflift_file_name(const uint8_t *file, size_t file_len, const uint32_t *headers, size_t headers_len, const uint64_t *tables,
                           size_t tables_len, uint8_t *out, size_t out_len, uint8_t *room, size_t *start, size_t *stop, size_t *fault);
uint8_t hooflift_originating_system(const uint8_t *file, size_t file_len, const uint32_t *headers, size_t headers_len,
                                    const uint64_t *tables, size_t tables_len, uint8_t *out, size_t out_len, uint8_t *room, size_t *start,
                                    size_t *stop, size_t *fault);

/* ---- parameters */

/* Whether a reader from `place` up to `end` lies in the file: 0, or 9. 01: "9 span [..] outside the file or backwards". */
uint8_t hooflift_new(const uint8_t *file, size_t file_len, size_t place, size_t end);

/* Whether no parameter is left: 1 or 0 in `empty`. The reader goes past the trivia. 01: "At the end there is none (10)". */
uint8_t hooflift_is_empty(const uint8_t *file, size_t file_len, size_t *place, size_t end, uint8_t *empty, size_t *fault);

/* Goes past one parameter; past `count` of them, up to the first refusal; and past one, telling where it stood in the file.
 * 01: "A parameter starts after trivia and runs to a comma at depth 0 or to the end". */
uint8_t hooflift_skip(const uint8_t *file, size_t file_len, size_t *place, size_t end, size_t *fault);
uint8_t hooflift_skip_n(const uint8_t *file, size_t file_len, size_t *place, size_t end, size_t count, size_t *fault);
uint8_t hooflift_param(const uint8_t *file, size_t file_len, size_t *place, size_t end, size_t *start, size_t *stop, size_t *fault);

/* A reference. 01: "`#` and digits up to 4294967295". The second takes `$` too: 1 in `set` where there is a value; 0 for
 * `$`, and `value` stays as it was. */
uint8_t hooflift_ref(const uint8_t *file, size_t file_len, size_t *place, size_t end, uint32_t *value, size_t *fault);
uint8_t hooflift_opt_ref(const uint8_t *file, size_t file_len, size_t *place, size_t end, uint32_t *value, uint8_t *set, size_t *fault);

/* An integer. 01: "integers with optional sign, in the signed 64-bit range". */
uint8_t hooflift_i64(const uint8_t *file, size_t file_len, size_t *place, size_t end, int64_t *value, size_t *fault);

/* A real; a real or `$`, which is told as above; a measure. Every real is answered, whatever its digits and its exponent, with the f64 nearest to
 * the number written, as IEEE 754 has it: ties to even, the sign kept at zero, zeros up to half the least subnormal, infinities from halfway
 * between the largest finite f64 and 2^1024 on. So `-1.025893950136E-17`, `1E28` and twenty digits are read, and `1E400` is an infinity; 13 is never
 * given. Whole numbers alone are used, so the answer does not depend on the host's rounding mode. 01: "A measure is a real or `KEYWORD(real)`".
 * There are two of each reader of reals: those with `any` are for hosts that want the number; those without, which follow them, keep document 01's
 * class and its refusal 13, so that an answer is one that the papers name. In all else they are the same. */
uint8_t hooflift_any_f64(const uint8_t *file, size_t file_len, size_t *place, size_t end, double *value, size_t *fault);
uint8_t hooflift_any_opt_f64(const uint8_t *file, size_t file_len, size_t *place, size_t end, double *value, uint8_t *set, size_t *fault);
uint8_t hooflift_any_measure(const uint8_t *file, size_t file_len, size_t *place, size_t end, double *value, size_t *fault);

/* The same of the class alone. 01, 'Real class': "Let m be all digits without the point, leading zeros dropped, and e the exponent less the number
 * of fraction digits"; "The answer is the f64 nearest to m·10^e, ties to even, sign kept at zero". The class is that of request #101: "every real
 * whose m has at most 19 digits and −27 ≤ e ≤ 27". 13 where a real is outside it, as `1E28`, `0E28`, twenty digits and `-1.025893950136E-17`, whose e
 * is -29, are; zeros at the end count as digits. */
uint8_t hooflift_f64(const uint8_t *file, size_t file_len, size_t *place, size_t end, double *value, size_t *fault);
uint8_t hooflift_opt_f64(const uint8_t *file, size_t file_len, size_t *place, size_t end, double *value, uint8_t *set, size_t *fault);
uint8_t hooflift_measure(const uint8_t *file, size_t file_len, size_t *place, size_t end, double *value, size_t *fault);

/* A boolean: 0 for `.F.`, 1 for `.T.`, 2 for `.U.`. */
uint8_t hooflift_bool(const uint8_t *file, size_t file_len, size_t *place, size_t end, uint8_t *value, size_t *fault);

/* A name: where it stands in the file, without its dots. 01: "a name between two dots, valid UTF-8". */
uint8_t hooflift_enum(const uint8_t *file, size_t file_len, size_t *place, size_t end, size_t *start, size_t *stop, size_t *fault);

/* A text in UTF-8: from `start` up to `stop`, in the file where `room` is then 0 and in `out` where it is 1; `$` gives an empty text.
 * 01: "If no quote, backslash or high byte occurs, the text shown is that part of the file; otherwise a part of the lent output. 16 exactly
 * when a text of this second kind is longer than the output." 02, #109: `\P?\` selects a page of ISO 8859 for every later `\S\` in that string,
 * by the letters A to I in either case; any other byte, and a fresh string, means page A. */
uint8_t hooflift_str(const uint8_t *file, size_t file_len, size_t *place, size_t end, uint8_t *out, size_t out_len, uint8_t *room,
                     size_t *start, size_t *stop, size_t *fault);

/* Lists, with how many numbers they have in `count`: of references, of integers, of reals, read as by `hooflift_any_f64`, and of reals of the class,
 * read as by `hooflift_f64`. 01: "A list is `(`..`)`; its inside is handed on as a part and cut at depth-0 commas". 16 where all read and `out` is
 * too short. */
uint8_t hooflift_ref_list(const uint8_t *file, size_t file_len, size_t *place, size_t end, uint32_t *out, size_t out_len, size_t *count,
                          size_t *fault);
uint8_t hooflift_i64_list(const uint8_t *file, size_t file_len, size_t *place, size_t end, int64_t *out, size_t out_len, size_t *count,
                          size_t *fault);
uint8_t hooflift_any_f64_list(const uint8_t *file, size_t file_len, size_t *place, size_t end, double *out, size_t out_len, size_t *count,
                              size_t *fault);
uint8_t hooflift_f64_list(const uint8_t *file, size_t file_len, size_t *place, size_t end, double *out, size_t out_len, size_t *count,
                          size_t *fault);

/* Lists of lists: all numbers in `out`, and in `ends` how many there are up to the end of each row; of references, of reals, and of reals of the
 * class, as above. 01: "Grids go to a lent list of numbers and one of row ends (numbers so far); [..] 16 comes only if all read and either list is
 * too short." */
uint8_t hooflift_ref_grid(const uint8_t *file, size_t file_len, size_t *place, size_t end, uint32_t *out, size_t out_len, size_t *ends,
                          size_t ends_len, size_t *count, size_t *rows, size_t *fault);
uint8_t hooflift_any_f64_grid(const uint8_t *file, size_t file_len, size_t *place, size_t end, double *out, size_t out_len, size_t *ends,
                              size_t ends_len, size_t *count, size_t *rows, size_t *fault);
uint8_t hooflift_f64_grid(const uint8_t *file, size_t file_len, size_t *place, size_t end, double *out, size_t out_len, size_t *ends,
                          size_t ends_len, size_t *count, size_t *rows, size_t *fault);

/* ---- bytes that stand alone */

/* A real's bit pattern, of a text without trivia: of every real, as `hooflift_any_f64` reads it, 0 or 12; and of the class of `hooflift_f64`, 0, 12
 * or 13. */
uint8_t hooflift_any_real(const uint8_t *text, size_t text_len, uint64_t *out);
uint8_t hooflift_real(const uint8_t *text, size_t text_len, uint64_t *out);

/* The text of what stands between a string's quotes, in UTF-8: `count` bytes, of `raw` where `place` is then 0 and of `out` where it is 1; or 16.
 * Directives and pages as in `hooflift_str`: `\PG\\S\a` is a Greek alpha. No page outlasts the call. */
uint8_t hooflift_text(const uint8_t *raw, size_t raw_len, uint8_t *out, size_t out_len, uint64_t *place, uint64_t *count);

/* How many bytes that text has: what it needs of `out` at most. Answers the count. */
size_t hooflift_text_length(const uint8_t *raw, size_t raw_len);

/* ---- parts of complex records */

/* The next part of a complex record (one whose row[5] is 1; a simple record has no parts, and this is not for it) from the place `at` on, whose
 * arguments end at `end`: keyword start and end, argument start and end, in
 * four numbers; the one after it is that from part[3] + 1 on. HOOFLIFT_NONE where there is none; 16 where `part` is shorter than 4.
 * 01: "Complex parts: skip whitespace and commas; the next `(` byte before the arguments' end ends the keyword [..]; its `)` ends the part". */
uint8_t hooflift_next_part(const uint8_t *file, size_t file_len, size_t at, size_t end, uint64_t *part, size_t part_len, size_t *fault);

/* The first part of a kind of a record, by its argument start, argument end and complex mark; all its parts are read first. */
uint8_t hooflift_complex_part(const uint8_t *file, size_t file_len, size_t start, size_t end, uint32_t complex, uint32_t kind,
                              uint64_t *part, size_t part_len, size_t *fault);

/* ---- units */

/* What the file's numbers stand for: millimetres for a unit of length, radians for a unit of angle, the tolerance, and 1 in `resolved` where a
 * context says so. 01, 'Units': "The first [context] [..] whose units give a length factor decides"; "No such context: 1.0, 1.0, 1e-3,
 * unresolved." Reals here are those of the class of `hooflift_f64`: "13 inside units refuses the whole answer." */
uint8_t hooflift_units(const uint8_t *file, size_t file_len, const uint32_t *rows, size_t rows_len, const uint64_t *slots, size_t slots_len,
                       const uint64_t *tables, size_t tables_len, double *mm, double *rad, double *tolerance, uint8_t *resolved,
                       size_t *fault);

/* The same of the context in row k alone; HOOFLIFT_NONE past the table. */
uint8_t hooflift_units_of_context(const uint8_t *file, size_t file_len, const uint32_t *rows, size_t rows_len, const uint64_t *slots,
                                  size_t slots_len, const uint64_t *tables, size_t tables_len, size_t k, double *mm, double *rad,
                                  double *tolerance, uint8_t *resolved, size_t *fault);

/* ---- kept rows */

/* Writes the first `count` rows of a file of `len` bytes (all of them where the table has fewer), 24 bytes a row, with how many in `kept`; 9 where a row does not fit the file, 16
 * where `out` is too short. 01: "Rows kept beside a file are these six as little-endian 32-bit numbers, in file order [..]; for them 9
 * comes before 16". */
uint8_t hooflift_keep_rows(size_t len, const uint32_t *rows, size_t rows_len, size_t count, uint8_t *out, size_t out_len, size_t *kept);

/* Reads them back, with how many in `count`; 9 too where bytes are left over. */
uint8_t hooflift_read_rows(size_t len, const uint8_t *bytes, size_t bytes_len, uint32_t *rows, size_t rows_len, size_t *count);

#ifdef __cplusplus
}
#endif

#endif
