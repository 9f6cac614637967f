/* Gabirong: templates that are filled safely, for shell lines, SQL and CSV.
 *
 * Each function makes one call of the proved library for one host, and answers in plain numbers. What the calls do, and the
 * numbers and places of their refusals, is told in docs/TEMPLATES.md (check), docs/MERGE.md (merge), docs/LIST.md (list) and
 * docs/BINDINGS.md (merge_many).
 *
 * A slice is a pointer and a length. No pointer may be null, not even for a slice of no bytes, and `out` may overlap none of
 * the others. Nothing is kept from one call to the next, no memory is asked for, and a call may run beside others.
 *
 * Link with crates/gabirong_c/out/libgabirong_c.a, which `rt lib` makes in crates/gabirong_c. */
#ifndef GABIRONG_H
#define GABIRONG_H

#include <stdbool.h>
#include <stddef.h>
#include <stdint.h>

#ifdef __cplusplus
extern "C" {
#endif

/* The most bytes of a text that is merged: an output of so many is always long enough. */
#define GABIRONG_MAX_TEXT 65280

/* A refusal. Number 0 says that there is none. */
struct gabirong_refusal {
    uint32_t number;
    bool names_hole;        /* whether it names a hole; where it does not, `hole` is 0 */
    size_t hole;
    size_t place;           /* 0 where it names none; of number 17 the length that the output needs */
    uint32_t carried;       /* the number of a refusal that it carries; none of these calls answers one that does */
    size_t carried_place;
};

/* What a check came to: the number of holes, 0 where the template is refused. */
struct gabirong_checked {
    struct gabirong_refusal refusal;
    size_t holes;
};

/* What a listing came to: its length in the output, 0 where it is refused. */
struct gabirong_listed {
    struct gabirong_refusal refusal;
    size_t len;
};

/* What a merge came to. `found` is false where the input ends at the place, or where the merge is refused. */
struct gabirong_merged {
    struct gabirong_refusal refusal;
    bool found;
    size_t next;            /* the place after the record */
    size_t len;             /* the length of the text in the output */
};

/* What merging many records came to. Unlike those above, the numbers beside a refusal are not all 0: they tell what was merged
 * before it. The refusal is that of the template, or that of the record at `next`. */
struct gabirong_merges {
    struct gabirong_refusal refusal;
    size_t count;           /* how many records were merged */
    size_t next;            /* the place after the last of them; the place that was given where there is none */
    size_t len;             /* the length of their texts together, in the output */
};

/* Whether the host takes a template, and how many holes it has. */
struct gabirong_checked gabirong_shell_check(const uint8_t *template_bytes, size_t template_len);
struct gabirong_checked gabirong_sql_check(const uint8_t *template_bytes, size_t template_len);
struct gabirong_checked gabirong_csv_check(const uint8_t *template_bytes, size_t template_len);

/* Fills a template with the record at a place of the input, and writes the text from the start of the output. The bytes after
 * the text stay as they were, and so does all of the output where there is no record or where the merge is refused. */
struct gabirong_merged gabirong_shell_merge(const uint8_t *template_bytes, size_t template_len, const uint8_t *input,
                                            size_t input_len, size_t place, uint8_t *out, size_t out_len);
struct gabirong_merged gabirong_sql_merge(const uint8_t *template_bytes, size_t template_len, const uint8_t *input,
                                          size_t input_len, size_t place, uint8_t *out, size_t out_len);
struct gabirong_merged gabirong_csv_merge(const uint8_t *template_bytes, size_t template_len, const uint8_t *input,
                                          size_t input_len, size_t place, uint8_t *out, size_t out_len);

/* Checks a template, and fills it with one record after another, from a place of the input on: at most `most` of them. Their
 * texts are written one after another from the start of the output, and the bytes after them stay as they were. It ends where
 * so many are merged, where the input ends (then there is no refusal, and `count` is below `most`), or where a record is
 * refused.
 *
 * Each record is given what is left of the output. Where that is too short, the record is refused with number 17, whose place
 * is the length of this record's own text, whatever stands before it: empty the output and go on at `next`. With a `most` of 0
 * the template is checked, and nothing of the input is looked at. */
struct gabirong_merges gabirong_shell_merge_many(const uint8_t *template_bytes, size_t template_len, const uint8_t *input,
                                                 size_t input_len, size_t place, size_t most, uint8_t *out,
                                                 size_t out_len);
struct gabirong_merges gabirong_sql_merge_many(const uint8_t *template_bytes, size_t template_len, const uint8_t *input,
                                               size_t input_len, size_t place, size_t most, uint8_t *out,
                                               size_t out_len);
struct gabirong_merges gabirong_csv_merge_many(const uint8_t *template_bytes, size_t template_len, const uint8_t *input,
                                               size_t input_len, size_t place, size_t most, uint8_t *out,
                                               size_t out_len);

/* Writes what a text reads as from the start of the output: for each token its kind, its length in two bytes, the high one
 * first, and its bytes. Refused, the output stays as it was. */
struct gabirong_listed gabirong_shell_list(const uint8_t *text, size_t text_len, uint8_t *out, size_t out_len);
struct gabirong_listed gabirong_sql_list(const uint8_t *text, size_t text_len, uint8_t *out, size_t out_len);
struct gabirong_listed gabirong_csv_list(const uint8_t *text, size_t text_len, uint8_t *out, size_t out_len);

#ifdef __cplusplus
}
#endif

#endif
