/* Checks a template, fills it with each record of a file in memory, first with one after another and then with all at once,
 * and lists the last text. */
#include "gabirong.h"

#include <stdio.h>
#include <string.h>

/* Adds a field of a record: a tag, the length in two bytes, the high one first, and the bytes. */
static size_t put_field(uint8_t *file, size_t at, uint8_t tag, const char *bytes)
{
    size_t len = strlen(bytes);
    file[at] = tag;
    file[at + 1] = (uint8_t)(len >> 8);
    file[at + 2] = (uint8_t)(len & 0xff);
    memcpy(file + at + 3, bytes, len);
    return at + 3 + len;
}

static size_t put_pair(uint8_t *file, size_t at, const char *name, const char *value)
{
    return put_field(file, put_field(file, at, 1, name), 2, value);
}

static int told(struct gabirong_refusal refusal)
{
    if (refusal.number == 0)
        return 0;
    if (refusal.names_hole)
        printf("refused %u hole %zu place %zu\n", refusal.number, refusal.hole, refusal.place);
    else
        printf("refused %u place %zu\n", refusal.number, refusal.place);
    return 1;
}

int main(void)
{
    static uint8_t text[GABIRONG_MAX_TEXT], texts[GABIRONG_MAX_TEXT], fields[GABIRONG_MAX_TEXT];
    const uint8_t *template_bytes = (const uint8_t *)"INSERT INTO runs VALUES (@{site}, @{cm});@n";
    size_t template_len = strlen((const char *)template_bytes);
    uint8_t file[256];
    size_t file_len = 0;
    file_len = put_pair(file, file_len, "site", "Elm");
    file_len = put_pair(file, file_len, "cm", "42");
    file_len = put_field(file, file_len, 3, "");
    file_len = put_pair(file, file_len, "site", "O'Hara");
    file_len = put_pair(file, file_len, "cm", "7");
    file_len = put_field(file, file_len, 3, "");
    file_len = put_pair(file, file_len, "site", "Oak");
    file_len = put_field(file, file_len, 3, "");

    struct gabirong_checked checked = gabirong_sql_check(template_bytes, template_len);
    if (told(checked.refusal))
        return 1;
    printf("checked: %zu holes\n", checked.holes);

    size_t place = 0, len = 0;
    for (;;) {
        struct gabirong_merged merged =
            gabirong_sql_merge(template_bytes, template_len, file, file_len, place, text, sizeof text);
        if (told(merged.refusal) || !merged.found)
            break;
        len = merged.len;
        fwrite(text, 1, len, stdout);
        place = merged.next;
    }

    struct gabirong_merges merges =
        gabirong_sql_merge_many(template_bytes, template_len, file, file_len, 0, SIZE_MAX, texts, sizeof texts);
    printf("at once: %zu records, %zu bytes, next place %zu\n", merges.count, merges.len, merges.next);
    fwrite(texts, 1, merges.len, stdout);
    told(merges.refusal);

    struct gabirong_listed listed = gabirong_sql_list(text, len, fields, sizeof fields);
    if (told(listed.refusal))
        return 1;
    for (size_t at = 0; at < listed.len;) {
        size_t size = (size_t)fields[at + 1] << 8 | fields[at + 2];
        printf("kind %u: %.*s\n", fields[at], (int)size, (const char *)fields + at + 3);
        at += 3 + size;
    }
    return 0;
}
