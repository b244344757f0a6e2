/* Where each word of a sheet came from, as C reads it: byte 15 of its item. Ends with 0 if all is so. */
#include "pronouncer.h"

#include <string.h>

/* Sections as small as they can be: "go" as the one compiled entry, and one phone for every letter. */
static const uint8_t phones[] = {1, 0, 0, 0, 1, 'k'};
static const uint8_t first[] = {1, 0, 0, 0, 0, 0, 0, 0};
static const uint8_t data[] = {'0', 2, 'g', 'o', 1, 0};
static const uint8_t sounds[] = {1, 0, 0, 0, 2, 'e', 'y'};
static const uint8_t starts[52] = {0};
static const uint8_t model[] = {255, 0, 0, 0, 0, 0};

static uint8_t store[3 * PRONOUNCER_SLOT_BYTES], sheet[32 * PRONOUNCER_ITEM_BYTES];

static const struct {
    const char *word;
    uint8_t source;
} words[] = {
    {"MEL", PRONOUNCER_RUNTIME}, {"Iris", PRONOUNCER_RUNTIME}, {"iris", PRONOUNCER_LETTERS},
    {"to", PRONOUNCER_ADDENDA},  {"go", PRONOUNCER_COMPILED},  {"Go", PRONOUNCER_LETTERS},
};

static int is_added(const char *word, bool exact)
{
    return pronouncer_add_entry(
        phones, sizeof phones, store, sizeof store, (const uint8_t *)word, strlen(word), phones, 0,
        phones, 0, exact).refusal == 0;
}

static int is_said(const char *word)
{
    return pronouncer_say_word(
        phones, sizeof phones, first, sizeof first, data, sizeof data,
        sounds, sizeof sounds, starts, sizeof starts, model, sizeof model,
        store, sizeof store, sheet, sizeof sheet, (const uint8_t *)word, strlen(word), phones, 0)
        .refusal == 0;
}

/* The refusal of the sheet with another source of its first word. */
static uint32_t with_source(uint8_t source)
{
    uint8_t out[256];

    sheet[PRONOUNCER_ITEM_BYTES + 15] = source;
    return pronouncer_phone_string(sheet, sizeof sheet, out, sizeof out).refusal;
}

int main(void)
{
    const uint8_t *item = sheet;
    uint8_t source;
    size_t i;

    if (pronouncer_new_store(store, sizeof store).refusal != 0 || !is_added("mel", false) ||
        !is_added("Iris", true) || pronouncer_new_sheet(sheet, sizeof sheet, PRONOUNCER_SHEET_1).refusal != 0)
        return 1;
    for (i = 0; i < sizeof words / sizeof words[0]; i++)
        if (!is_said(words[i].word))
            return 1;
    /* From item 0 on, each word names the next: bytes 4 and 5 there, bytes 2 and 3 in a word. */
    for (i = 0; i < sizeof words / sizeof words[0]; i++) {
        const uint8_t *link = item + (i == 0 ? 4 : 2);
        item = sheet + (size_t)(link[0] + 256 * link[1]) * PRONOUNCER_ITEM_BYTES;
        if (item[15] != words[i].source || memcmp(item + 17, words[i].word, item[16]) != 0)
            return 1;
    }
    for (source = PRONOUNCER_RUNTIME; source <= PRONOUNCER_LETTERS; source++)
        if (with_source(source) != 0)
            return 1;
    return with_source(PRONOUNCER_NONE) != PRONOUNCER_UNSOUND || with_source(5) != PRONOUNCER_UNSOUND;
}
