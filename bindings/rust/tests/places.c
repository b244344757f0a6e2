/* Where the letters stopped, as C is told it: second, of predict and of say_word. Ends with 0 if all is so. */
#include "pronouncer.h"

#include <string.h>

/* Sections as small as they can be: no compiled entries, and one phone for every letter. */
static const uint8_t none[4] = {0};
static const uint8_t sounds[] = {1, 0, 0, 0, 2, 'e', 'y'};
static const uint8_t starts[52] = {0};
static const uint8_t model[] = {255, 0, 0, 0, 0, 0};

static uint8_t store[2 * PRONOUNCER_SLOT_BYTES];

/* A word, how many phones predict tells, its place, and the place of say_word. */
static const struct {
    const char *word;
    uint64_t phones, place, said;
} words[] = {
    {"tempo#two", 3, 6, 6}, {"a#", 0, 2, 2}, {"a#b#c", 1, 4, 4}, {"abc", 3, 0, 0}, {"", 0, 0, 0},
    {"#", 0, 1, 0},     /* found in the library's own table */
    {"mel#o", 1, 4, 0}, /* found in the store */
};

/* Whether an answer has these numbers, and 0 where no call here tells one. */
static int is_answer(struct pronouncer_answer answer, uint32_t refusal, uint64_t value, uint64_t second)
{
    return answer.refusal == refusal && answer.kind == 0 && answer.value == value && answer.second == second &&
           answer.third == 0;
}

static struct pronouncer_answer predict(const char *word, uint8_t *out, size_t out_len)
{
    return pronouncer_predict(
        sounds, sizeof sounds, starts, sizeof starts, model, sizeof model,
        (const uint8_t *)word, strlen(word), out, out_len);
}

static struct pronouncer_answer say(const char *word, uint8_t *sheet, size_t sheet_len)
{
    return pronouncer_say_word(
        none, sizeof none, none, sizeof none, none, 0,
        sounds, sizeof sounds, starts, sizeof starts, model, sizeof model,
        store, sizeof store, sheet, sheet_len, (const uint8_t *)word, strlen(word), none, 0);
}

int main(void)
{
    uint8_t out[PRONOUNCER_LIST_BYTES], sheet[64 * PRONOUNCER_ITEM_BYTES];
    size_t i;

    if (pronouncer_new_store(store, sizeof store).refusal != 0 ||
        pronouncer_add_entry(
            none, sizeof none, store, sizeof store, (const uint8_t *)"mel#o", 5, none, 0, none, 0, false)
                .refusal != 0 ||
        pronouncer_new_sheet(sheet, sizeof sheet, PRONOUNCER_SHEET_1).refusal != 0)
        return 1;
    for (i = 0; i < sizeof words / sizeof words[0]; i++)
        if (!is_answer(predict(words[i].word, out, sizeof out), 0, words[i].phones, words[i].place) ||
            !is_answer(say(words[i].word, sheet, sizeof sheet), 0, 0, words[i].said))
            return 1;
    /* Refused: an output, and a sheet, that are too short. */
    return pronouncer_new_sheet(sheet, PRONOUNCER_ITEM_BYTES, PRONOUNCER_SHEET_1).refusal != 0 ||
           !is_answer(predict("tempo#two", out, 47), PRONOUNCER_SHORT, 0, 0) ||
           !is_answer(say("tempo#two", sheet, PRONOUNCER_ITEM_BYTES), PRONOUNCER_SHORT, 0, 0);
}
