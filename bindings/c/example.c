/* Previews a name and accepts it, says it and a word of which only a letter is read, and prints the
 * phones; then sets a rack's pitch, and prints its settings. At the top of the repository:
 *   cc -std=c99 -Ibindings/c bindings/c/example.c crates/pronouncer/out/libpronouncer.a -o built/example
 */
#include "pronouncer.h"

#include <stdio.h>
#include <string.h>

#define BYTES(text) (const uint8_t *)(text), sizeof(text) - 1

/* Sections as small as they can be: no compiled entries, and one phone for every letter. */
static const char lex_phones[] = "\0\0\0\0";
static const char lex_index[] = "\0\0\0\0";
static const char lex_data[] = "";
static const char lts_phones[] = "\1\0\0\0\2ey";
static const uint8_t lts_index[52] = {0};
static const char lts_model[] = "\377\0\0\0\0\0";

/* Settings of version 2 with one record, a pitch of 100. */
static uint8_t settings[2 * PRONOUNCER_RECORD_BYTES] = {
    [0] = 2, [2] = 1, [34] = 5, [35] = 'p', 'i', 't', 'c', 'h', [50] = PRONOUNCER_WHOLE, [51] = 100,
};

enum { STORE_BYTES = 16 * PRONOUNCER_SLOT_BYTES, SHEET_BYTES = 256 * PRONOUNCER_ITEM_BYTES };

/* Whether a call was refused; if so, says by which number and in which line. */
static int refused(const char *call, struct pronouncer_answer answer)
{
    if (answer.refusal == PRONOUNCER_ACCEPTED)
        return 0;
    fprintf(stderr, "%s: refusal %u, line %u\n", call, (unsigned)answer.refusal, (unsigned)answer.value);
    return 1;
}

/* Says a word, and prints what was read of it where that is not all. Whether it was refused. */
static int say(const uint8_t *store, uint8_t *sheet, const char *word)
{
    struct pronouncer_answer answer = pronouncer_say_word(
        BYTES(lex_phones), BYTES(lex_index), BYTES(lex_data),
        BYTES(lts_phones), lts_index, sizeof lts_index, BYTES(lts_model),
        store, STORE_BYTES, sheet, SHEET_BYTES,
        (const uint8_t *)word, strlen(word), BYTES(""));
    if (refused("say_word", answer))
        return 1;
    if (answer.second > 0)
        printf("%s: only \"%s\" was read\n", word, word + answer.second);
    return 0;
}

int main(void)
{
    /* What stands in these bytes does not matter: new_store and new_sheet begin them. */
    uint8_t store[STORE_BYTES], spare[STORE_BYTES], sheet[SHEET_BYTES], out[256];
    struct pronouncer_answer answer;
    struct pronouncer_settings shown;

    if (refused("new_store", pronouncer_new_store(store, sizeof store)) ||
        refused("new_sheet", pronouncer_new_sheet(sheet, sizeof sheet, PRONOUNCER_SHEET_2)))
        return 1;

    answer = pronouncer_preview_entries(
        BYTES(lex_phones), store, sizeof store, spare, sizeof spare,
        BYTES("# names of tonight\ntormentor n : t ao r m eh n t er\n"));
    if (refused("preview_entries", answer))
        return 1;
    printf("lines %u, new %u, replaced %u\n",
           (unsigned)answer.value, (unsigned)answer.second, (unsigned)answer.third);
    answer = pronouncer_accept_entries(store, sizeof store, spare, sizeof spare);
    if (refused("accept_entries", answer) || say(store, sheet, "Tormentor") || say(store, sheet, "tempo#k"))
        return 1;

    answer = pronouncer_phone_string(sheet, sizeof sheet, out, sizeof out);
    if (refused("phone_string", answer))
        return 1;
    printf("%.*s\n", (int)answer.value, (const char *)out);

    answer = pronouncer_write_setting(settings, sizeof settings, 2, BYTES("pitch"), PRONOUNCER_WHOLE, 120);
    if (refused("write_setting", answer))
        return 1;
    shown = pronouncer_read_settings(settings, sizeof settings, 2, 1.5f);
    if (shown.refusal != PRONOUNCER_ACCEPTED) {
        fprintf(stderr, "read_settings: refusal %u\n", (unsigned)shown.refusal);
        return 1;
    }
    printf("pitch %d, stretch %g, level %d, rack %g\n",
           (int)shown.pitch, shown.stretch, (int)shown.level, shown.rack);
    return 0;
}
