/* Versions of a sheet as C hands them over and reads them: any number but two is refused by 15, behind 2, and each
 * version has its stresses. Ends with 0 if all is so. */
#include "pronouncer.h"

#include <string.h>

/* Sections as small as they can be: "mel" as the one compiled entry, m eh2 l, and no letter trees. */
static const uint8_t phones[] = {3, 0, 0, 0, 1, 'm', 3, 'e', 'h', '2', 1, 'l'};
static const uint8_t first[] = {1, 0, 0, 0, 0, 0, 0, 0};
static const uint8_t data[] = {'0', 3, 'm', 'e', 'l', 3, 0, 1, 2};
static const uint8_t sounds[4] = {0};
static const uint8_t starts[52] = {0};

static uint8_t store[PRONOUNCER_SLOT_BYTES], sheet[8 * PRONOUNCER_ITEM_BYTES], before[sizeof sheet];

/* Whether a new sheet of so many bytes, in bytes that held something else, is answered so. */
static int is_begun(size_t length, uint32_t version, uint32_t refusal)
{
    struct pronouncer_answer answer;

    memset(sheet, 7, sizeof sheet);
    memset(before, 7, sizeof before);
    answer = pronouncer_new_sheet(sheet, length, version);
    if (refusal == 0) {
        memset(before, 0, PRONOUNCER_ITEM_BYTES);
        before[1] = (uint8_t)version;
    }
    return answer.refusal == refusal && answer.kind == 0 && answer.value == 0 && answer.second == 0 &&
           answer.third == 0 && memcmp(sheet, before, sizeof sheet) == 0;
}

/* Whether a version is refused where it is none, and taken where it is one; a wrong length comes first. */
static int is_told(uint32_t version)
{
    int known = version == PRONOUNCER_SHEET_1 || version == PRONOUNCER_SHEET_2;

    return is_begun(sizeof sheet, version, known ? 0 : PRONOUNCER_VERSION) &&
           is_begun(PRONOUNCER_ITEM_BYTES - 1, version, PRONOUNCER_UNSOUND);
}

static uint32_t say(void)
{
    return pronouncer_say_word(
        phones, sizeof phones, first, sizeof first, data, sizeof data,
        sounds, sizeof sounds, starts, sizeof starts, data, 0,
        store, sizeof store, sheet, sizeof sheet, (const uint8_t *)"mel", 3, data, 0).refusal;
}

/* Whether "mel" is said on a sheet of this version with this stress, and has this phone, length first, in item 4. */
static int is_said(uint32_t version, uint8_t stress, const char *phone)
{
    return is_begun(sizeof sheet, version, 0) && say() == 0 && sheet[1] == version &&
           sheet[2 * PRONOUNCER_ITEM_BYTES + 1] == stress &&
           memcmp(sheet + 4 * PRONOUNCER_ITEM_BYTES + 16, phone, strlen(phone) + 1) == 0;
}

/* Whether the sheet is refused by 2 once its version is this. */
static int is_unsound(uint8_t version)
{
    uint8_t out[16];

    sheet[1] = version;
    return pronouncer_phone_string(sheet, sizeof sheet, out, sizeof out).refusal == PRONOUNCER_UNSOUND &&
           say() == PRONOUNCER_UNSOUND;
}

int main(void)
{
    static const uint32_t large[] = {1u << 24, (1u << 24) + 1, (1u << 31) + 1, (1u << 31) + 2, 0xffffffff};
    uint32_t version;
    size_t i;

    for (version = 0; version < 66000; version++) /* 257, 258, 65537 and 65538 among them */
        if (!is_told(version))
            return 1;
    for (i = 0; i < sizeof large / sizeof large[0]; i++)
        if (!is_told(large[i]))
            return 1;
    if (pronouncer_new_store(store, sizeof store).refusal != 0 ||
        !is_said(PRONOUNCER_SHEET_1, '0', "\3eh2") || !is_said(PRONOUNCER_SHEET_2, '2', "\2eh"))
        return 1;
    /* Of the last one: a stress of 50 needs version 2, and no other number is a version. */
    for (version = 0; version < 256; version++)
        if (is_unsound((uint8_t)version) != (version != PRONOUNCER_SHEET_2))
            return 1;
    return 0;
}
