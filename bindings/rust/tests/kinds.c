/* Kinds that only C can hand over: a write refuses them by 17, behind 16, and alters nothing. Ends with 0 if so. */
#include "pronouncer.h"

#include <string.h>

/* Settings of version 2 with one record, a pitch of 100; with 0 as the first index they have none. */
static const uint8_t plain[2 * PRONOUNCER_RECORD_BYTES] = {
    [0] = 2, [2] = 1, [34] = 5, [35] = 'p', 'i', 't', 'c', 'h', [50] = PRONOUNCER_WHOLE, [51] = 100,
};

/* Whether a write of pitch is refused so, with no number beside it and no byte altered. */
static int is_refused(uint8_t first, uint32_t kind, uint32_t refusal)
{
    uint8_t settings[sizeof plain], before[sizeof plain];
    struct pronouncer_answer answer;

    memcpy(settings, plain, sizeof plain);
    settings[2] = first;
    memcpy(before, settings, sizeof settings);
    answer = pronouncer_write_setting(settings, sizeof settings, 2, (const uint8_t *)"pitch", 5, kind, 120);
    return answer.refusal == refusal && answer.kind == 0 && answer.value == 0 && answer.second == 0 &&
           answer.third == 0 && memcmp(settings, before, sizeof settings) == 0;
}

int main(void)
{
    static const uint32_t kinds[] = {0, 3, 257, 258, 65537, 65538, 0xffffffff};
    size_t i;

    for (i = 0; i < sizeof kinds / sizeof kinds[0]; i++)
        if (!is_refused(1, kinds[i], PRONOUNCER_RANGE) || !is_refused(0, kinds[i], PRONOUNCER_RECORDS))
            return 1;
    return sizeof(struct pronouncer_settings) != 24;
}
