/* Exact entries as C adds them: whatever is true makes one. Ends with 0 if all is so. */
#include "pronouncer.h"

#include <string.h>

static const uint8_t none[4] = {0};
static const uint8_t phones[3][PRONOUNCER_CELL_BYTES] = {{1, 'k'}, {1, 'p'}, {1, 't'}};

static uint8_t store[4 * PRONOUNCER_SLOT_BYTES];

/* The refusal of an entry of one phone; a number becomes a bool where the header says so. */
static uint32_t add(const char *word, int phone, int exact)
{
    return pronouncer_add_entry(
        none, sizeof none, store, sizeof store, (const uint8_t *)word, strlen(word), none, 0,
        phones[phone], sizeof phones[phone], exact).refusal;
}

/* The phone of a word that the store has; 0 where it has none. */
static int found(const char *word)
{
    uint8_t out[PRONOUNCER_LIST_BYTES];
    struct pronouncer_answer answer = pronouncer_lookup(
        none, sizeof none, none, sizeof none, none, 0, store, sizeof store,
        (const uint8_t *)word, strlen(word), none, 0, out, sizeof out);

    return answer.refusal == 0 && answer.kind == PRONOUNCER_RUNTIME && answer.value == 1 ? out[1] : 0;
}

/* Byte 52 of a slot. */
static int exact_of(int slot)
{
    return store[slot * PRONOUNCER_SLOT_BYTES + 52];
}

int main(void)
{
    if (pronouncer_new_store(store, sizeof store).refusal != 0)
        return 1;
    /* 256 and 2 are true. */
    if (add("Polish", 0, false) != 0 || found("polish") != 'k' || found("Polish") != 'k' ||
        add("Polish", 1, 256) != 0 || found("polish") != 'k' || found("Polish") != 'p' ||
        add("polish", 2, 2) != 0 || found("polish") != 't' || found("POLISH") != 'k')
        return 1;
    if (exact_of(1) != 0 || exact_of(2) != 1 || exact_of(3) != 1)
        return 1;
    /* The store is full: an exact entry needs a slot, an ordinary one replaces its like. */
    return add("POLISH", 0, true) != PRONOUNCER_FULL || add("POLISH", 2, 0) != 0 || found("POLISH") != 't' ||
           exact_of(1) != 0;
}
