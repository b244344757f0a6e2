/* What a preview saw, as C is told it: value, second and third; and that no other call tells a third. Ends with 0 if
 * all is so. */
#include "pronouncer.h"

#include <string.h>

static const uint8_t none[4] = {0};

static uint8_t store[3 * PRONOUNCER_SLOT_BYTES], spare[sizeof store], before[sizeof store];

/* Whether an answer has these numbers. */
static int is_answer(
    struct pronouncer_answer answer, uint32_t refusal, uint64_t value, uint64_t second, uint64_t third)
{
    return answer.refusal == refusal && answer.kind == 0 && answer.value == value && answer.second == second &&
           answer.third == third;
}

static struct pronouncer_answer add(const char *text)
{
    return pronouncer_add_entries(
        none, sizeof none, store, sizeof store, spare, sizeof spare, (const uint8_t *)text, strlen(text));
}

/* A preview, which leaves the store as it was. */
static struct pronouncer_answer preview(const char *text)
{
    struct pronouncer_answer answer, altered = {99, 0, 0, 0, 0};

    memcpy(before, store, sizeof store);
    answer = pronouncer_preview_entries(
        none, sizeof none, store, sizeof store, spare, sizeof spare, (const uint8_t *)text, strlen(text));
    return memcmp(store, before, sizeof store) == 0 ? answer : altered;
}

/* What accepting answers, with no numbers beside the refusal; else a number that is none. */
static uint32_t accept(void)
{
    struct pronouncer_answer answer = pronouncer_accept_entries(store, sizeof store, spare, sizeof spare);

    return is_answer(answer, answer.refusal, 0, 0, 0) ? answer.refusal : 99;
}

int main(void)
{
    if (!is_answer(pronouncer_new_store(store, sizeof store), 0, 0, 0, 0) ||
        !is_answer(preview("b : k\nB : t"), 0, 2, 1, 1) || accept() != 0 || store[8] != 1 || spare[8] != 0)
        return 1;
    /* Stale; stopped at a line; refused as a whole, which leaves the spare; and no sound store. */
    if (accept() != PRONOUNCER_COUNT ||
        !is_answer(preview("c : k\n\nd : k\n"), PRONOUNCER_FULL, 3, 0, 0) || accept() != PRONOUNCER_COUNT ||
        !is_answer(preview("c : k # \200"), PRONOUNCER_TEXT, 0, 0, 0) || spare[8] != 255 || spare[15] != 255)
        return 1;
    spare[16] = 1;
    if (accept() != PRONOUNCER_UNSOUND)
        return 1;
    /* Both steps together tell the lines alone. */
    return !is_answer(add("b : k\nc : k"), 0, 2, 0, 0) || store[8] != 2 || spare[8] != 1 ||
           !is_answer(add("d"), PRONOUNCER_LINE, 1, 0, 0) || spare[8] != 255 ||
           pronouncer_accept_entries(store, sizeof store, spare, sizeof spare - 1).refusal != PRONOUNCER_UNSOUND;
}
