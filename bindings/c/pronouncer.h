/* The pronouncer: which phones a word has, cut into syllables, on a sheet; and the voice settings of
 * a rack.
 *
 * Link with libpronouncer.a (x86-64). docs/FORMATS.md tells the layout of sections, store, sheet,
 * settings and phone lists; this file tells what each call takes, answers, refuses and writes.
 *
 * Lent bytes. Each argument that is no number and no bool is a pointer and a length in bytes. The
 * pointer is not NULL, also where the length is 0. The bytes may be anything: every call takes any
 * bytes and any length. Bytes that a call may write (those that are not const) must not overlap its
 * other arguments. Nothing is allocated, and nothing is kept between calls but the lent bytes; calls
 * in several threads are safe if none writes what another uses.
 *
 * Refusals. A refused call leaves every lent byte as it was, but for the spare of
 * pronouncer_add_entries and pronouncer_preview_entries where a line is at fault. Where several
 * numbers apply, the first in rank order is told (docs/FORMATS.md has the order).
 *
 * Words, tags and texts are bytes, not strings that end at 0. A phone list is cells of 16 bytes: a
 * length from 0 to 15, then the text. Handed in, it has as many phones as whole cells, and bytes
 * past a text are ignored. Answered, the bytes past a text are 0.
 */
#ifndef PRONOUNCER_H
#define PRONOUNCER_H

#include <stdbool.h>
#include <stddef.h>
#include <stdint.h>

#ifdef __cplusplus
extern "C" {
#endif

/* Sizes. A store has 512 to 65,536 bytes, a multiple of 512; its first slot has no entry, so 65,536
 * bytes hold 127 entries. A sheet has 64 to 65,536 bytes; its first item keeps count, and each
 * word, syllable and phone takes another, so 65,536 bytes hold 1,023 of them. Settings have 32 to
 * 65,536 bytes; their first record has the version, so 65,536 bytes hold 2,047 of them. */
#define PRONOUNCER_SLOT_BYTES 512
#define PRONOUNCER_ITEM_BYTES 64
#define PRONOUNCER_RECORD_BYTES 32     /* of a setting */
#define PRONOUNCER_CELL_BYTES 16
#define PRONOUNCER_LARGEST_BYTES 65536 /* of a store, a sheet or settings */
#define PRONOUNCER_NAME_BYTES 15       /* of a setting's name, at most */
#define PRONOUNCER_WORD_BYTES 47       /* of a word or a tag, at most */
#define PRONOUNCER_PHONE_BYTES 15      /* of a phone, at most */
#define PRONOUNCER_ENTRY_PHONES 24     /* of an entry to be added, at most */
#define PRONOUNCER_LIST_PHONES 96      /* of a phone list, at most */
#define PRONOUNCER_LIST_BYTES 1536     /* of an output that has room for every phone list */

/* Why a call was refused, and what to do. */
enum pronouncer_refusal {
    PRONOUNCER_ACCEPTED = 0,
    /* A section breaks its form. Hand over each section singly, whole and in its place. */
    PRONOUNCER_SECTION = 1,
    /* A store or sheet has a wrong length or is not sound, settings have a wrong length, the spare is
     * not as long as the store, or a spare to be accepted is not a sound store. Lend the lengths
     * above, begin with pronouncer_new_store or pronouncer_new_sheet, fill a spare with
     * pronouncer_preview_entries, and let only calls write the bytes. A sheet of an unknown version is
     * not sound: if its byte 1 is 0 an earlier library began it, or none did. Begin a new one. */
    PRONOUNCER_UNSOUND = 2,
    /* A word or tag is over 47 bytes, or a text has a byte of 128 or more. Write it shorter, or in
     * ASCII. */
    PRONOUNCER_TEXT = 3,
    /* An entry line has no colon, or no word before it. Write WORD TAG : PHONE PHONE, or # before a
     * remark. */
    PRONOUNCER_LINE = 4,
    /* A phone to be added is neither in lex.phones nor one of the 50. Spell it as lex.phones does. */
    PRONOUNCER_UNKNOWN_PHONE = 5,
    /* The compiled entry that was read, or the letter tree that was walked, is damaged. Take a
     * whole copy of the tables; until then add the word to the store, which is read first. */
    PRONOUNCER_DAMAGED = 6,
    /* A phone list has over 96 phones or a phone over 15 bytes, or an entry to be added has over 24
     * phones. Hand over fewer or shorter ones. */
    PRONOUNCER_PHONES = 7,
    /* The store has neither an unused slot nor an entry that the new one replaces. Lend a longer store
     * with these bytes in front. */
    PRONOUNCER_FULL = 8,
    /* The sheet has too few unused items, or an output is too short. Begin a new sheet, or lend
     * more bytes. */
    PRONOUNCER_SHORT = 9,
    /* The spare to be accepted was filled from the store as it was before something else was
     * accepted, or from a text that stopped at a line: preview the text again. Or the store's count
     * is the largest: begin a new store and add its entries again. */
    PRONOUNCER_COUNT = 12,
    /* A version is not known: that of a sheet to begin, of settings or of their reader. Begin the
     * sheet with an enum pronouncer_sheet_version. Ask for settings with 1 or 2; those of another
     * version are read by the library that has it, or written anew. */
    PRONOUNCER_VERSION = 15,
    /* In the settings an index leads outside, the chain goes in a circle, a name stands twice, or a
     * name's length or a kind is out of range: write new settings. Or the setting to write is none
     * that the reader's version knows, or has no record: no call adds one, so write settings that
     * have it. */
    PRONOUNCER_RECORDS = 16,
    /* A known setting, the value to write or the show's stretch is of the wrong kind or out of range.
     * Hand over a pitch of 50 to 400, a level of 0 to 100, a stretch of 0.25 to 4.0. If it is a
     * value in the settings, no write mends them, not even one of that setting: write new ones. */
    PRONOUNCER_RANGE = 17
};

/* Where pronouncer_lookup found a word, 0 to 3; and where a word on a sheet has its phones from, 1 to
 * 4, which is byte 15 of its item. */
enum pronouncer_source {
    PRONOUNCER_NONE = 0,
    PRONOUNCER_RUNTIME = 1,  /* in the store, be the entry exact or not */
    PRONOUNCER_ADDENDA = 2,  /* in the library's own short table */
    PRONOUNCER_COMPILED = 3, /* in the lexicon's sections */
    PRONOUNCER_LETTERS = 4   /* nowhere: from the letter trees, which guess. Never of a lookup. */
};

/* The version of a sheet, which is byte 1 of its item 0: what comes off a phone as its stress, and so
 * which bytes a syllable's stress may be. */
enum pronouncer_sheet_version {
    PRONOUNCER_SHEET_1 = 1, /* 48 and 49, the digits "0" and "1": "ae2" stays whole, and is no vowel */
    PRONOUNCER_SHEET_2 = 2  /* 50 too, the digit "2": the secondary stress of CMUdict */
};

/* The kind of a setting. */
enum pronouncer_setting_kind {
    PRONOUNCER_WHOLE = 1, /* an int32_t */
    PRONOUNCER_REAL = 2   /* a float */
};

/* What every call gives back, but for pronouncer_read_settings. */
struct pronouncer_answer {
    uint32_t refusal; /* an enum pronouncer_refusal; 0 if the call was accepted */
    uint32_t kind;    /* a source, or 1 for yes and 0 for no, where the call says so; else 0 */
    uint64_t value;   /* a count, where the call says so; of a refusal the faulty line; else 0 */
    uint64_t second;  /* the place where letters stopped, or the slots newly used, where the call
                       * says so; else 0 */
    uint64_t third;   /* the lines that replaced an entry, where the call says so; else 0 */
};

/* What pronouncer_read_settings gives back; refused, every other field is 0. */
struct pronouncer_settings {
    uint32_t refusal; /* an enum pronouncer_refusal; 0 if the call was accepted */
    uint32_t count;   /* of settings shown: 2 to a reader of version 1, 3 to one of version 2 */
    int32_t pitch;    /* 50 to 400 */
    float stretch;    /* 0.25 to 4.0 */
    int32_t level;    /* 0 to 100; 0 where it is not shown */
    float rack;       /* the rack's stretch, 0.0625 to 16.0: stretch times the show's */
};

/* Whether a lexicon is whole.
 *
 * phones, index, data: lex.phones, lex.index, lex.data.
 * Answer: kind 1 if no entry is damaged, every phone number has a phone and the words are in the
 * order of their bytes; else kind 0.
 * Refusals:
 *   1  lex.phones or lex.index breaks its form
 * Writes nothing.
 */
struct pronouncer_answer pronouncer_check_lexicon(
    const uint8_t *phones, size_t phones_len,
    const uint8_t *index, size_t index_len,
    const uint8_t *data, size_t data_len);

/* Looks a word up: in the store, then in the library's own table, then in the lexicon. The store
 * gives the oldest exact entry that matches, else the oldest ordinary one: an exact entry matches its
 * own bytes, an ordinary one takes capitals for small letters, as table and lexicon do not. Of the
 * tag the first byte counts; no tag is "0". An entry of store or table matches only if the tags agree
 * or either is "0"; the lexicon gives the entry of that tag, else its first of that word.
 *
 * phones, index, data: lex.phones, lex.index, lex.data. store: a sound store. word, tag. out: room
 * for the phones.
 * Answer: kind is the source, 0 where no source has the word; value is the count of phones.
 * Refusals:
 *   1  lex.phones or lex.index breaks its form
 *   2  the store has a wrong length or is not sound
 *   3  word or tag is over 47 bytes or has a byte of 128 or more
 *   6  a compiled entry that was read is damaged
 *   7  the compiled entry has over 96 phones
 *   9  out has fewer than 16 bytes a phone
 * Writes the first 16 * value bytes of out, and no other byte.
 */
struct pronouncer_answer pronouncer_lookup(
    const uint8_t *phones, size_t phones_len,
    const uint8_t *index, size_t index_len,
    const uint8_t *data, size_t data_len,
    const uint8_t *store, size_t store_len,
    const uint8_t *word, size_t word_len,
    const uint8_t *tag, size_t tag_len,
    uint8_t *out, size_t out_len);

/* Tells a word's phones from its letters: those behind its last "#", capitals as small letters. The
 * bytes before it are still neighbours of the first letters, so "tempo#two" may have other phones than
 * "two".
 *
 * phones, index, model: lts.phones, lts.index, lts.model. word. out: room for the phones, which are
 * 94 at most.
 * Answer: value is the count of phones; second is the place just after the last "#" in the word as
 * given, counted from 0 (6 in "tempo#two"), or 0 if there is none.
 * Refusals:
 *   1  a section breaks its form
 *   3  the word is over 47 bytes or has a byte of 128 or more
 *   6  a tree that was walked is damaged
 *   9  out has fewer than 16 bytes a phone
 * Writes the first 16 * value bytes of out, and no other byte.
 */
struct pronouncer_answer pronouncer_predict(
    const uint8_t *phones, size_t phones_len,
    const uint8_t *index, size_t index_len,
    const uint8_t *model, size_t model_len,
    const uint8_t *word, size_t word_len,
    uint8_t *out, size_t out_len);

/* Marks where syllables end.
 *
 * phones: a list of bare phones; a phone that still has its stress is an unknown one, and an unknown
 * phone is a consonant. marks: room for a byte a phone.
 * Answer: value is the count of marks, which is the count of phones.
 * Refusals:
 *   3  a phone has a byte of 128 or more
 *   7  there are over 96 phones, or one is over 15 bytes
 *   9  marks has fewer than one byte a phone
 * Writes the first value bytes of marks, 1 for the last phone of a syllable, else 0; and no other
 * byte.
 */
struct pronouncer_answer pronouncer_syllabify(
    const uint8_t *phones, size_t phones_len,
    uint8_t *marks, size_t marks_len);

/* Whether a word can be said as one; else it is better spelled.
 *
 * prefix, suffix: aswd.p, aswd.s. word.
 * Answer: kind 1 if it can be said, else kind 0.
 * Refusals:
 *   1  a section breaks its form
 *   3  the word is over 47 bytes or has a byte of 128 or more
 * Writes nothing.
 */
struct pronouncer_answer pronouncer_is_sayable(
    const uint8_t *prefix, size_t prefix_len,
    const uint8_t *suffix, size_t suffix_len,
    const uint8_t *word, size_t word_len);

/* Begins a store without entries.
 *
 * store: 512 to 65,536 bytes, a multiple of 512, that may hold anything.
 * Refusals:
 *   2  the length is another
 * Writes the first 512 bytes, all 0, and no other byte. So the store's count is 0 (bytes 8 to 15);
 * each accepted pronouncer_add_entry, pronouncer_add_entries and pronouncer_accept_entries adds one.
 */
struct pronouncer_answer pronouncer_new_store(uint8_t *store, size_t store_len);

/* Adds an entry behind the others. The word of an exact entry is kept as it is, that of an ordinary
 * one in small letters. Of the tag the first byte is kept; no tag, and "nil", are "0". An entry of the
 * same key is replaced: it keeps its slot and becomes the last. A key is the word as it is kept, the
 * tag, and whether the entry is exact: ordinary "polish", exact "polish" and exact "Polish" are three.
 * Entries whose words differ in more than capitals may be added in any order: neither
 * pronouncer_lookup nor pronouncer_say_word then tells which came first.
 *
 * table: lex.phones. store: a sound store. word, tag. phones: a list of at most 24, each of them in
 * lex.phones or one of the 50. exact: whether the entry is exact.
 * Refusals:
 *    1  lex.phones breaks its form
 *    2  the store has a wrong length or is not sound
 *   12  the store's count is the largest
 *    3  word or tag is over 47 bytes, or it or a phone has a byte of 128 or more
 *    5  a phone is neither in lex.phones nor one of the 50, as is one over 15 bytes
 *    7  there are over 24 phones
 *    8  there is neither an unused slot nor an entry of that key
 * Writes the entry's slot, whole, the links and the number of slots that are used, and the store's
 * count, which is one higher. Slots past the used ones keep their bytes. The store is sound at exit.
 */
struct pronouncer_answer pronouncer_add_entry(
    const uint8_t *table, size_t table_len,
    uint8_t *store, size_t store_len,
    const uint8_t *word, size_t word_len,
    const uint8_t *tag, size_t tag_len,
    const uint8_t *phones, size_t phones_len,
    bool exact);

/* Adds a text of entries, all of them or none: pronouncer_preview_entries and
 * pronouncer_accept_entries together.
 *
 * Lines end at byte 10 and count from 1. What stands behind a "#" is a remark; a line that is blank
 * without it is skipped. The others are entry lines:
 *     WORD [TAG] [ignored ...] : PHONE PHONE ...
 * The first colon splits, blanks (bytes 9 to 13 and 32) part the fields, and all outer quote marks
 * of the word come off. Each line is added as pronouncer_add_entry adds an ordinary entry, in turn;
 * exact entries stay as they are.
 *
 * table: lex.phones. store: a sound store. spare: as many bytes as the store has, that may hold
 * anything. text.
 * Answer: value is the count of entry lines taken.
 * Refusals of the text as a whole, with value 0:
 *    1  lex.phones breaks its form
 *    2  the store has a wrong length or is not sound, or the spare's length is not the store's
 *   12  the store's count is the largest
 *    3  the text has a byte of 128 or more, in a remark too
 * Refusals of the first faulty line, with its number as value:
 *    3  word or tag is over 47 bytes
 *    4  there is no colon, or no word before it
 *    5  a phone is neither in lex.phones nor one of the 50
 *    7  there are over 24 phones
 *    8  the store, with the lines before, has neither an unused slot nor an entry of that key
 * Accepted, it writes store and spare, and both are the store with all lines added; the store's count
 * is one higher, the spare's is the one seen. Refused as a whole, it writes nothing. Refused by a
 * line, it writes the spare alone, which is the store with the lines before added and the largest
 * count.
 */
struct pronouncer_answer pronouncer_add_entries(
    const uint8_t *table, size_t table_len,
    uint8_t *store, size_t store_len,
    uint8_t *spare, size_t spare_len,
    const uint8_t *text, size_t text_len);

/* Shows what a text of entries would change, before pronouncer_accept_entries takes it. The lines are
 * those of pronouncer_add_entries.
 *
 * table: lex.phones. store: a sound store, which is only read. spare: as many bytes as the store has,
 * that may hold anything. text.
 * Answer: value is the count of entry lines taken, second the count of slots newly used, third the
 * count of lines that replaced an entry, that of an earlier line included; second and third together
 * are value.
 * Refusals: those of pronouncer_add_entries, but never 12.
 * Accepted, it writes the spare, which is the store with all lines added and the count seen. Refused
 * as a whole, it writes nothing. Refused by a line, it writes the spare, which is the store with the
 * lines before added and the largest count, so that it is never accepted.
 */
struct pronouncer_answer pronouncer_preview_entries(
    const uint8_t *table, size_t table_len,
    const uint8_t *store, size_t store_len,
    uint8_t *spare, size_t spare_len,
    const uint8_t *text, size_t text_len);

/* Accepts what pronouncer_preview_entries showed, if nothing was accepted since. The counts alone tell
 * whether the spare is this store's.
 *
 * store: a sound store. spare: as pronouncer_preview_entries filled it, which is only read.
 * Refusals:
 *    2  the store has a wrong length or is not sound, the spare's length is not the store's, or the
 *       spare is not a sound store
 *   12  the counts of store and spare differ, or the store's is the largest
 * Writes the store, which is the spare with the count one higher.
 */
struct pronouncer_answer pronouncer_accept_entries(
    uint8_t *store, size_t store_len,
    const uint8_t *spare, size_t spare_len);

/* Begins a sheet without words. A word whose phones have no "2" is said alike on both versions.
 *
 * sheet: 64 to 65,536 bytes that may hold anything. What is left behind the last whole item is
 * neither read nor written by any call. version: an enum pronouncer_sheet_version.
 * Refusals:
 *    2  the length is another
 *   15  the version is another
 * Writes the first 64 bytes, byte 1 the version and the others 0, and no other byte.
 */
struct pronouncer_answer pronouncer_new_sheet(uint8_t *sheet, size_t sheet_len, uint32_t version);

/* Says a word: puts it last on the sheet, with the phones that pronouncer_lookup finds or, where no
 * source has the word, those of pronouncer_predict. One last digit comes off each phone, "0" or "1",
 * and on a sheet of version 2 "2" as well; the bare phones are cut as by pronouncer_syllabify, and a
 * syllable's stress is the last digit that came off in it, else "0". Byte 15 of the word's item tells
 * the source, an enum pronouncer_source from 1 to 4; later entries do not change it. A word with
 * PRONOUNCER_LETTERS is worth a check.
 *
 * phones, index, data: lex.phones, lex.index, lex.data. sounds, starts, model: lts.phones,
 * lts.index, lts.model. store: a sound store. sheet: a sound sheet. word, tag.
 * Answer: second is that of pronouncer_predict, or 0 where the letters were not read: a word that
 * pronouncer_lookup finds has 0 although it holds "#", as "#" itself does.
 * Refusals:
 *   1  one of the six sections breaks its form
 *   2  store or sheet has a wrong length or is not sound
 *   3  word or tag is over 47 bytes or has a byte of 128 or more
 *   6  the compiled entry that was read, or the tree that was walked, is damaged
 *   7  the compiled entry has over 96 phones
 *   9  fewer items are unused than the word needs: one, one for each syllable, one for each phone
 * Writes the word's items, the first unused ones, whole; and the links and counts of item 0, of the
 * word before and of the phone before. No other byte. The sheet is sound at exit.
 */
struct pronouncer_answer pronouncer_say_word(
    const uint8_t *phones, size_t phones_len,
    const uint8_t *index, size_t index_len,
    const uint8_t *data, size_t data_len,
    const uint8_t *sounds, size_t sounds_len,
    const uint8_t *starts, size_t starts_len,
    const uint8_t *model, size_t model_len,
    const uint8_t *store, size_t store_len,
    uint8_t *sheet, size_t sheet_len,
    const uint8_t *word, size_t word_len,
    const uint8_t *tag, size_t tag_len);

/* Writes all phones of a sheet in order, bare, with one blank (byte 32) between two. No byte 0 ends
 * them.
 *
 * sheet: a sound sheet. out: room for the characters.
 * Answer: value is the count of bytes.
 * Refusals:
 *   2  the sheet has a wrong length or is not sound
 *   9  out has fewer bytes than the string
 * Writes the first value bytes of out, and no other byte.
 */
struct pronouncer_answer pronouncer_phone_string(
    const uint8_t *sheet, size_t sheet_len,
    uint8_t *out, size_t out_len);

/* Reads a rack's settings.
 *
 * Pitch is a whole number from 50 to 400, stretch a float from 0.25 to 4.0, level a whole number from
 * 0 to 100. A reader of version 1 knows pitch and stretch, one of version 2 level too; what the
 * reader does not know may have any value. The settings' own version must be 1 or 2 as well, and
 * changes nothing else. A setting without a record is 100, 1.0 or 80.
 *
 * settings: 32 to 65,536 bytes; what is left behind the last whole record is not read. version: the
 * reader's, 1 or 2. show: the show's stretch, 0.25 to 4.0.
 * Answer: what that version knows, and last the rack's stretch: the settings' stretch times the
 * show's, rounded once.
 * Refusals:
 *    2  the length is another
 *   15  the settings' version or the reader's is neither 1 nor 2
 *   16  an index leads outside, the chain goes in a circle, a name stands twice, a name is over 15
 *       bytes, or a kind is neither 1 nor 2, be the setting known or not
 *   17  a known setting is of the wrong kind or out of range, or show is out of range, as a NaN is
 * Writes nothing.
 */
struct pronouncer_settings pronouncer_read_settings(
    const uint8_t *settings, size_t settings_len,
    uint32_t version,
    float show);

/* Writes a setting that the reader's version knows and that has a record.
 *
 * settings: as for pronouncer_read_settings. version: the reader's, 1 or 2. name: "pitch", "stretch"
 * or "level". kind: an enum pronouncer_setting_kind. value: the 32 bits of the int32_t, or those of
 * the float (memcpy).
 * Refusals:
 *    2  the length is another
 *   15  the settings' version or the reader's is neither 1 nor 2
 *   16  as of pronouncer_read_settings; or the version does not know the name, or it has no record
 *   17  a known setting, this one or another, is of the wrong kind or out of range before the write,
 *       which therefore mends nothing; or kind or value is wrong for this one
 * Writes the four value bytes of the setting's record, and no other byte.
 */
struct pronouncer_answer pronouncer_write_setting(
    uint8_t *settings, size_t settings_len,
    uint32_t version,
    const uint8_t *name, size_t name_len,
    uint32_t kind,
    uint32_t value);

/* Beyond the fifteen calls: whether a phone is a vowel. An unknown phone is a consonant, and so is
 * one that has its stress.
 *
 * phone: its text, without a length in front.
 * Answer: kind 1 for a vowel, else kind 0.
 * Never refused. Writes nothing.
 */
struct pronouncer_answer pronouncer_is_vowel(const uint8_t *phone, size_t phone_len);

/* Beyond the fifteen calls: the stress of a phone, its last byte if that is "0" or "1". So it is by
 * version 1 of a sheet: "ae2" stays whole.
 *
 * phone: its text, without a length in front.
 * Answer: kind is the stress, 48 or 49, or 0 where there is none; value is the length of the bare
 * phone.
 * Never refused. Writes nothing.
 */
struct pronouncer_answer pronouncer_split_stress(const uint8_t *phone, size_t phone_len);

#ifdef __cplusplus
}
#endif

#endif
