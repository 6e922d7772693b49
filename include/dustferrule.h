/* Dustferrule: the proved gateway library for UIC 556 train buses, as C links it.
 *
 * Every call is total: for valid memory and any numbers it returns, and its answer is the one that documents 01 and 02 give.
 * The library is proved; this header is not checked against it. It declares what `crates/dustferrule/src/lib.rt` exports.
 *
 * What the caller owes:
 *  - each pointer with its length names readable memory (writable where the parameter is not const) of that many elements, and one without a
 *    length names as many octets as stand in its brackets;
 *  - no area is longer than a C object can be (PTRDIFF_MAX octets); `values` is aligned for a uint64_t and `lengths` for a uint16_t, also with
 *    length 0;
 *  - an area that is written overlaps no other area of the same call;
 *  - with length 0 the pointer is never read or written, but it must not be NULL: pass any non-null pointer.
 *
 * Results: `refusal` is 0, or a number of DF_REFUSALS below; every field that an answer does not use is 0. A refused call changes no
 * octet it was lent. Of the numbers that a call can meet, 1-4 come first, as judging the list meets them, then the lowest; df_christen,
 * df_check_step, df_doors and the calls on remedy texts say their own order.
 *
 * `form`, behind each list, says how its signal entries are laid out: DF_FORM_1, 16 octets, or DF_FORM_2, 18 octets, of which the last two
 * are a serial number, 0 for none. Any number of 8 bits but 2 is form 1. A list in form 2 answers as the same list without its serial numbers
 * does in form 1; offsets follow the longer entries.
 *
 * `carried` is the offset in the list of the section's count (1, 2), of the entry (3, 34) or of the first octet too many (4), and the number
 * of the signal, from 0, that is at fault (15). The rules of a list's entries stand in docs/PROMISES.md, under "The signal list".
 * Nothing here allocates, blocks, keeps state or calls back.
 */
#ifndef DUSTFERRULE_H
#define DUSTFERRULE_H

#include <stddef.h>
#include <stdint.h>

#ifdef __cplusplus
extern "C" {
#endif

/* The store: a slot for each of 63 vehicles, vehicle 1 first. A store of zeros has heard nobody. */
#define DF_STORE_OCTETS 8631

/* The forms of a list: signal entries of 16 octets, and of 18, with a serial number behind each. */
enum df_form { DF_FORM_1 = 1, DF_FORM_2 = 2 };

/* The profiles, by the vehicles whose controllers a list is for; a number that is none of these is the plain coach's, the narrower. */
enum df_profile { DF_PLAIN_COACH = 1, DF_DRIVING_TRAILER = 2 };

/* What the second of two lists lacks to extend the first. */
enum df_breaks {
    DF_BREAKS_NONE = 0, DF_BREAKS_WIDTH = 1, DF_BREAKS_CHECK = 2, DF_BREAKS_SINCE = 3, DF_BREAKS_CODES = 4, DF_BREAKS_REMOVED = 5,
    DF_BREAKS_NOT_NEWER = 6
};

/* How a value is shown; a number that is none of these shows the code. */
enum df_kind { DF_CODE = 0, DF_SPEED = 1, DF_PERCENTAGE = 2, DF_SIGNED_PERCENTAGE = 3, DF_CURRENT = 4 };

/* What a shown value is in. */
enum df_unit { DF_NO_UNIT = 0, DF_KM_PER_HOUR = 1, DF_PERCENT = 2, DF_AMPERE = 3 };

/* The levels of table E.1. */
enum df_level { DF_GATEWAY = 0, DF_VEHICLE = 1 };

/* What is said of the doors of a side: not known (as a refusal leaves it), locked, or open. */
enum df_state { DF_UNKNOWN = 0, DF_LOCKED = 1, DF_OPEN = 2 };

/* The refusals, in the words of document 01 or, as 5, 25, 26 and those from 28 on, after document 02: X(name, number, text). A new one is a line. */
#define DF_REFUSALS(X) \
    X(LIST_ENDS, 1, "list ends inside a count or a section") \
    X(COUNT_ABOVE, 2, "count above its limit") \
    X(ENTRY_BROKEN, 3, "entry breaks its rule") \
    X(OCTETS_AFTER, 4, "octets after the routes") \
    X(STORE_LENGTH, 5, "store not 8,631 octets") \
    X(VEHICLE, 6, "vehicle not 1-63") \
    X(TELEGRAM_SHORT, 7, "R-telegram under 2 octets") \
    X(APPLICATION_TYPE, 8, "application type not 1") \
    X(TELEGRAM_TYPE, 9, "telegram type not 1-3") \
    X(TELEGRAM_LENGTH, 10, "length not the type's") \
    X(NO_SUCH_SIGNAL, 11, "no such signal") \
    X(DATA_SHORT, 12, "data shorter than a route's end") \
    X(VALUES_OR_MARKS, 13, "values or marks not one per entry") \
    X(MARK_ABOVE, 14, "a written mark above 3") \
    X(VALUE_UNFIT, 15, "a written value at or above 2^width, or its code not known") \
    X(OUTPUT_LENGTH, 16, "output length not the type's") \
    X(CONSIST_LENGTH, 17, "consist empty or above 63") \
    X(CONSIST_RULE, 18, "consist rule broken") \
    X(ADDRESS_UNLISTED, 19, "address not listed") \
    X(NOBODY_MEETS, 20, "nobody meets it") \
    X(E_LENGTH, 21, "E-telegram length") \
    X(E_CODE, 22, "code neither request nor report") \
    X(ANSWER_TO_REPORT, 23, "answer to a report") \
    X(HEAD_LENGTH, 24, "head not 6 octets") \
    X(OUTPUT_SHORT, 25, "output too short") \
    X(SCALED_KIND, 26, "scaled kind, with width not 16") \
    X(NO_CHECK_PLACE, 27, "no check place in the table") \
    X(BLOCK_PAST, 28, "block runs past the end, or octets after the last") \
    X(REMEDY_FIELD, 29, "field out of its range or length that disagrees") \
    X(KEY_TWICE, 30, "key twice") \
    X(RECORDS_MISFIT, 31, "record area not a whole number of records, or not as many pairs of marks as records") \
    X(SERIAL_SET, 32, "serial number set") \
    X(FORM_OUTPUT, 33, "output not of the needed length") \
    X(PROFILE, 34, "profile rule broken") \
    X(DOOR_MISSING, 35, "door signal missing from the list") \
    X(DATA_LENGTHS, 36, "data areas differ in length") \
    X(STEP_BROKEN, 37, "step does not follow on") \
    X(STEPS_TOO_MANY, 38, "more than 1,000 steps")

/* The reasons of a reading, likewise. */
#define DF_REASONS(X) \
    X(LIVE_OK, 0, "live ok") \
    X(LIVE_FORCED, 1, "live forced") \
    X(NEVER_HEARD, 2, "never heard") \
    X(TOO_OLD, 3, "too old") \
    X(TYPE_DOES_NOT_CARRY, 4, "type does not carry it") \
    X(SINCE_ABOVE, 5, "since-version above the telegram's") \
    X(MARK_ERROR, 6, "mark error") \
    X(MARK_UNDEFINED, 7, "mark undefined") \
    X(CODE_NOT_KNOWN, 8, "code not known")

/* DF_REFUSAL_LIST_ENDS and so on, DF_REASON_LIVE_OK and so on. The fields of results are plain numbers, to be compared with these. */
#define DF_AS_REFUSAL(name, number, text) DF_REFUSAL_##name = number,
#define DF_AS_REASON(name, number, text) DF_REASON_##name = number,
enum df_refusal { DF_NOT_REFUSED = 0, DF_REFUSALS(DF_AS_REFUSAL) };
enum df_reason { DF_REASONS(DF_AS_REASON) };
#undef DF_AS_REFUSAL
#undef DF_AS_REASON

/* The text of a number. The library has no strings: they stand in a program that calls these, and in no other. */
#define DF_AS_CASE(name, number, text) case number: return text;
static inline const char *df_refusal_text(uint32_t refusal)
{
    switch (refusal) { case DF_NOT_REFUSED: return "not refused"; DF_REFUSALS(DF_AS_CASE) default: return "no refusal has this number"; }
}
static inline const char *df_reason_text(uint32_t reason)
{
    switch (reason) { DF_REASONS(DF_AS_CASE) default: return "no reason has this number"; }
}
#undef DF_AS_CASE

typedef struct { uint32_t refusal; uint64_t carried; } df_outcome;

typedef struct { uint32_t refusal; uint64_t carried; uint64_t checks, signals, codes, routes, version; } df_judged;

/* which: 0 no list was refused, 1 the first list, 2 the second; extends: 1 yes, 0 no */
typedef struct { uint32_t refusal; uint32_t which; uint64_t carried; uint32_t extends; } df_extending;

/* which: as of df_extending; found: 1 a difference, 0 no more, or refused; breaks: a number of df_breaks, the first that
 * applies; key: of a signal its type * 1024 + its start, of a route its destination start; first, second: its number in that list, from 0, and
 * where the list has none, the number of all that it has */
typedef struct {
    uint32_t refusal; uint32_t which; uint64_t carried; uint32_t found; uint64_t breaks, key, first, second;
} df_change;

/* which, found: as of df_change; low, high: the lowest and the highest code of the range */
typedef struct { uint32_t refusal; uint32_t which; uint64_t carried; uint32_t found; uint64_t low, high; } df_range;

/* A signal's entry as it stands in the list, and the place of its check as a bit address, 0 for none.
 * width: 1-64; type: 0 common, 1 R1, 2 R2; check: 0 none, k the k-th check; limit: ms, 0 none; replacement: below 2^48 and 2^width */
typedef struct {
    uint32_t refusal; uint64_t carried; uint64_t start, width, type, check, since, limit, replacement, place;
} df_entry;

typedef struct { uint32_t refusal; uint64_t carried; uint64_t signal; } df_found;

/* serial: 16 bits as the list has them, 0 for none */
typedef struct { uint32_t refusal; uint64_t carried; uint64_t serial; } df_serial_number;

typedef struct { uint32_t refusal; uint64_t place; } df_place;

/* gap: ms, modulo 2^32 */
typedef struct { uint32_t refusal; uint32_t gap; } df_gap_ms;

/* reason: a number of DF_REASONS; with 2 to 8 the value is the replacement; a value is below 2^width, so with width 64 any number */
typedef struct { uint32_t refusal; uint32_t reason; uint64_t carried; uint64_t value; } df_reading;

/* reason: as of df_reading; code: the value where a code is shown, which has no unit, else 0; unit: a number of df_unit;
 * value: the exact value in its unit where a scaled kind is shown, else +0 */
typedef struct { uint32_t refusal; uint32_t reason; uint64_t carried; uint64_t code; uint32_t unit; float value; } df_shown;

typedef struct { uint32_t refusal; uint64_t carried; uint64_t lives; } df_marshalled;

/* vehicle v is bit v of the set, worth 2^v; bit 0 is never set */
typedef struct { uint32_t refusal; uint32_t size; uint64_t set; } df_members;

/* found: 1 a row of table E.1, 0 no row of this number has a bit; level: a number of df_level; octet, bit: its place in a record, octets from 1, bit 0
 * the most significant; holds: 1 the bit is set, 0 not */
typedef struct { uint32_t found, level, octet, bit, holds; } df_property_row;

/* vehicles: how many marks were written */
typedef struct { uint32_t refusal; uint64_t vehicles; } df_christened;

/* right: 1 the data after are what the rules give, 0 a bit is wrong, or refused; octet, bit: the first wrong bit, by its octet, from 0, and its place
 * in it, 0 the most significant; in_route: 1 it lies in a route, 0 in none; route, reason: its number, from 0, and that of DF_REASONS which reading
 * its value gives */
typedef struct {
    uint32_t refusal; uint32_t right; uint64_t carried; uint64_t octet; uint32_t bit; uint32_t in_route; uint64_t route; uint32_t reason;
} df_checked;

/* left, right: a number of df_state; left_set, right_set: the vehicles that kept the side from locked, as of df_members; left_size, right_size: how
 * many they are */
typedef struct {
    uint32_t refusal; uint32_t left; uint64_t carried; uint64_t left_set; uint32_t left_size; uint32_t right; uint64_t right_set; uint32_t right_size;
} df_doors_summary;

/* report: 1 a report, 0 a request; status: octet 9 */
typedef struct { uint32_t refusal; uint32_t code; uint32_t report; uint32_t status; } df_e_reading;

/* language: octets 21-22; ordered: octet 23, 0 or 1; count: octet 24, the number of blocks, 1-8 */
typedef struct { uint32_t refusal; uint32_t language; uint32_t ordered; uint32_t count; } df_remedies;

/* found: 1 a block, 0 no more, or refused; key: 1-8, of F1 to F8; at: where in the telegram its text starts, from 0; size: its octets */
typedef struct { uint32_t refusal; uint32_t found; uint32_t key; uint64_t at, size; } df_remedy;

/* size: of the telegram that was written */
typedef struct { uint32_t refusal; uint64_t size; } df_wrote;

/* Judges a signal list. Refusals 1-4. */
df_judged df_judge(const uint8_t *list, size_t list_len, uint8_t form);

/* Judges a signal list by a profile: what it accepts, df_judge accepts too, with the same answer. In a plain coach's list there are at most 64
 * signals, all of type 0, each with a check, a time limit of 1-5,000 ms and a replacement that is a known code; and every route ends within 16
 * octets of data. In a driving trailer's there may be R1 signals too, each with all its bits in octets 47-73 and under the check at the place
 * that df_check_place gives for them. Any profile but 2 is the plain coach's. Refusals 1-4, then 34 at the first entry that breaks a rule; a
 * 65th signal does, whatever it is. */
df_judged df_judge_profile(uint8_t profile, const uint8_t *list, size_t list_len, uint8_t form);

/* Does the second list, of form `other`, extend the first? Refusals 1-4 of the first list that is refused. */
df_extending df_extends(const uint8_t *a, size_t a_len, uint8_t form, const uint8_t *b, size_t b_len, uint8_t other);

/* The next signal, at the key `from` or above, that the second list has and the first has not, or the other way round, or both have with another
 * width, check place, since-version, time limit or replacement or, where the widths are equal and at most 16, with other known codes. A signal is
 * the same in both lists by its type and start. To go on behind a difference, ask from its key + 1. The second list extends the first exactly if
 * no difference breaks anything. Refusals 1-4 of the first list that is refused. */
df_change df_signal_change(const uint8_t *a, size_t a_len, uint8_t form, const uint8_t *b, size_t b_len, uint8_t other, uint64_t from);

/* The next destination start, the bit `from` or above, at which one list alone has a route, or both have one of another vehicle or of another
 * signal, by type and start; a route's entry is to be read out of the list by its number. Refusals 1-4 of the first list that is refused. */
df_change df_route_change(const uint8_t *a, size_t a_len, uint8_t form, const uint8_t *b, size_t b_len, uint8_t other, uint64_t from);

/* The next range, as long as possible, of codes that the signal at a key knows in the second list and not in the first, if it starts at the code
 * `from` or above; one that starts below is passed over. There is none where one list lacks the signal, or the widths differ or are above 16.
 * With the lists exchanged it gives what was lost. Refusals 1-4 of the first list that is refused. */
df_range df_codes_gained(const uint8_t *a, size_t a_len, uint8_t form, const uint8_t *b, size_t b_len, uint8_t other, uint64_t key, uint64_t from);

/* The entry of a signal by its number, from 0. Refusals 1-4, then 11. */
df_entry df_signal_entry(const uint8_t *list, size_t list_len, uint8_t form, uint64_t signal);

/* The number, from 0, of the signal of a type (0, 1 or 2) that starts at a bit address. Refusals 1-4, then 11. */
df_found df_find_signal(const uint8_t *list, size_t list_len, uint8_t form, uint64_t type, uint64_t start);

/* The serial number of a signal by its number, from 0; in form 1 it is 0. Refusals 1-4, then 11. */
df_serial_number df_serial(const uint8_t *list, size_t list_len, uint8_t form, uint64_t signal);

/* Writes a list of form 1 in form 2: two octets more for each signal, every serial number 0. Refusals 1-4, then 33. */
df_outcome df_to_form_2(const uint8_t *list, size_t list_len, uint8_t *out, size_t out_len);

/* Writes a list of form 2, in which every serial number is 0, in form 1: two octets less for each signal. Refusals 1-4, then 32, 33. */
df_outcome df_to_form_1(const uint8_t *list, size_t list_len, uint8_t *out, size_t out_len);

/* The check place, as a bit address, of a bit of R1 octets 47-73. Refusal 27. */
df_place df_check_place(uint64_t bit);

/* Takes an R-telegram of a vehicle (1-63) at a clock value into the store. Refusals 5-10. */
df_outcome df_take(uint8_t *store, size_t store_len, uint64_t vehicle, uint32_t clock, const uint8_t *telegram, size_t telegram_len);

/* The gap between the last two telegrams taken from a vehicle (1-63), in ms modulo 2^32, whatever was swept between; after its first telegram
 * the clock value that it was taken at, and 0 if none was. Refusals 5, 6. */
df_gap_ms df_gap(const uint8_t *store, size_t store_len, uint64_t vehicle);

/* Marks every slot as expired that was heard and is more than 600,000 ms old, the longest time limit of a list. From then on, until a new
 * telegram is taken, its signals with a limit are too old; those with none are read as before. Swept at least every 2,147,483,648 ms
 * (24.8 days), no telegram comes to look new as the counter comes round. Refusal 5. */
df_outcome df_sweep(uint8_t *store, size_t store_len, uint32_t clock);

/* Reads one signal (number from 0) of one vehicle. Refusals 1-4, then 5, 6, 11. */
df_reading df_read(const uint8_t *list, size_t list_len, uint8_t form, const uint8_t *store, size_t store_len, uint32_t clock, uint64_t vehicle,
                   uint64_t signal);

/* Reads every signal of one vehicle, with one judging of the list for all of them: values and reasons have an entry for each signal, in list order,
 * and each is what df_read gives, a reason as its number of DF_REASONS. Refusals 1-4, then 5, 6, 13 where values or reasons are not one per signal. */
df_outcome df_read_all(const uint8_t *list, size_t list_len, uint8_t form, const uint8_t *store, size_t store_len, uint32_t clock, uint64_t vehicle,
                       uint64_t *values, size_t values_len, uint8_t *reasons, size_t reasons_len);

/* The same of the vehicles 1 to last, vehicle after vehicle: signal k, from 0, of vehicle v is entry (v - 1) * signals + k. Refusals 1-4, then 5, 6
 * where last is not 1-63, 13 where values or reasons are not last times as many as there are signals. */
df_outcome df_read_train(const uint8_t *list, size_t list_len, uint8_t form, const uint8_t *store, size_t store_len, uint32_t clock, uint64_t last,
                         uint64_t *values, size_t values_len, uint8_t *reasons, size_t reasons_len);

/* Reads one signal (number from 0) of one vehicle and shows the value of the reading, live or replacement, as a kind: as a code, which is the
 * value itself, or, of a signal of 16 bits, as a speed of value / 64 km/h, a percentage of value * 25 / 4096 (unsigned, or signed: the value in
 * two's complement) or a current of value * 125 / 2048 A. Any kind but 1-4 shows the code. Refusals 1-4, then 5, 6, 11, 26. */
df_shown df_show(const uint8_t *list, size_t list_len, uint8_t form, const uint8_t *store, size_t store_len, uint32_t clock, uint64_t vehicle,
                 uint64_t signal, uint8_t kind);

/* Writes every route's value into its field of the vehicle bus data, and counts the live ones. Refusals 1-5, 12. */
df_marshalled df_marshal(const uint8_t *list, size_t list_len, uint8_t form, const uint8_t *store, size_t store_len, uint32_t clock, uint8_t *bus,
                         size_t bus_len);

/* Composes an R-telegram of type 1, 2 or 3: one value for each signal, one mark (0-3) for each check. Refusals 1-4, then 9, 13-16. */
df_outcome df_compose(const uint8_t *list, size_t list_len, uint8_t form, uint64_t type, const uint64_t *values, size_t values_len,
                      const uint8_t *marks, size_t marks_len, uint8_t *out, size_t out_len);

/* Composes anew the R-telegram that a vehicle (1-63) was last heard with, expired or not, as a gateway in the middle passes it on: of the same
 * type, with the list's version, each signal that the type carries as it is read, live or replaced. A check keeps its mark if the type carries
 * signals under it and all these are live, else it is error; what the list does not know is 0. Refusals 1-4, then 5, 6, 9 where there is no such
 * telegram, 15 where a replacement would go out that is no known code, 16. */
df_outcome df_relay(const uint8_t *list, size_t list_len, uint8_t form, const uint8_t *store, size_t store_len, uint32_t clock, uint64_t vehicle,
                    uint8_t *out, size_t out_len);

/* The vehicles of a train that meet an address (1-63, 64, 65, 66, 67, 70, 92). One mark octet for each vehicle, vehicle 1 first:
 * 1 leading, 2 coach, 4 tractive, 8 led, 16 sleeping; the three high bits are not read. Refusals 17-20. */
df_members df_resolve(const uint8_t *marks, size_t marks_len, uint64_t address);

/* A row of source document 002, table E.1, by its number: its level and its place, and whether its bit is set in this christening record. Rows
 * 1-132 and 141-152 are there. Never refused. */
df_property_row df_property(const uint8_t octets[56], uint32_t row);

/* Builds the consist from christening records, 56 octets for each vehicle, vehicle 1 first, and as many octets in pairs: 1 leading, 8 led, the other
 * bits are not read. Writes a mark octet for each vehicle, as df_resolve takes them, into the first octets of marks; the others stay. Sleeping is
 * 51/4; tractive 24/0 or 24/1; a coach has any of 50/0, 50/1, 51/0, 51/3 and 51/4. Refusals 31, then 17 and 18. */
df_christened df_christen(const uint8_t *records, size_t records_len, const uint8_t *pairs, size_t pairs_len, uint8_t marks[63]);

/* Checks one step of a supplier's recording of marshalling: the data after are right exactly if df_marshal would make them of the data before, bits
 * outside the routes included. `steps` is how many steps of the recording were right before it, and `last` are the data after of the last of them,
 * which with 0 steps are not looked at. The first step that is refused or wrong ends the judging; with no steps a recording is accepted if df_judge
 * accepts its list. The data may have any length, and nothing lent is written. Refusals 38 with 1,000 steps or more, then 1-4, then 5, 12 for the
 * data before, 36, 37. */
df_checked df_check_step(const uint8_t *list, size_t list_len, uint8_t form, size_t steps, const uint8_t *last, size_t last_len, const uint8_t *store,
                         size_t store_len, uint32_t clock, const uint8_t *before, size_t before_len, const uint8_t *after, size_t after_len);

/* What a driver's desk shows of the doors, by octet 20 bits 4, left, and 5, right, of each vehicle that meets an address, 66 for all; marks and
 * address as of df_resolve. A side is locked exactly if every such vehicle's bit is live and 1, open if any such vehicle's is live and 0, else not known.
 * The list must have both bits as common signals of width 1. Refusals 1-4, then 5, then 35, then 17-20. */
df_doors_summary df_doors(const uint8_t *list, size_t list_len, uint8_t form, const uint8_t *store, size_t store_len, uint32_t clock,
                          const uint8_t *marks, size_t marks_len, uint64_t address);

/* Reads an E-telegram's code, request or report, and octet 9. It has 9 to 1,024 octets, with the code 8A08 up to 2,110. Refusals 21, 22. */
df_e_reading df_e_read(const uint8_t *telegram, size_t telegram_len);

/* Answers a request: head (6 octets), report code and status into the first 9 octets of out. Refusals 21-25. */
df_outcome df_e_answer(const uint8_t *telegram, size_t telegram_len, const uint8_t *head, size_t head_len, uint8_t status,
                       uint8_t *out, size_t out_len);

/* Reads a report with remedy texts, telegram 8.8A of code 8A08: its language, octet 23 and the number of its blocks. Octets 1-6, 9-20 and the
 * reserve are not read. Refusals 21, also under 30 octets; then 29 for octets 7-24, also for another code; then that of the first bad block, its
 * lowest of 28 (the block, or its first 6 octets, runs past the end), 29 and 30; then 28 for octets after the last. */
df_remedies df_read_remedies(const uint8_t *telegram, size_t telegram_len);

/* A block of such a telegram by its number, from 0: its key, and the part of the telegram that is its text. Refusals as of df_read_remedies. */
df_remedy df_remedy_block(const uint8_t *telegram, size_t telegram_len, size_t block);

/* Writes such a telegram into the first octets of out: head is octets 1-6, carried octets 9-20, ordered octet 23, and the reserve is 0. Each
 * block has a key and a length; the texts stand in one area, one behind the other. Refusals 29 where there are not as many keys as lengths or the
 * lengths do not add up to the area; then 25 where out has under 30 octets and, for each block, 6 and those of its text; then 29 for ordered above
 * 1 or a number of blocks that is not 1-8; then that of the first bad block: 29 for a key that is not 1-8 or a text of an odd number of octets or
 * of more than 254, else 30. */
df_wrote df_write_remedies(const uint8_t head[6], const uint8_t carried[12], uint16_t language, uint8_t ordered, const uint8_t *keys,
                           size_t keys_len, const uint16_t *lengths, size_t lengths_len, const uint8_t *texts, size_t texts_len, uint8_t *out,
                           size_t out_len);

#ifdef __cplusplus
}
#endif

#endif
