/* The bench example of document 01 in C: judges the list L, takes vehicle 1's telegram, reads the voltage selection and marshals it. */
#include <inttypes.h>
#include <stdio.h>

#include "dustferrule.h"

/* Voltage selection (4.3): R1 octet 54 bits 0-3, check octet 41 bits 2/3, known codes 0-6 and 15, limit 5,000 ms, routed to bits 0-3. */
static const uint8_t list[] = {
    0x00, 0x01, 0x01, 0x42,
    0x00, 0x01, 0x01, 0xA8, 0x04, 0x01, 0x01, 0x01, 0x00, 0x00, 0x13, 0x88, 0x00, 0x00, 0x00, 0x00, 0x00, 0x00,
    0x00, 0x02, 0x00, 0x00, 0x00, 0x00, 0x00, 0x06, 0x00, 0x00, 0x00, 0x0F, 0x00, 0x0F,
    0x00, 0x01, 0x00, 0x00, 0x01, 0x00, 0x00, 0x00,
};

/* A store of zeros has heard nobody. */
static uint8_t store[DF_STORE_OCTETS];

/* Prints the refusal, if it is one. */
static int refused(uint32_t refusal, uint64_t carried)
{
    if (refusal != 0)
        printf("refused %" PRIu32 " at %" PRIu64 ": %s\n", refusal, carried, df_refusal_text(refusal));
    return refusal != 0;
}

static int print_reading(uint32_t clock, uint64_t signal)
{
    df_reading r = df_read(list, sizeof list, DF_FORM_1, store, sizeof store, clock, 1, signal);
    if (refused(r.refusal, r.carried))
        return 1;
    printf("value %" PRIu64 " reason %" PRIu32 " %s\n", r.value, r.reason, df_reason_text(r.reason));
    return 0;
}

int main(void)
{
    uint8_t telegram[128] = { 0x11, 1 }; /* R1, version 1 */
    telegram[41 - 1] = 0x10;             /* the check of 4.3: ok */
    telegram[54 - 1] = 0x40;             /* 4.3: 4 */

    df_judged j = df_judge(list, sizeof list, DF_FORM_1);
    if (refused(j.refusal, j.carried))
        return 1;
    printf("list ok checks=%" PRIu64 " signals=%" PRIu64 " codes=%" PRIu64 " routes=%" PRIu64 " version=%" PRIu64 "\n",
           j.checks, j.signals, j.codes, j.routes, j.version);

    df_outcome taken = df_take(store, sizeof store, 1, 1000, telegram, sizeof telegram);
    if (refused(taken.refusal, taken.carried))
        return 1;

    /* The signal by its place: R1 octet 54 bit 0. */
    df_found voltage = df_find_signal(list, sizeof list, DF_FORM_1, 1, 8 * (54 - 1));
    if (refused(voltage.refusal, voltage.carried))
        return 1;

    /* At the age of 5,000 ms the value is live, a millisecond later it is replaced. */
    if (print_reading(6000, voltage.signal) || print_reading(6001, voltage.signal))
        return 1;

    /* The route writes its four bits and leaves the others. */
    uint8_t data[] = { 0xAB };
    df_marshalled m = df_marshal(list, sizeof list, DF_FORM_1, store, sizeof store, 6000, data, sizeof data);
    if (refused(m.refusal, m.carried))
        return 1;
    printf("data %02X live %" PRIu64 "\n", data[0], m.lives);

    /* A list that lacks its last octet is refused, and the refusal says where. */
    df_judged cut = df_judge(list, sizeof list - 1, DF_FORM_1);
    refused(cut.refusal, cut.carried);
    return cut.refusal != DF_REFUSAL_LIST_ENDS;
}
