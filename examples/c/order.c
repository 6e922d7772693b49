/* For testers: the order in which two nodes are heard makes no difference. Two telegrams of different vehicles, each with its own clock value, are
 * taken in one order and in the other, accepted or refused: the stores are the same, octet for octet, and so is what each call answers. And
 * marshalling once more with the same list, store and clock changes nothing. Says what differs, and ends with 1. */
#include <stdio.h>
#include <string.h>

#include "dustferrule.h"

/* two signals of R1 octet 54, bits 0-3 and 4-7, from vehicles 1 and 2 into one octet of data */
static const uint8_t LIST[52] = {0, 0, 0, 2, 0x01, 0xA8, 4, 1, 0, 1, 0, 0, 0x13, 0x88, 0, 0, 0, 0, 0, 0, 0x01, 0xAC, 4, 1, 0, 1, 0, 0, 0x13, 0x88,
                                 0, 0, 0, 0, 0, 9, 0, 0, 0, 2, 0, 0, 1, 0, 0, 0, 0, 1, 2, 0, 0, 4};

/* what a node sends: octets 1 and 2, how long it is, and the octet 54; of the last four each is refused by another number */
typedef struct {
    uint8_t head, version;
    size_t octets;
    uint8_t value;
} sent;

static const sent SENT[7] = {{0x11, 1, 128, 0x47}, {0x12, 2, 128, 0x58}, {0x13, 3, 40, 0}, {0x11, 1, 1, 0}, {0x21, 1, 128, 0}, {0x14, 1, 128, 0}, {0x13, 1, 128, 0}};

static const uint64_t VEHICLES[6] = {0, 1, 2, 31, 63, 64};

/* the first store is new, in the second every vehicle was heard; the third is an octet short */
static uint8_t before[DF_STORE_OCTETS], one[DF_STORE_OCTETS], other[DF_STORE_OCTETS];
static size_t octets = sizeof before;

static df_outcome take(uint8_t *store, uint64_t vehicle, uint32_t clock, const sent *s)
{
    uint8_t telegram[128] = {s->head, s->version};
    telegram[53] = s->value;
    return df_take(store, octets, vehicle, clock, telegram, s->octets);
}

static int same_answer(df_outcome a, df_outcome b)
{
    return a.refusal == b.refusal && a.carried == b.carried;
}

/* both orders; the clock of the second node is the greater, the same or the less */
static int same(uint64_t v, const sent *s, uint64_t w, const sent *t, uint32_t clock)
{
    memcpy(one, before, sizeof one);
    memcpy(other, before, sizeof other);
    df_outcome first = take(one, v, 7000, s), second = take(one, w, clock, t);
    df_outcome early = take(other, w, clock, t), late = take(other, v, 7000, s);
    return memcmp(one, other, sizeof one) == 0 && same_answer(first, late) && same_answer(second, early);
}

static unsigned long pairs(unsigned long *taken)
{
    static const uint32_t CLOCKS[3] = {7001, 7000, 6999};
    unsigned long n = 0;
    for (int i = 0; i < 6 * 7; i++)
        for (int j = 0; j < 6 * 7; j++)
            for (int c = 0; c < 3 && i / 7 != j / 7; c++) {
                if (!same(VEHICLES[i / 7], &SENT[i % 7], VEHICLES[j / 7], &SENT[j % 7], CLOCKS[c])) {
                    printf("vehicle %u, telegram %d, and vehicle %u, telegram %d: not the same in either order\n", (unsigned)VEHICLES[i / 7], i % 7,
                           (unsigned)VEHICLES[j / 7], j % 7);
                    return 0;
                }
                *taken += memcmp(one, before, sizeof one) != 0;
                n++;
            }
    return n;
}

/* what stands in the store now, marshalled into every octet, and once more */
static int twice(void)
{
    for (int x = 0; x < 256; x++) {
        uint8_t data[1] = {(uint8_t)x}, once;
        df_marshalled a = df_marshal(LIST, sizeof LIST, DF_FORM_1, before, octets, 7000, data, sizeof data);
        once = data[0];
        df_marshalled b = df_marshal(LIST, sizeof LIST, DF_FORM_1, before, octets, 7000, data, sizeof data);
        if (data[0] != once || a.refusal != b.refusal || a.lives != b.lives || (octets == sizeof before) != !a.refusal) {
            printf("data %02X: marshalled twice is %02X, once %02X\n", (unsigned)x, (unsigned)data[0], (unsigned)once);
            return 0;
        }
    }
    return 1;
}

int main(void)
{
    unsigned long taken = 0, n = pairs(&taken);
    int ok = n && twice();
    for (uint64_t v = 1; v <= 63; v++)
        take(before, v, 6000, &SENT[v % 3]);
    unsigned long heard = pairs(&taken);
    ok = ok && heard && twice();
    octets--;
    unsigned long cut = pairs(&taken);
    ok = ok && cut && twice();
    if (ok)
        printf("in either order the same: %lu pairs of telegrams, of which %lu change the store; marshalled twice as once: 768 times\n", n + heard + cut, taken);
    return !ok;
}
