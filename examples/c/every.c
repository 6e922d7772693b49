/* Every call of the header once, on an input whose answer documents 01 and 02 give: the header fits the library. Says which call is wrong. */
#include <stdio.h>
#include <string.h>

#include "dustferrule.h"

/* the list L: voltage selection, R1 octet 54 bits 0-3, check 41 2/3, codes 0-6 and 15 known, routed to data bits 0-3 */
static const uint8_t L[44] = {0, 1, 0x01, 0x42, 0, 1, 0x01, 0xA8, 4, 1, 1, 1, 0, 0, 0x13, 0x88, 0, 0, 0, 0, 0, 0,
                              0, 2, 0, 0, 0, 0, 0, 6, 0, 0, 0, 15, 0, 15, 0, 1, 0, 0, 1, 0, 0, 0};

static int bad;

static void expect(const char *call, int right)
{
    if (!right) {
        printf("%s: wrong\n", call);
        bad = 1;
    }
}

static void lists(void)
{
    df_judged j = df_judge(L, sizeof L, DF_FORM_1);
    expect("df_judge", !j.refusal && !j.carried && j.checks == 1 && j.signals == 1 && j.codes == 2 && j.routes == 1 && j.version == 1);
    j = df_judge(L, sizeof L - 1, DF_FORM_1);
    expect("df_judge", j.refusal == 1 && j.carried == 36 && !j.checks && !j.signals && !j.codes && !j.routes && !j.version);
    df_extending e = df_extends(L, sizeof L, DF_FORM_1, L, sizeof L, DF_FORM_1);
    expect("df_extends", !e.refusal && !e.which && !e.carried && e.extends == 1);
    e = df_extends(L, sizeof L, DF_FORM_1, L, sizeof L - 1, DF_FORM_1);
    expect("df_extends", e.refusal == 1 && e.which == 2 && e.carried == 36 && !e.extends);
    df_entry t = df_signal_entry(L, sizeof L, DF_FORM_1, 0);
    expect("df_signal_entry", !t.refusal && !t.carried && t.start == 8 * 53 && t.width == 4 && t.type == 1 && t.check == 1 && t.since == 1);
    expect("df_signal_entry", t.limit == 5000 && !t.replacement && t.place == 8 * 40 + 2);
    t = df_signal_entry(L, sizeof L, DF_FORM_1, 1);
    expect("df_signal_entry", t.refusal == DF_REFUSAL_NO_SUCH_SIGNAL && !t.carried && !t.start && !t.width && !t.limit && !t.place);
    df_found f = df_find_signal(L, sizeof L, DF_FORM_1, 1, 8 * 53);
    expect("df_find_signal", !f.refusal && !f.carried && !f.signal);
    f = df_find_signal(L, sizeof L - 1, DF_FORM_1, 1, 8 * 53);
    expect("df_find_signal", f.refusal == DF_REFUSAL_LIST_ENDS && f.carried == 36 && !f.signal);
    df_place p = df_check_place(8 * 61 + 4);
    expect("df_check_place", !p.refusal && p.place == 8 * 41 + 2);
}

static int refused(df_judged j, uint32_t refusal, uint64_t carried)
{
    return j.refusal == refusal && j.carried == carried && !j.checks && !j.signals && !j.codes && !j.routes && !j.version;
}

/* L in the profile of driving trailers, or with this octet, which may break a rule of it */
static df_judged trailer(size_t at, uint8_t octet)
{
    uint8_t list[sizeof L];
    memcpy(list, L, sizeof L);
    list[at] = octet;
    return df_judge_profile(DF_DRIVING_TRAILER, list, sizeof list, DF_FORM_1);
}

/* L is a driving trailer's, by its R1 signal no plain coach's; the signal stands at 6, the route at 38 */
static void profiles(void)
{
    uint8_t wide[sizeof L + 2], common[sizeof L];
    df_judged j = df_judge_profile(DF_DRIVING_TRAILER, L, sizeof L, DF_FORM_1);
    expect("df_judge_profile", !j.refusal && !j.carried && j.checks == 1 && j.signals == 1 && j.codes == 2 && j.routes == 1 && j.version == 1);
    expect("df_judge_profile, R1", refused(df_judge_profile(DF_PLAIN_COACH, L, sizeof L, DF_FORM_1), DF_REFUSAL_PROFILE, 6));
    expect("df_judge_profile, profile 3", refused(df_judge_profile(3, L, sizeof L, DF_FORM_1), DF_REFUSAL_PROFILE, 6));
    expect("df_judge_profile, no check", refused(trailer(10, 0), DF_REFUSAL_PROFILE, 6));
    expect("df_judge_profile, limit 5001", refused(trailer(15, 0x89), DF_REFUSAL_PROFILE, 6));
    expect("df_judge_profile, replacement 7", refused(trailer(21, 7), DF_REFUSAL_PROFILE, 6));
    /* check 41 4/5 instead, then octet 53, which is under check 41 0/1 */
    expect("df_judge_profile, another check", refused(trailer(3, 0x44), DF_REFUSAL_PROFILE, 6));
    expect("df_judge_profile, another row", refused(trailer(7, 0xA0), DF_REFUSAL_PROFILE, 6));
    expect("df_judge_profile, 16 octets", !trailer(43, 124).refusal);
    expect("df_judge_profile, a bit more", refused(trailer(43, 125), DF_REFUSAL_PROFILE, 38));
    expect("df_judge_profile, list refused", refused(trailer(40, 64), DF_REFUSAL_ENTRY_BROKEN, 38));
    expect("df_judge_profile", refused(df_judge_profile(DF_PLAIN_COACH, L, sizeof L - 1, DF_FORM_1), DF_REFUSAL_LIST_ENDS, 36));
    df_outcome o = df_to_form_2(L, sizeof L, wide, sizeof wide);
    wide[45] = 125;
    j = df_judge_profile(DF_DRIVING_TRAILER, wide, sizeof wide, DF_FORM_2);
    expect("df_judge_profile, form 2", !o.refusal && refused(j, DF_REFUSAL_PROFILE, 40));
    /* as a common signal, octet 6 under check 3 0/1, it is a plain coach's too */
    memcpy(common, L, sizeof L);
    common[2] = 0, common[3] = 16, common[6] = 0, common[7] = 40, common[9] = 0;
    for (uint8_t profile = DF_PLAIN_COACH; profile <= DF_DRIVING_TRAILER; profile++)
        expect("df_judge_profile, common", !df_judge_profile(profile, common, sizeof common, DF_FORM_1).refusal);
}

/* every field is looked at */
static int differs(df_change c, uint32_t breaks, uint64_t key, uint64_t first, uint64_t second)
{
    return !c.refusal && !c.which && !c.carried && c.found == 1 && c.breaks == breaks && c.key == key && c.first == first && c.second == second;
}

static int no_more(df_change c)
{
    return !c.refusal && !c.which && !c.carried && !c.found && !c.breaks && !c.key && !c.first && !c.second;
}

static int ranges(df_range r, uint64_t low, uint64_t high)
{
    return !r.refusal && !r.which && !r.carried && r.found == 1 && r.low == low && r.high == high;
}

static df_range gained(const uint8_t *a, const uint8_t *b, uint64_t key, uint64_t from)
{
    return df_codes_gained(a, sizeof L, DF_FORM_1, b, sizeof L, DF_FORM_1, key, from);
}

/* L beside itself with codes 0-4 and 6-15 known, by 6,000 ms and from vehicle 2; beside a list of nothing; and in form 2 */
static void compared(void)
{
    static const uint8_t none[8];
    enum { KEY = 1 * 1024 + 8 * 53 };
    uint8_t other[sizeof L], wide[sizeof L + 2];
    memcpy(other, L, sizeof L);
    other[14] = 0x17, other[15] = 0x70, other[29] = 4, other[33] = 6, other[40] = 2;
    df_change c = df_signal_change(L, sizeof L, DF_FORM_1, other, sizeof other, DF_FORM_1, 0);
    expect("df_signal_change", differs(c, DF_BREAKS_CODES, KEY, 0, 0));
    c = df_signal_change(L, sizeof L, DF_FORM_1, other, sizeof other, DF_FORM_1, KEY + 1);
    expect("df_signal_change, from behind it", no_more(c));
    c = df_route_change(L, sizeof L, DF_FORM_1, other, sizeof other, DF_FORM_1, 0);
    expect("df_route_change", differs(c, DF_BREAKS_NONE, 0, 0, 0));
    expect("df_codes_gained", ranges(gained(L, other, KEY, 0), 7, 14));
    expect("df_codes_gained, inside the range", !gained(L, other, KEY, 8).found && !gained(L, other, KEY - 1, 0).found);
    expect("df_codes_gained, lost", ranges(gained(other, L, KEY, 0), 5, 5));
    c = df_signal_change(L, sizeof L, DF_FORM_1, none, sizeof none, DF_FORM_1, 0);
    expect("df_signal_change, removed", differs(c, DF_BREAKS_REMOVED, KEY, 0, 0));
    c = df_signal_change(none, sizeof none, DF_FORM_1, L, sizeof L, DF_FORM_1, KEY);
    expect("df_signal_change, added", differs(c, DF_BREAKS_NOT_NEWER, KEY, 0, 0));
    df_outcome o = df_to_form_2(L, sizeof L, wide, sizeof wide);
    wide[22] = 0x40, wide[23] = 0xC0;
    c = df_signal_change(L, sizeof L, DF_FORM_1, wide, sizeof wide, DF_FORM_2, 0);
    expect("df_signal_change, both forms", !o.refusal && no_more(c));
    c = df_route_change(wide, sizeof wide, DF_FORM_2, L, sizeof L, DF_FORM_1, 0);
    expect("df_route_change, both forms", no_more(c));
    c = df_route_change(L, sizeof L, DF_FORM_1, L, sizeof L - 1, DF_FORM_1, 0);
    expect("df_route_change", c.refusal == DF_REFUSAL_LIST_ENDS && c.which == 2 && c.carried == 36 && !c.found);
    df_range r = df_codes_gained(L, sizeof L - 1, DF_FORM_1, none, 0, DF_FORM_1, KEY, 0);
    expect("df_codes_gained", r.refusal == DF_REFUSAL_LIST_ENDS && r.which == 1 && r.carried == 36 && !r.found && !r.low && !r.high);
}

/* L in form 2: two octets more behind its signal, in which 4.3 stands as 0x40C0 */
static void forms(void)
{
    uint8_t wide[sizeof L + 2], back[sizeof L], before[sizeof L] = {0};
    df_outcome o = df_to_form_2(L, sizeof L, wide, sizeof wide);
    expect("df_to_form_2", !o.refusal && !o.carried && !memcmp(wide, L, 22) && !wide[22] && !wide[23] && !memcmp(wide + 24, L + 22, 22));
    o = df_to_form_2(L, sizeof L, wide, sizeof wide - 1);
    expect("df_to_form_2", o.refusal == DF_REFUSAL_FORM_OUTPUT && !o.carried);
    o = df_to_form_1(wide, sizeof wide, back, sizeof back);
    expect("df_to_form_1", !o.refusal && !o.carried && !memcmp(back, L, sizeof L));
    wide[22] = 0x40, wide[23] = 0xC0;
    memset(back, 0, sizeof back);
    o = df_to_form_1(wide, sizeof wide, back, sizeof back - 1);
    expect("df_to_form_1", o.refusal == DF_REFUSAL_SERIAL_SET && !o.carried && !memcmp(back, before, sizeof back));
    df_serial_number s = df_serial(wide, sizeof wide, DF_FORM_2, 0);
    expect("df_serial", !s.refusal && !s.carried && s.serial == 0x40C0);
    s = df_serial(wide, sizeof wide, DF_FORM_2, 1);
    expect("df_serial", s.refusal == DF_REFUSAL_NO_SUCH_SIGNAL && !s.carried && !s.serial);
    s = df_serial(L, sizeof L, DF_FORM_1, 0);
    expect("df_serial", !s.refusal && !s.carried && !s.serial);
    df_judged j = df_judge(wide, sizeof wide, DF_FORM_2);
    expect("df_judge, form 2", !j.refusal && j.checks == 1 && j.signals == 1 && j.codes == 2 && j.routes == 1 && j.version == 1);
    j = df_judge(wide, sizeof wide - 1, DF_FORM_2);
    expect("df_judge, form 2", j.refusal == DF_REFUSAL_LIST_ENDS && j.carried == 38);
    /* any number but 2 is form 1, in which the serial number stands where the codes' count does */
    j = df_judge(L, sizeof L, 0);
    expect("df_judge, form 0", !j.refusal && j.signals == 1);
    j = df_judge(wide, sizeof wide, 3);
    expect("df_judge, form 3", j.refusal == DF_REFUSAL_COUNT_ABOVE && j.carried == 22);
    df_extending e = df_extends(L, sizeof L, DF_FORM_1, wide, sizeof wide, DF_FORM_2);
    expect("df_extends, both forms", !e.refusal && e.extends == 1);
    e = df_extends(wide, sizeof wide, DF_FORM_2, wide, sizeof wide, DF_FORM_1);
    expect("df_extends, both forms", e.refusal == DF_REFUSAL_COUNT_ABOVE && e.which == 2 && e.carried == 22);
}

/* The same answers under L in form 2. */
static void in_form_2(void)
{
    static uint8_t store[DF_STORE_OCTETS];
    uint8_t wide[sizeof L + 2], out[128], data[1] = {0xAB};
    static const uint64_t value = 4;
    static const uint8_t ok = 1;
    df_outcome o = df_to_form_2(L, sizeof L, wide, sizeof wide);
    wide[22] = 0x40, wide[23] = 0xC0;
    df_entry t = df_signal_entry(wide, sizeof wide, DF_FORM_2, 0);
    expect("df_signal_entry, form 2", !o.refusal && !t.refusal && t.start == 8 * 53 && t.limit == 5000 && t.place == 8 * 40 + 2);
    df_found f = df_find_signal(wide, sizeof wide, DF_FORM_2, 1, 8 * 53);
    expect("df_find_signal, form 2", !f.refusal && !f.signal);
    o = df_compose(wide, sizeof wide, DF_FORM_2, 1, &value, 1, &ok, 1, out, sizeof out);
    expect("df_compose, form 2", !o.refusal && out[0] == 0x11 && out[40] == 0x10 && out[53] == 0x40);
    o = df_take(store, sizeof store, 1, 1000, out, sizeof out);
    df_reading r = df_read(wide, sizeof wide, DF_FORM_2, store, sizeof store, 6000, 1, 0);
    expect("df_read, form 2", !o.refusal && !r.refusal && r.reason == 0 && r.value == 4);
    df_shown s = df_show(wide, sizeof wide, DF_FORM_2, store, sizeof store, 6000, 1, 0, DF_CODE);
    expect("df_show, form 2", !s.refusal && s.reason == 0 && s.code == 4 && s.unit == DF_NO_UNIT);
    s = df_show(wide, sizeof wide, DF_FORM_2, store, sizeof store, 6000, 1, 0, DF_SPEED);
    expect("df_show, form 2", s.refusal == DF_REFUSAL_SCALED_KIND && !s.carried && !s.code && s.unit == DF_NO_UNIT);
    df_marshalled m = df_marshal(wide, sizeof wide, DF_FORM_2, store, sizeof store, 6000, data, sizeof data);
    expect("df_marshal, form 2", !m.refusal && m.lives == 1 && data[0] == 0x4B);
    memset(out, 0xEE, sizeof out);
    o = df_relay(wide, sizeof wide, DF_FORM_2, store, sizeof store, 6000, 1, out, sizeof out);
    expect("df_relay, form 2", !o.refusal && out[0] == 0x11 && out[1] == 1 && !out[39] && out[40] == 0x10 && out[53] == 0x40);
}

static void telegrams(void)
{
    static uint8_t store[DF_STORE_OCTETS], before[DF_STORE_OCTETS];
    uint8_t out[128], data[1] = {0xAB};
    uint64_t values[1] = {4};
    uint8_t marks[1] = {1};
    df_outcome o = df_compose(L, sizeof L, DF_FORM_1, 1, values, 1, marks, 1, out, sizeof out);
    expect("df_compose", !o.refusal && !o.carried && out[0] == 0x11 && out[1] == 1 && out[40] == 0x10 && out[53] == 0x40);
    values[0] = 7;
    o = df_compose(L, sizeof L, DF_FORM_1, 1, values, 1, marks, 1, out, sizeof out);
    expect("df_compose", o.refusal == 15 && o.carried == 0 && out[53] == 0x40);
    df_reading r = df_read(L, sizeof L, DF_FORM_1, store, sizeof store, 6000, 1, 0);
    expect("df_read", !r.refusal && r.reason == 2 && !r.carried && r.value == 0);
    o = df_take(store, sizeof store, 1, 1000, out, sizeof out);
    expect("df_take", !o.refusal && !o.carried && memcmp(store, before, sizeof store) != 0);
    /* what was taken, and when: the value is live for 5,000 ms */
    r = df_read(L, sizeof L, DF_FORM_1, store, sizeof store, 6000, 1, 0);
    expect("df_read after df_take", !r.refusal && r.reason == 0 && !r.carried && r.value == 4);
    r = df_read(L, sizeof L, DF_FORM_1, store, sizeof store, 6001, 1, 0);
    expect("df_read after df_take", !r.refusal && r.reason == 3 && !r.carried && r.value == 0);
    memcpy(before, store, sizeof store);
    o = df_take(store, sizeof store - 1, 1, 2000, out, sizeof out);
    expect("df_take", o.refusal == 5 && !o.carried && memcmp(store, before, sizeof store) == 0);
    df_marshalled m = df_marshal(L, sizeof L, DF_FORM_1, store, sizeof store, 6000, data, sizeof data);
    expect("df_marshal", !m.refusal && !m.carried && m.lives == 1 && data[0] == 0x4B);
}

/* L's telegram, parked: expired from 600,001 ms on, and still too old when the counter has come round; a new one is live again */
static void parked(void)
{
    static uint8_t store[DF_STORE_OCTETS], before[DF_STORE_OCTETS];
    static const uint64_t value = 4;
    static const uint8_t ok = 1;
    uint8_t out[128];
    df_compose(L, sizeof L, DF_FORM_1, 1, &value, 1, &ok, 1, out, sizeof out);
    df_take(store, sizeof store, 1, 1000, out, sizeof out);
    memcpy(before, store, sizeof store);
    df_outcome o = df_sweep(store, sizeof store - 1, 601001);
    expect("df_sweep", o.refusal == DF_REFUSAL_STORE_LENGTH && !o.carried && memcmp(store, before, sizeof store) == 0);
    o = df_sweep(store, sizeof store, 601000);
    expect("df_sweep", !o.refusal && !o.carried && memcmp(store, before, sizeof store) == 0);
    df_reading r = df_read(L, sizeof L, DF_FORM_1, store, sizeof store, 2000, 1, 0);
    expect("df_read, unswept", !r.refusal && r.reason == 0 && r.value == 4);
    o = df_sweep(store, sizeof store, 601001);
    before[0] = 2;
    expect("df_sweep", !o.refusal && !o.carried && memcmp(store, before, sizeof store) == 0);
    r = df_read(L, sizeof L, DF_FORM_1, store, sizeof store, 2000, 1, 0);
    expect("df_read after df_sweep", !r.refusal && r.reason == DF_REASON_TOO_OLD && !r.carried && r.value == 0);
    o = df_take(store, sizeof store, 1, 2000, out, sizeof out);
    r = df_read(L, sizeof L, DF_FORM_1, store, sizeof store, 2000, 1, 0);
    expect("df_take after df_sweep", !o.refusal && !r.refusal && r.reason == 0 && r.value == 4);
}

/* two telegrams of a vehicle, the first expired before the second comes and the counter come round between: the gap is that of the two */
static void arrivals(void)
{
    static uint8_t store[DF_STORE_OCTETS];
    static const uint8_t r3[40] = {0x13, 1};
    df_gap_ms g = df_gap(store, sizeof store, 1);
    expect("df_gap", !g.refusal && g.gap == 0);
    df_outcome o = df_take(store, sizeof store, 1, 4294967000u, r3, sizeof r3);
    g = df_gap(store, sizeof store, 1);
    expect("df_gap after df_take", !o.refusal && !g.refusal && g.gap == 4294967000u);
    o = df_sweep(store, sizeof store, 700000);
    g = df_gap(store, sizeof store, 1);
    expect("df_gap after df_sweep", !o.refusal && store[0] == 2 && !g.refusal && g.gap == 4294967000u);
    o = df_take(store, sizeof store, 2, 800000, r3, sizeof r3);
    o = df_take(store, sizeof store, 1, 900000, r3, sizeof r3);
    g = df_gap(store, sizeof store, 1);
    expect("df_gap of two", !o.refusal && !g.refusal && g.gap == 900296);
    g = df_gap(store, sizeof store, 2);
    expect("df_gap of two", !g.refusal && g.gap == 800000);
    g = df_gap(store, 8379, 64);
    expect("df_gap", g.refusal == DF_REFUSAL_STORE_LENGTH && !g.gap);
    g = df_gap(store, sizeof store, 64);
    expect("df_gap", g.refusal == DF_REFUSAL_VEHICLE && !g.gap);
}

/* 64 bits from R1 octet 54 bit 1 on, replacement 010203040506, routed from vehicle 1 to data bits 4-67: nine octets on either side */
static const uint8_t W[30] = {0, 0, 0, 1, 0x01, 0xA9, 64, 1, 0, 1, 0, 0, 0x13, 0x88, 1, 2, 3, 4, 5, 6, 0, 0, 0, 1, 0, 0, 1, 0, 0, 4};

static void wide_fields(void)
{
    static uint8_t store[DF_STORE_OCTETS];
    static const uint8_t replaced[9] = {0xF0, 0, 0, 0x10, 0x20, 0x30, 0x40, 0x50, 0x6F};
    uint8_t out[128], data[9];
    uint64_t value = UINT64_MAX;
    memset(data, 0xFF, sizeof data);
    df_marshalled m = df_marshal(W, sizeof W, DF_FORM_1, store, sizeof store, 0, data, sizeof data);
    expect("df_marshal, 64 bits", !m.refusal && !m.lives && memcmp(data, replaced, sizeof data) == 0);
    df_outcome o = df_compose(W, sizeof W, DF_FORM_1, 1, &value, 1, W, 0, out, sizeof out);
    expect("df_compose, 64 bits", !o.refusal && out[52] == 0 && out[53] == 0x7F && out[54] == 0xFF && out[61] == 0x80 && out[62] == 0);
    o = df_take(store, sizeof store, 1, 0, out, sizeof out);
    df_reading r = df_read(W, sizeof W, DF_FORM_1, store, sizeof store, 0, 1, 0);
    expect("df_read, 64 bits", !o.refusal && !r.refusal && r.reason == 0 && r.value == UINT64_MAX);
    memset(data, 0, sizeof data);
    m = df_marshal(W, sizeof W, DF_FORM_1, store, sizeof store, 0, data, sizeof data);
    expect("df_marshal, 64 bits", !m.refusal && m.lives == 1 && data[0] == 0x0F && data[1] == 0xFF && data[8] == 0xF0);
}

/* check 41 2/3, and under it R1 octets 51-52, replacement 64, and the 15 bits behind them, replacement 9 */
static const uint8_t V[42] = {0, 1, 0x01, 0x42, 0, 2, 0x01, 0x90, 16, 1, 1, 1, 0, 0, 0x13, 0x88, 0, 0, 0, 0, 0, 64,
                              0x01, 0xA0, 15, 1, 1, 1, 0, 0, 0x13, 0x88, 0, 0, 0, 0, 0, 9, 0, 0, 0, 0};

/* every field is looked at, the value by its bits: zero is +0 */
static int shows(df_shown s, uint32_t reason, uint64_t code, uint32_t unit, float value)
{
    return !s.refusal && s.reason == reason && !s.carried && s.code == code && s.unit == unit && !memcmp(&s.value, &value, sizeof value);
}

static int refuses(df_shown s, uint32_t refusal, uint64_t carried)
{
    static const float zero = 0.0f;
    return s.refusal == refusal && !s.reason && s.carried == carried && !s.code && !s.unit && !memcmp(&s.value, &zero, sizeof zero);
}

/* both signals of vehicle 1, with this mark, at 1000 */
static void says(uint8_t *store, uint64_t first, uint64_t second, uint8_t mark)
{
    uint8_t out[128];
    uint64_t values[2] = {first, second};
    df_outcome o = df_compose(V, sizeof V, DF_FORM_1, 1, values, 2, &mark, 1, out, sizeof out);
    expect("df_compose, to be shown", !o.refusal);
    o = df_take(store, DF_STORE_OCTETS, 1, 1000, out, sizeof out);
    expect("df_take, to be shown", !o.refusal);
}

static df_shown show(const uint8_t *store, uint32_t clock, uint64_t signal, uint8_t kind)
{
    return df_show(V, sizeof V, DF_FORM_1, store, DF_STORE_OCTETS, clock, 1, signal, kind);
}

static void shown(void)
{
    static uint8_t store[DF_STORE_OCTETS];
    expect("df_show, never heard", shows(show(store, 6000, 0, DF_CURRENT), DF_REASON_NEVER_HEARD, 0, DF_AMPERE, 3.90625f));
    says(store, 16384, 0, 1);
    expect("df_show, a speed", shows(show(store, 6000, 0, DF_SPEED), DF_REASON_LIVE_OK, 0, DF_KM_PER_HOUR, 256.0f));
    expect("df_show, too old", shows(show(store, 6001, 0, DF_SPEED), DF_REASON_TOO_OLD, 0, DF_KM_PER_HOUR, 1.0f));
    says(store, 49152, 0, 2);
    expect("df_show, a percentage", shows(show(store, 6000, 0, DF_PERCENTAGE), DF_REASON_LIVE_FORCED, 0, DF_PERCENT, 300.0f));
    expect("df_show, signed", shows(show(store, 6000, 0, DF_SIGNED_PERCENTAGE), DF_REASON_LIVE_FORCED, 0, DF_PERCENT, -100.0f));
    expect("df_show, a current", shows(show(store, 6000, 0, DF_CURRENT), DF_REASON_LIVE_FORCED, 0, DF_AMPERE, 3000.0f));
    expect("df_show, a code", shows(show(store, 6000, 0, DF_CODE), DF_REASON_LIVE_FORCED, 49152, DF_NO_UNIT, 0.0f));
    says(store, 0, 32767, 0);
    expect("df_show, error", shows(show(store, 6000, 0, DF_SIGNED_PERCENTAGE), DF_REASON_MARK_ERROR, 0, DF_PERCENT, 0.390625f));
    says(store, 0, 32767, 1);
    expect("df_show, zero", shows(show(store, 6000, 0, DF_SIGNED_PERCENTAGE), DF_REASON_LIVE_OK, 0, DF_PERCENT, 0.0f));
    /* 15 bits: the code alone, for every number that is no kind too */
    expect("df_show, 15 bits", shows(show(store, 6000, 1, DF_CODE), DF_REASON_LIVE_OK, 32767, DF_NO_UNIT, 0.0f));
    expect("df_show, kind 5", shows(show(store, 6000, 1, 5), DF_REASON_LIVE_OK, 32767, DF_NO_UNIT, 0.0f));
    expect("df_show, kind 255", shows(show(store, 6001, 1, 255), DF_REASON_TOO_OLD, 9, DF_NO_UNIT, 0.0f));
    for (uint8_t kind = DF_SPEED; kind <= DF_CURRENT; kind++)
        expect("df_show, 15 bits", refuses(show(store, 6001, 1, kind), DF_REFUSAL_SCALED_KIND, 0));
    /* 26 comes behind every other refusal */
    expect("df_show", refuses(show(store, 6000, 2, DF_SPEED), DF_REFUSAL_NO_SUCH_SIGNAL, 0));
    df_shown s = df_show(V, sizeof V, DF_FORM_1, store, sizeof store, 6000, 64, 1, DF_SPEED);
    expect("df_show", refuses(s, DF_REFUSAL_VEHICLE, 0));
    s = df_show(V, sizeof V, DF_FORM_1, store, sizeof store - 1, 6000, 64, 1, DF_SPEED);
    expect("df_show", refuses(s, DF_REFUSAL_STORE_LENGTH, 0));
    s = df_show(V, sizeof V - 1, DF_FORM_1, store, sizeof store - 1, 6000, 64, 1, DF_SPEED);
    expect("df_show", refuses(s, DF_REFUSAL_LIST_ENDS, 40));
}

/* what is lent for V's signals: room for three vehicles, EE wherever nothing is read */
static uint64_t into[6];
static uint8_t why[6];

/* the first so many entries are these and the others EE, and so are all again */
static int gathered(size_t entries, const uint64_t *values, const char *reasons)
{
    uint64_t v[6];
    uint8_t r[6];
    memset(v, 0xEE, sizeof v), memset(r, 0xEE, sizeof r);
    memcpy(v, values, entries * sizeof *values), memcpy(r, reasons, entries);
    int same = !memcmp(into, v, sizeof v) && !memcmp(why, r, sizeof r);
    memset(into, 0xEE, sizeof into), memset(why, 0xEE, sizeof why);
    return same;
}

static df_outcome all_of(const uint8_t *store, uint32_t clock, uint64_t vehicle, size_t values, size_t reasons)
{
    return df_read_all(V, sizeof V, DF_FORM_1, store, DF_STORE_OCTETS, clock, vehicle, into, values, why, reasons);
}

static df_outcome all_up_to(const uint8_t *store, uint32_t clock, uint64_t last, size_t values, size_t reasons)
{
    return df_read_train(V, sizeof V, DF_FORM_1, store, DF_STORE_OCTETS, clock, last, into, values, why, reasons);
}

/* vehicle 1 says both signals of V, forced, vehicle 2 was never heard, vehicle 3 with an R2 */
static void cycle(void)
{
    static uint8_t store[DF_STORE_OCTETS], reasons[63];
    static const uint8_t r2[128] = {0x12, 1}, nothing[8];
    static const uint64_t read[6] = {16384, 5, 64, 9, 64, 9};
    static uint64_t values[63];
    uint8_t wide[sizeof V + 4];
    memset(into, 0xEE, sizeof into), memset(why, 0xEE, sizeof why), memset(values, 0xEE, sizeof values);
    says(store, 16384, 5, 2);
    df_outcome o = df_take(store, sizeof store, 3, 1000, r2, sizeof r2);
    expect("df_take, to be read", !o.refusal);
    o = all_of(store, 6000, 1, 2, 2);
    expect("df_read_all", !o.refusal && !o.carried && gathered(2, read, "\1\1"));
    o = all_of(store, 6001, 1, 2, 2);
    expect("df_read_all, too old", !o.refusal && !o.carried && gathered(2, read + 2, "\3\3"));
    o = all_of(store, 6000, 3, 2, 2);
    expect("df_read_all, another type", !o.refusal && !o.carried && gathered(2, read + 4, "\4\4"));
    o = all_up_to(store, 6000, 3, 6, 6);
    expect("df_read_train", !o.refusal && !o.carried && gathered(6, read, "\1\1\2\2\4\4"));
    o = all_up_to(store, 6000, 1, 2, 2);
    expect("df_read_train, one vehicle", !o.refusal && !o.carried && gathered(2, read, "\1\1"));
    o = df_read_train(L, sizeof L, DF_FORM_1, store, sizeof store, 6000, 63, values, 63, reasons, 63);
    expect("df_read_train, 63 vehicles", !o.refusal && !values[0] && reasons[0] == DF_REASON_LIVE_FORCED);
    expect("df_read_train, 63 vehicles", reasons[2] == DF_REASON_TYPE_DOES_NOT_CARRY && !values[62] && reasons[62] == DF_REASON_NEVER_HEARD);
    o = df_read_all(nothing, sizeof nothing, DF_FORM_1, store, sizeof store, 6000, 63, into, 0, why, 0);
    expect("df_read_all, no signal", !o.refusal && !o.carried && gathered(0, read, ""));
    o = df_to_form_2(V, sizeof V, wide, sizeof wide);
    wide[22] = 0x40, wide[23] = 0xC0;
    expect("df_to_form_2, to be read", !o.refusal);
    o = df_read_all(wide, sizeof wide, DF_FORM_2, store, sizeof store, 6000, 1, into, 2, why, 2);
    expect("df_read_all, form 2", !o.refusal && gathered(2, read, "\1\1"));
    o = df_read_train(wide, sizeof wide, DF_FORM_2, store, sizeof store, 6000, 2, into, 4, why, 4);
    expect("df_read_train, form 2", !o.refusal && gathered(4, read, "\1\1\2\2"));
}

/* nothing is read */
static int unread_all(df_outcome o, uint32_t refusal, uint64_t carried)
{
    return o.refusal == refusal && o.carried == carried && gathered(0, into, "");
}

/* each refusal before all that come behind it */
static void no_cycle(void)
{
    static uint8_t store[DF_STORE_OCTETS];
    expect("df_read_all, a value too few", unread_all(all_of(store, 0, 1, 1, 2), DF_REFUSAL_VALUES_OR_MARKS, 0));
    expect("df_read_all, a value too many", unread_all(all_of(store, 0, 1, 3, 2), DF_REFUSAL_VALUES_OR_MARKS, 0));
    expect("df_read_all, a reason too few", unread_all(all_of(store, 0, 63, 2, 1), DF_REFUSAL_VALUES_OR_MARKS, 0));
    expect("df_read_all, a reason too many", unread_all(all_of(store, 0, 63, 2, 3), DF_REFUSAL_VALUES_OR_MARKS, 0));
    expect("df_read_all, vehicle 64", unread_all(all_of(store, 0, 64, 0, 0), DF_REFUSAL_VEHICLE, 0));
    expect("df_read_train, as for two", unread_all(all_up_to(store, 0, 3, 4, 4), DF_REFUSAL_VALUES_OR_MARKS, 0));
    expect("df_read_train, as for three", unread_all(all_up_to(store, 0, 2, 6, 6), DF_REFUSAL_VALUES_OR_MARKS, 0));
    expect("df_read_train, a reason too few", unread_all(all_up_to(store, 0, 3, 6, 5), DF_REFUSAL_VALUES_OR_MARKS, 0));
    expect("df_read_train, nobody", unread_all(all_up_to(store, 0, 0, 0, 0), DF_REFUSAL_VEHICLE, 0));
    expect("df_read_train, vehicle 257", unread_all(all_up_to(store, 0, 257, 2, 2), DF_REFUSAL_VEHICLE, 0));
    df_outcome o = df_read_all(V, sizeof V, DF_FORM_1, store, sizeof store - 1, 0, 64, into, 1, why, 1);
    expect("df_read_all, no store", unread_all(o, DF_REFUSAL_STORE_LENGTH, 0));
    o = df_read_train(V, sizeof V, DF_FORM_1, store, sizeof store - 1, 0, 64, into, 1, why, 1);
    expect("df_read_train, no store", unread_all(o, DF_REFUSAL_STORE_LENGTH, 0));
    o = df_read_all(V, sizeof V - 1, DF_FORM_1, store, sizeof store - 1, 0, 64, into, 1, why, 1);
    expect("df_read_all, list refused", unread_all(o, DF_REFUSAL_LIST_ENDS, 40));
    o = df_read_train(V, sizeof V - 1, DF_FORM_1, store, sizeof store - 1, 0, 64, into, 1, why, 1);
    expect("df_read_train, list refused", unread_all(o, DF_REFUSAL_LIST_ENDS, 40));
}

static df_outcome relay(const uint8_t *list, const uint8_t *store, uint32_t clock, uint64_t vehicle, uint8_t *out, size_t len)
{
    return df_relay(list, sizeof L, DF_FORM_1, store, DF_STORE_OCTETS, clock, vehicle, out, len);
}

/* an R1 of version 9, forced, with bits set that L does not know, passed on under L: in time, and a millisecond later */
static void passed_on(void)
{
    static uint8_t store[DF_STORE_OCTETS];
    uint8_t heard[128], out[128], wanted[128] = {0x11, 1}, other[sizeof L];
    memset(heard, 0xFF, sizeof heard);
    heard[0] = 0x11, heard[1] = 9, heard[40] = 0xEF, heard[53] = 0x4F;
    df_outcome o = df_take(store, sizeof store, 1, 1000, heard, sizeof heard);
    expect("df_take, to be relayed", !o.refusal);
    wanted[40] = 0x20, wanted[53] = 0x40;
    o = relay(L, store, 6000, 1, out, sizeof out);
    expect("df_relay", !o.refusal && !o.carried && !memcmp(out, wanted, sizeof out));
    wanted[40] = wanted[53] = 0;
    o = relay(L, store, 6001, 1, out, sizeof out);
    expect("df_relay, too old", !o.refusal && !o.carried && !memcmp(out, wanted, sizeof out));
    /* a replacement of 7 is no code of L: it may not go out */
    memcpy(other, L, sizeof L);
    other[21] = 7;
    memset(out, 0xEE, sizeof out), memset(wanted, 0xEE, sizeof wanted);
    o = relay(other, store, 6001, 1, out, sizeof out - 1);
    expect("df_relay", o.refusal == DF_REFUSAL_VALUE_UNFIT && !o.carried && !memcmp(out, wanted, sizeof out));
    o = relay(other, store, 6000, 1, out, sizeof out - 1);
    expect("df_relay", o.refusal == DF_REFUSAL_OUTPUT_LENGTH && !o.carried && !memcmp(out, wanted, sizeof out));
    o = relay(L, store, 6000, 2, out, sizeof out);
    expect("df_relay, never heard", o.refusal == DF_REFUSAL_TELEGRAM_TYPE && !o.carried && !memcmp(out, wanted, sizeof out));
    o = relay(L, store, 6000, 64, out, sizeof out);
    expect("df_relay", o.refusal == DF_REFUSAL_VEHICLE && !o.carried && !memcmp(out, wanted, sizeof out));
    o = df_relay(L, sizeof L, DF_FORM_1, store, sizeof store - 1, 6000, 64, out, sizeof out);
    expect("df_relay", o.refusal == DF_REFUSAL_STORE_LENGTH && !o.carried && !memcmp(out, wanted, sizeof out));
    o = df_relay(L, sizeof L - 1, DF_FORM_1, store, sizeof store - 1, 6000, 64, out, sizeof out);
    expect("df_relay", o.refusal == DF_REFUSAL_LIST_ENDS && o.carried == 36 && !memcmp(out, wanted, sizeof out));
}

static void train(void)
{
    const uint8_t marks[3] = {1 | 4, 2, 2 | 16}, request[9] = {1, 2, 3, 4, 5, 6, 0x10, 0x07, 9}, head[6] = {6, 5, 4, 3, 2, 1};
    uint8_t out[10] = {0};
    df_members m = df_resolve(marks, sizeof marks, 67);
    expect("df_resolve", !m.refusal && m.size == 2 && m.set == (1u << 2 | 1u << 3));
    m = df_resolve(marks, sizeof marks, 65);
    expect("df_resolve", m.refusal == 20 && !m.size && !m.set);
    df_e_reading e = df_e_read(request, sizeof request);
    expect("df_e_read", !e.refusal && e.code == 0x1007 && e.report == 0 && e.status == 9);
    df_outcome o = df_e_answer(request, sizeof request, head, sizeof head, 7, out, sizeof out);
    expect("df_e_answer", !o.refusal && !o.carried && !memcmp(out, "\6\5\4\3\2\1\x1A\x07\7\0", 10));
}

/* an engine, a coach, a sleeping car and an engine that is led */
static const uint8_t records[4 * 56] = {[23] = 0x80, [56 + 49] = 0x40, [112 + 50] = 0x08, [168 + 23] = 0x40, [168 + 49] = 0x80};

/* so many octets of the records, and these pairs, over octets of which those that are not written stay */
static int christens(size_t octets, const char *pairs, size_t len, uint32_t refusal, const char *wanted)
{
    uint8_t marks[63], after[63];
    memset(marks, 0xEE, sizeof marks), memset(after, 0xEE, sizeof after), memcpy(after, wanted, refusal ? 0 : len);
    df_christened c = df_christen(records, octets, (const uint8_t *)pairs, len, marks);
    return c.refusal == refusal && c.vehicles == (refusal ? 0 : len) && !memcmp(marks, after, sizeof marks);
}

static int property(uint32_t row, uint32_t found, uint32_t level, uint32_t octet, uint32_t bit, uint32_t holds)
{
    df_property_row p = df_property(records + 112, row);
    return p.found == found && p.level == level && p.octet == octet && p.bit == bit && p.holds == holds;
}

static void christened(void)
{
    static const uint8_t many[64 * 56] = {0};
    uint8_t marks[63] = {0};
    expect("df_christen", christens(224, "\xF7\xF6\0\x08", 4, 0, "\x05\x02\x12\x0E") && christens(56, "\0", 1, 0, "\x04"));
    expect("df_christen, a pair too few", christens(224, "\1\1\0", 3, DF_REFUSAL_RECORDS_MISFIT, ""));
    expect("df_christen, no record and a pair", christens(0, "\0", 1, DF_REFUSAL_RECORDS_MISFIT, ""));
    expect("df_christen, a record and no pair", christens(56, "", 0, DF_REFUSAL_RECORDS_MISFIT, ""));
    expect("df_christen, an octet too few", christens(111, "\1\1", 2, DF_REFUSAL_RECORDS_MISFIT, ""));
    expect("df_christen, an octet too many", christens(113, "\1\1", 2, DF_REFUSAL_RECORDS_MISFIT, ""));
    expect("df_christen, nobody", christens(0, "", 0, DF_REFUSAL_CONSIST_LENGTH, ""));
    expect("df_christen, two lead", christens(112, "\1\1", 2, DF_REFUSAL_CONSIST_RULE, ""));
    expect("df_christen, led without traction", christens(112, "\0\x08", 2, DF_REFUSAL_CONSIST_RULE, ""));
    df_christened c = df_christen(many, 64 * 56, many, 64, marks);
    expect("df_christen, 64 vehicles", c.refusal == DF_REFUSAL_CONSIST_LENGTH && !c.vehicles);
    c = df_christen(records, sizeof records, (const uint8_t *)"\1\0\0\x08", 4, marks);
    df_members m = df_resolve(marks, c.vehicles, 70);
    expect("df_christen, resolved", !m.refusal && m.size == 2 && m.set == (1u << 1 | 1u << 4));
    expect("df_property", property(13, 1, DF_VEHICLE, 51, 4, 1) && property(38, 1, DF_GATEWAY, 24, 0, 0) && property(142, 1, DF_GATEWAY, 23, 7, 0));
    expect("df_property, no row", property(0, 0, 0, 0, 0, 0) && property(133, 0, 0, 0, 0, 0) && property(UINT32_MAX, 0, 0, 0, 0, 0));
}

/* octet 20 bits 4 and 5, the left door under octet 3 bits 0-1, the right under bits 2-3, each for 5,000 ms */
static const uint8_t D[44] = {0, 2, 0, 16, 0, 18, 0, 2, 0, 156, 1, 0, 1, 1, 0, 0, 0x13, 0x88, 0, 0, 0, 0, 0, 0,
                              0, 157, 1, 0, 2, 1, 0, 0, 0x13, 0x88, 0, 0, 0, 0, 0, 0, 0, 0, 0, 0};

/* every field is looked at */
static int desk(df_doors_summary d, uint32_t left, uint64_t left_set, uint32_t left_size, uint32_t right, uint64_t right_set, uint32_t right_size)
{
    return !d.refusal && !d.carried && d.left == left && d.left_set == left_set && d.left_size == left_size && d.right == right &&
           d.right_set == right_set && d.right_size == right_size;
}

static int no_desk(df_doors_summary d, uint32_t refusal, uint64_t carried)
{
    return d.refusal == refusal && d.carried == carried && !d.left && !d.left_set && !d.left_size && !d.right && !d.right_set && !d.right_size;
}

/* a vehicle heard at 1000 with these octets 3 and 20 */
static void door_says(uint8_t *store, uint64_t vehicle, uint8_t octet_3, uint8_t octet_20)
{
    uint8_t r3[40] = {0x13, 1, octet_3};
    r3[19] = octet_20;
    expect("df_take, of doors", !df_take(store, DF_STORE_OCTETS, vehicle, 1000, r3, sizeof r3).refusal);
}

static df_doors_summary at_desk(const uint8_t *store, uint32_t clock, const char *marks, size_t len, uint64_t address)
{
    return df_doors(D, sizeof D, DF_FORM_1, store, DF_STORE_OCTETS, clock, (const uint8_t *)marks, len, address);
}

/* an engine, a coach and a sleeping car */
static const char three[3] = {1 | 4, 2, 2 | 16};

static void doors(void)
{
    static uint8_t store[DF_STORE_OCTETS];
    uint8_t many[63] = {0}, wide[sizeof D + 4];
    expect("df_doors, never heard", desk(at_desk(store, 6000, three, 3, 66), DF_UNKNOWN, 14, 3, DF_UNKNOWN, 14, 3));
    df_doors_summary d = df_doors(D, sizeof D, DF_FORM_1, store, sizeof store, 6000, many, sizeof many, 66);
    expect("df_doors, 63 vehicles", desk(d, DF_UNKNOWN, UINT64_MAX - 1, 63, DF_UNKNOWN, UINT64_MAX - 1, 63));
    door_says(store, 1, 0x50, 0x0C), door_says(store, 2, 0xA0, 0x0C), door_says(store, 3, 0x50, 0x0C);
    expect("df_doors, locked", desk(at_desk(store, 6000, three, 3, 66), DF_LOCKED, 0, 0, DF_LOCKED, 0, 0));
    expect("df_doors, too old", desk(at_desk(store, 6001, three, 3, 66), DF_UNKNOWN, 14, 3, DF_UNKNOWN, 14, 3));
    door_says(store, 3, 0x50, 0x08);
    expect("df_doors, open", desk(at_desk(store, 6000, three, 3, 66), DF_LOCKED, 0, 0, DF_OPEN, 8, 1));
    expect("df_doors, without it", desk(at_desk(store, 6000, three, 2, 66), DF_LOCKED, 0, 0, DF_LOCKED, 0, 0));
    /* error on the left, forced open on the right */
    door_says(store, 1, 0x20, 0x08);
    expect("df_doors, both", desk(at_desk(store, 6000, three, 3, 66), DF_UNKNOWN, 2, 1, DF_OPEN, 2 | 8, 2));
    expect("df_doors, one never heard", desk(at_desk(store, 6000, "\5\2\22\2", 4, 66), DF_UNKNOWN, 2 | 16, 2, DF_OPEN, 2 | 8 | 16, 3));
    expect("df_doors, the coaches", desk(at_desk(store, 6000, three, 3, 67), DF_LOCKED, 0, 0, DF_OPEN, 8, 1));
    expect("df_doors, vehicle 2", desk(at_desk(store, 6000, three, 3, 2), DF_LOCKED, 0, 0, DF_LOCKED, 0, 0));
    df_outcome o = df_to_form_2(D, sizeof D, wide, sizeof wide);
    wide[24] = 1;
    d = df_doors(wide, sizeof wide, DF_FORM_2, store, sizeof store, 6000, (const uint8_t *)three, 3, 66);
    expect("df_doors, form 2", !o.refusal && desk(d, DF_UNKNOWN, 2, 1, DF_OPEN, 2 | 8, 2));
}

/* each refusal before all that come behind it */
static void no_doors(void)
{
    static uint8_t store[DF_STORE_OCTETS];
    static const uint8_t none[1] = {0};
    expect("df_doors, nobody", no_desk(at_desk(store, 6000, "", 0, 68), DF_REFUSAL_CONSIST_LENGTH, 0));
    expect("df_doors, two lead", no_desk(at_desk(store, 6000, "\1\1", 2, 68), DF_REFUSAL_CONSIST_RULE, 0));
    expect("df_doors, address 68", no_desk(at_desk(store, 6000, three, 3, 68), DF_REFUSAL_ADDRESS_UNLISTED, 0));
    expect("df_doors, nobody led", no_desk(at_desk(store, 6000, three, 3, 65), DF_REFUSAL_NOBODY_MEETS, 0));
    df_doors_summary d = df_doors(L, sizeof L, DF_FORM_1, store, sizeof store, 6000, none, 0, 68);
    expect("df_doors, no door", no_desk(d, DF_REFUSAL_DOOR_MISSING, 0));
    d = df_doors(L, sizeof L, DF_FORM_1, store, sizeof store - 1, 6000, none, 0, 68);
    expect("df_doors, no store", no_desk(d, DF_REFUSAL_STORE_LENGTH, 0));
    d = df_doors(L, sizeof L - 1, DF_FORM_1, store, sizeof store - 1, 6000, none, 0, 68);
    expect("df_doors, list refused", no_desk(d, DF_REFUSAL_LIST_ENDS, 36));
}

/* two signals of four bits in R1 octet 54, the second of version 2, routed from vehicle 1 to bits 0-3 of the first data octet and of the second */
static const uint8_t T[52] = {0, 0, 0, 2, 0x01, 0xA8, 4, 1, 0, 1, 0, 0, 0x13, 0x88, 0, 0, 0, 0, 0, 0, 0x01, 0xAC, 4, 1, 0, 2,
                              0, 0, 0x13, 0x88, 0, 0, 0, 0, 0, 0, 0, 0, 0, 2, 0, 0, 1, 0, 0, 0, 0, 1, 1, 0, 0, 8};

/* every field is looked at */
static int right(df_checked c)
{
    return !c.refusal && c.right == 1 && !c.carried && !c.octet && !c.bit && !c.in_route && !c.route && !c.reason;
}

static int wrong(df_checked c, uint64_t octet, uint32_t bit, uint32_t in_route, uint64_t route, uint32_t reason)
{
    return !c.refusal && !c.right && !c.carried && c.octet == octet && c.bit == bit && c.in_route == in_route && c.route == route &&
           c.reason == reason;
}

static int unchecked(df_checked c, uint32_t refusal, uint64_t carried)
{
    return c.refusal == refusal && !c.right && c.carried == carried && !c.octet && !c.bit && !c.in_route && !c.route && !c.reason;
}

/* a step of two octets, the data before AB CD, of which 4B 0D is made while vehicle 1's 4 is live */
static df_checked two(const uint8_t *store, size_t steps, const char *last, uint32_t clock, const char *after)
{
    return df_check_step(T, sizeof T, DF_FORM_1, steps, (const uint8_t *)last, 2, store, DF_STORE_OCTETS, clock, (const uint8_t *)"\xAB\xCD", 2,
                         (const uint8_t *)after, 2);
}

static void recorded(void)
{
    static uint8_t store[DF_STORE_OCTETS], before[300], after[300];
    uint8_t r1[128] = {0x11, 1}, wide[sizeof T + 4];
    r1[53] = 0x45;
    expect("df_take, to be recorded", !df_take(store, sizeof store, 1, 1000, r1, sizeof r1).refusal);
    expect("df_check_step", right(two(store, 0, "\0\0", 6000, "\x4B\x0D")) && right(two(store, 1, "\xAB\xCD", 6000, "\x4B\x0D")));
    expect("df_check_step, the 1,000th", right(two(store, 999, "\xAB\xCD", 6000, "\x4B\x0D")));
    expect("df_check_step, in a route", wrong(two(store, 0, "\0\0", 6000, "\x5B\x0D"), 0, 3, 1, 0, DF_REASON_LIVE_OK));
    expect("df_check_step, in another", wrong(two(store, 0, "\0\0", 6000, "\x4B\x8D"), 1, 0, 1, 1, DF_REASON_SINCE_ABOVE));
    expect("df_check_step, in none", wrong(two(store, 0, "\0\0", 6000, "\x4A\x0C"), 0, 7, 0, 0, 0));
    expect("df_check_step, too old", wrong(two(store, 0, "\0\0", 6001, "\x4B\x0D"), 0, 1, 1, 0, DF_REASON_TOO_OLD));
    /* behind all that routes can reach */
    df_checked c = df_check_step(T, sizeof T, DF_FORM_1, 1, before, 300, store, sizeof store, 6001, before, 300, after, 300);
    expect("df_check_step, 300 octets", right(c));
    after[299] = 1;
    c = df_check_step(T, sizeof T, DF_FORM_1, 1, before, 300, store, sizeof store, 6001, before, 300, after, 300);
    expect("df_check_step, the last bit", wrong(c, 299, 7, 0, 0, 0));
    /* 64 bits over nine octets, the last of which has four of them: the replacement ends in 6 */
    c = df_check_step(W, sizeof W, DF_FORM_1, 0, after, 0, store, sizeof store, 6001, before, 9, (const uint8_t *)"\0\0\0\x10\x20\x30\x40\x50\x70", 9);
    expect("df_check_step, the ninth octet", wrong(c, 8, 3, 1, 0, DF_REASON_TOO_OLD));
    df_outcome o = df_to_form_2(T, sizeof T, wide, sizeof wide);
    c = df_check_step(wide, sizeof wide, DF_FORM_2, 0, before, 0, store, sizeof store, 6000, before, 2, (const uint8_t *)"\x40\x10", 2);
    expect("df_check_step, form 2", !o.refusal && wrong(c, 1, 3, 1, 1, DF_REASON_SINCE_ABOVE));
}

/* each refusal before all that come behind it */
static void unrecorded(void)
{
    static uint8_t store[DF_STORE_OCTETS];
    static const uint8_t data[3] = {0xAB, 0xCD, 0}, none[1] = {0};
    expect("df_check_step, another bit", unchecked(two(store, 1, "\xAB\xCC", 0, "\xFF\xFF"), DF_REFUSAL_STEP_BROKEN, 0));
    df_checked c = df_check_step(T, sizeof T, DF_FORM_1, 999, data, 3, store, sizeof store, 0, data, 2, data, 2);
    expect("df_check_step, an octet more", unchecked(c, DF_REFUSAL_STEP_BROKEN, 0));
    c = df_check_step(T, sizeof T, DF_FORM_1, 1, none, 0, store, sizeof store, 0, data, 2, data, 3);
    expect("df_check_step, two lengths", unchecked(c, DF_REFUSAL_DATA_LENGTHS, 0));
    c = df_check_step(T, sizeof T, DF_FORM_1, 1, none, 0, store, sizeof store, 0, data, 1, data, 2);
    expect("df_check_step, data short", unchecked(c, DF_REFUSAL_DATA_SHORT, 0));
    c = df_check_step(T, sizeof T, DF_FORM_1, 1, none, 0, store, sizeof store - 1, 0, data, 1, data, 2);
    expect("df_check_step, no store", unchecked(c, DF_REFUSAL_STORE_LENGTH, 0));
    c = df_check_step(T, sizeof T - 1, DF_FORM_1, 1, none, 0, store, sizeof store - 1, 0, data, 1, data, 2);
    expect("df_check_step, list refused", unchecked(c, DF_REFUSAL_LIST_ENDS, 38));
    c = df_check_step(T, sizeof T - 1, DF_FORM_1, 1000, none, 0, store, sizeof store - 1, 0, data, 1, data, 2);
    expect("df_check_step, a 1,001st", unchecked(c, DF_REFUSAL_STEPS_TOO_MANY, 0));
    expect("df_check_step, far more", unchecked(two(store, SIZE_MAX, "\xAB\xCD", 0, "\x0B\x0D"), DF_REFUSAL_STEPS_TOO_MANY, 0));
}

/* octets 1-6 and 9-20, and two texts: "test" under F3, and an empty one under F8 */
static const uint8_t front[6] = {1, 2, 3, 4, 5, 6}, behind[12] = {9, 10, 11, 12, 13, 14, 15, 16, 17, 18, 19, 20}, keys[3] = {3, 8, 8};
static const uint16_t lengths[3] = {4, 0, 0};
static const uint8_t remedy[46] = {1, 2, 3, 4, 5, 6, 0x8A, 8, 9, 10, 11, 12, 13, 14, 15, 16, 17, 18, 19, 20, 4, 7, 1, 2, 0, 0, 0, 0, 0, 0,
                                   0, 10, 3, 0, 0, 4, 't', 'e', 's', 't', 0, 6, 8, 0, 0, 0};

/* the telegram with another octet, and so many of its octets; every field of the refusal is looked at */
static int unread(size_t at, uint8_t octet, size_t len, uint32_t refusal)
{
    uint8_t telegram[sizeof remedy + 1] = {0};
    memcpy(telegram, remedy, sizeof remedy);
    telegram[at] = octet;
    df_remedies r = df_read_remedies(telegram, len);
    df_remedy b = df_remedy_block(telegram, len, 0);
    return r.refusal == refusal && !r.language && !r.ordered && !r.count && b.refusal == refusal && !b.found && !b.key && !b.at && !b.size;
}

static int block(size_t number, uint32_t found, uint32_t key, uint64_t at, uint64_t size)
{
    df_remedy b = df_remedy_block(remedy, sizeof remedy, number);
    return !b.refusal && b.found == found && b.key == key && b.at == at && b.size == size;
}

static void remedies(void)
{
    static uint8_t report[2111] = {0, 0, 0, 0, 0, 0, 0x8A, 8, 7};
    df_remedies r = df_read_remedies(remedy, sizeof remedy);
    expect("df_read_remedies", !r.refusal && r.language == 0x0407 && r.ordered == 1 && r.count == 2);
    expect("df_remedy_block", block(0, 1, 3, 36, 4) && block(1, 1, 8, 46, 0));
    expect("df_remedy_block, no more", block(2, 0, 0, 0, 0) && block(SIZE_MAX, 0, 0, 0, 0));
    expect("df_read_remedies, 29 octets", unread(6, 0, 29, DF_REFUSAL_E_LENGTH));
    expect("df_read_remedies, another code", unread(7, 9, sizeof remedy - 1, DF_REFUSAL_REMEDY_FIELD));
    expect("df_read_remedies, octet 23", unread(22, 2, sizeof remedy + 1, DF_REFUSAL_REMEDY_FIELD));
    expect("df_read_remedies, past the end", unread(42, 3, sizeof remedy - 1, DF_REFUSAL_BLOCK_PAST));
    expect("df_read_remedies, an octet after", unread(0, 0, sizeof remedy + 1, DF_REFUSAL_BLOCK_PAST));
    expect("df_read_remedies, key 9", unread(32, 9, sizeof remedy - 1, DF_REFUSAL_REMEDY_FIELD));
    expect("df_read_remedies, key twice", unread(42, 3, sizeof remedy + 1, DF_REFUSAL_KEY_TWICE));
    /* this code alone has more than 1,024 octets */
    df_e_reading e = df_e_read(report, 2110);
    expect("df_e_read, 2110 octets", !e.refusal && e.code == 0x8A08 && e.report == 1 && e.status == 7);
    e = df_e_read(report, 2111);
    expect("df_e_read, 2111 octets", e.refusal == DF_REFUSAL_E_LENGTH && !e.code && !e.report && !e.status);
    report[7] = 2, e = df_e_read(report, 1025);
    expect("df_e_read, another code", e.refusal == DF_REFUSAL_E_LENGTH && !e.code && !e.report && !e.status);
}

/* the first so many blocks into so many octets, of which those that are not written stay */
static int writes(uint8_t ordered, size_t blocks, size_t texts, size_t len, uint32_t refusal, uint64_t size)
{
    uint8_t out[64], wanted[64];
    memset(out, 0xEE, sizeof out), memset(wanted, 0xEE, sizeof wanted), memcpy(wanted, remedy, size);
    df_wrote w = df_write_remedies(front, behind, 0x0407, ordered, keys, blocks, lengths, blocks, (const uint8_t *)"test", texts, out, len);
    return w.refusal == refusal && w.size == size && !memcmp(out, wanted, sizeof out);
}

static void written(void)
{
    expect("df_write_remedies", writes(1, 2, 4, 46, 0, 46) && writes(1, 2, 4, 64, 0, 46));
    expect("df_write_remedies, lengths and texts", writes(1, 2, 3, 0, DF_REFUSAL_REMEDY_FIELD, 0));
    expect("df_write_remedies, no room", writes(2, 2, 4, 45, DF_REFUSAL_OUTPUT_SHORT, 0));
    expect("df_write_remedies, octet 23", writes(2, 2, 4, 46, DF_REFUSAL_REMEDY_FIELD, 0));
    expect("df_write_remedies, no block", writes(1, 0, 0, 30, DF_REFUSAL_REMEDY_FIELD, 0));
    expect("df_write_remedies, key twice", writes(1, 3, 4, 64, DF_REFUSAL_KEY_TWICE, 0));
}

/* what is expected of texts: those of the first and last number, and something for every other */
static void texts(void)
{
    expect("df_refusal_text", !strcmp(df_refusal_text(DF_REFUSAL_LIST_ENDS), "list ends inside a count or a section"));
    expect("df_refusal_text", !strcmp(df_refusal_text(DF_REFUSAL_STORE_LENGTH), "store not 8,631 octets"));
    expect("df_refusal_text", !strcmp(df_refusal_text(DF_REFUSAL_SCALED_KIND), "scaled kind, with width not 16"));
    expect("df_refusal_text", !strcmp(df_refusal_text(27), "no check place in the table") && DF_REFUSAL_NO_CHECK_PLACE == 27);
    expect("df_refusal_text", !strcmp(df_refusal_text(28), "block runs past the end, or octets after the last") && DF_REFUSAL_BLOCK_PAST == 28);
    expect("df_refusal_text", !strcmp(df_refusal_text(29), "field out of its range or length that disagrees") && DF_REFUSAL_REMEDY_FIELD == 29);
    expect("df_refusal_text", !strcmp(df_refusal_text(30), "key twice") && DF_REFUSAL_KEY_TWICE == 30);
    expect("df_refusal_text", !strncmp(df_refusal_text(31), "record area not a whole number of records", 41) && DF_REFUSAL_RECORDS_MISFIT == 31);
    expect("df_refusal_text", !strcmp(df_refusal_text(33), "output not of the needed length") && DF_REFUSAL_FORM_OUTPUT == 33);
    expect("df_refusal_text", !strcmp(df_refusal_text(34), "profile rule broken") && DF_REFUSAL_PROFILE == 34);
    expect("df_refusal_text", !strcmp(df_refusal_text(35), "door signal missing from the list") && DF_REFUSAL_DOOR_MISSING == 35);
    expect("df_refusal_text", !strcmp(df_refusal_text(36), "data areas differ in length") && DF_REFUSAL_DATA_LENGTHS == 36);
    expect("df_refusal_text", !strcmp(df_refusal_text(37), "step does not follow on") && DF_REFUSAL_STEP_BROKEN == 37);
    expect("df_refusal_text", !strcmp(df_refusal_text(38), "more than 1,000 steps") && DF_REFUSAL_STEPS_TOO_MANY == 38);
    expect("df_refusal_text", !strcmp(df_refusal_text(DF_NOT_REFUSED), "not refused") && df_refusal_text(UINT32_MAX));
    expect("df_reason_text", !strcmp(df_reason_text(DF_REASON_LIVE_OK), "live ok") && df_reason_text(UINT32_MAX));
    expect("df_reason_text", !strcmp(df_reason_text(8), "code not known") && DF_REASON_CODE_NOT_KNOWN == 8);
}

int main(void)
{
    lists();
    profiles();
    compared();
    forms();
    in_form_2();
    telegrams();
    parked();
    arrivals();
    wide_fields();
    shown();
    cycle();
    no_cycle();
    passed_on();
    train();
    christened();
    recorded();
    unrecorded();
    doors();
    no_doors();
    remedies();
    written();
    texts();
    if (!bad)
        puts("every call of the header answers as it should");
    return bad;
}
