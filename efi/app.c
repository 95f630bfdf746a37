/* The store inside a firmware: a UEFI application that makes the calls of varstore.h on images in memory while the firmware's timer interrupts are taken on its
 * stack, checks every answer, says a verdict and turns the machine off.
 *
 * The expected numbers of stores are those of document 01's cases: a new RATE 75, a compaction of one block 8,197 with its 4,098th deciding.
 */
#include <efi.h>
#include <efilib.h>

#include "varstore.h"

enum {
    SMALL = VS_BLOCK * 3,
    LARGE = VS_LARGEST_IMAGE,
    OTHERS = 35, /* variables beside RATE in the small image */
    VALUES = 200,
    GETS = 5000,
    PLAIN = VS_NV | VS_BOOT_ACCESS | VS_RUNTIME_ACCESS
};

static const vs_context no_limit = {.limit = VS_NO_LIMIT};
static const uint8_t vendor[16] = {0x01, 0x02, 0x03, 0x04, 0x05, 0x06, 0x07, 0x08, 0x09, 0x0A, 0x0B, 0x0C, 0x0D, 0x0E, 0x0F, 0x10};
static const uint8_t rate[] = {'R', 0, 'A', 0, 'T', 0, 'E', 0, 0, 0};
static const uint8_t old_rate[4] = {100}, new_rate[4] = {200};

static uint8_t image[SMALL], full[SMALL], part[SMALL], other[SMALL], large[LARGE], content[VS_CONTENT];
static vs_session session; /* its setup: no custom mode, no reserve, no bytes for error records, no modem, no rules for settings; our share is all there is */
static unsigned checked, wrong;

/* ---- what is asked of each answer */

static void told(const char *what, int right)
{
    checked++;
    if (!right && wrong++ < 5) {
        Print(L"varstore: %a: WRONG\n", what);
    }
}

static int done(vs_answer answer, uint64_t stores)
{
    return answer.kind == VS_DONE && answer.rule == 0 && answer.stores == stores;
}

static int refused(vs_answer answer, uint32_t rule)
{
    return answer.kind == VS_REFUSED && answer.rule == rule && answer.stores == 0;
}

static int equal(const uint8_t *these, const uint8_t *those, size_t size)
{
    return CompareMem(these, those, size) == 0;
}

/* A variable of ours has exactly these bytes; those behind them in the buffer are left alone. */
static int holds(const uint8_t *store, size_t length, const uint8_t *name, size_t name_size, const uint8_t *data, size_t size)
{
    uint8_t got[64];
    SetMem(got, sizeof got, 0xC5);
    vs_reply reply = vs_get_lent(no_limit, &session, store, length, name, name_size, vendor, got, sizeof got);
    if (!done(reply.answer, 0) || reply.size != size || reply.attributes != PLAIN || reply.needed != 0 || !equal(got, data, size)) {
        return 0;
    }
    for (size_t i = size; i < sizeof got; i++) {
        if (got[i] != 0xC5) {
            return 0;
        }
    }
    return 1;
}

static int rate_is(const uint8_t *store, const uint8_t *data)
{
    return holds(store, SMALL, rate, sizeof rate, data, sizeof old_rate);
}

static int rate_is_absent(const uint8_t *store)
{
    uint8_t got[4];
    return refused(vs_get_lent(no_limit, &session, store, SMALL, rate, sizeof rate, vendor, got, sizeof got).answer, VS_ABSENT);
}

static vs_answer set(uint64_t limit, uint8_t *store, size_t length, const uint8_t *name, size_t name_size, uint32_t attributes, const uint8_t *data, size_t size)
{
    return vs_set_lent((vs_context){.limit = limit}, &session, store, length, name, name_size, vendor, attributes, data, size, 0, VS_BY_NONE, content);
}

static vs_answer set_rate(uint64_t limit, uint8_t *store, const uint8_t *data)
{
    return set(limit, store, SMALL, rate, sizeof rate, PLAIN, data, sizeof old_rate);
}

static vs_answer start_up(uint8_t *store, size_t length)
{
    session.setup.share = VS_WHOLE_SHARE(length);
    return vs_start_up_lent(no_limit, store, length, &session, content);
}

/* The name V and three digits. */
static const uint8_t *numbered(unsigned i)
{
    static uint8_t name[10] = {'V'};
    name[2] = (uint8_t)('0' + i / 100);
    name[4] = (uint8_t)('0' + i / 10 % 10);
    name[6] = (uint8_t)('0' + i % 10);
    return name;
}

/* ---- calls, stops and start-ups on one block */

static void first_calls(void)
{
    told("format", done(vs_format(no_limit, image, SMALL, content), 31));
    told("start-up", done(start_up(image, SMALL), 0));
    told("RATE before it is set", rate_is_absent(image));
    told("set RATE", done(set_rate(VS_NO_LIMIT, image, old_rate), 75));
    told("get RATE", rate_is(image, old_rate));
    told("set RATE to the same", done(set_rate(VS_NO_LIMIT, image, old_rate), 0));
    told("an image that is too short", refused(vs_check(image, SMALL - 1).answer, VS_LENGTH));
}

/* Entries of 112 bytes behind RATE, until the free part of the region is too short for one more RATE, 76 bytes. */
static void fill(void)
{
    uint8_t data[40];
    SetMem(data, sizeof data, 0xA5);
    for (unsigned i = 0; i < OTHERS; i++) {
        told("fill", done(set(VS_NO_LIMIT, image, SMALL, numbered(i), 10, PLAIN, data, sizeof data), 111));
    }
    told("a full region", vs_check(image, SMALL).tail == 104 + OTHERS * 112);
    CopyMem(full, image, SMALL);
}

static int all_stand(const uint8_t *store)
{
    uint8_t data[40];
    SetMem(data, sizeof data, 0xA5);
    for (unsigned i = 0; i < OTHERS; i++) {
        if (!holds(store, SMALL, numbered(i), 10, data, sizeof data)) {
            return 0;
        }
    }
    return 1;
}

static void compaction(void)
{
    told("set RATE in a full region", done(set_rate(VS_NO_LIMIT, image, new_rate), 8197));
    told("RATE after it", rate_is(image, new_rate));
    told("the others after it", all_stand(image));
}

/* The call is stopped after n stores, as a power cut would stop it, and started up: the old value before the 4,098th store, from there on the new one. */
static void stops(void)
{
    static const uint64_t limits[] = {0, 1, 2000, 4097, 4098, 4099, 6000, 8196};
    for (unsigned i = 0; i < sizeof limits / sizeof limits[0]; i++) {
        CopyMem(image, full, SMALL);
        told("a set that is stopped", set_rate(limits[i], image, new_rate).kind == VS_STOPPED);
        told("the start-up after it", start_up(image, SMALL).kind == VS_DONE);
        told("RATE after a stop", rate_is(image, limits[i] < 4098 ? old_rate : new_rate));
        told("the others after a stop", all_stand(image));
    }
}

/* ---- plans, carried out by the host on a part that only clears bits */

static uint64_t stores, risen;

static void program(uint64_t at, uint64_t byte)
{
    risen += (byte & ~(uint64_t)part[at]) != 0;
    part[at] &= (uint8_t)byte;
    stores++;
}

/* The first `count` operations of a plan. */
static void carry_out(const vs_plan *plan, uint64_t count)
{
    stores = 0;
    for (uint64_t i = 0; i < count; i++) {
        const vs_operation o = plan->operations[i];
        if (o.kind == VS_MARK) {
            program(o.at, o.from);
        } else if (o.kind == VS_ERASE) {
            SetMem(part + VS_BLOCK * o.at, VS_BLOCK * o.len, 0xFF);
            stores += o.len;
        } else if (o.kind == VS_PROGRAM || o.kind == VS_HEADER) {
            for (uint64_t k = 0; k < o.len; k++) {
                if (o.kind == VS_PROGRAM || k != 2) {
                    program(o.at + k, content[o.from + k]);
                }
            }
        }
    }
}

static vs_plan plan_rate(uint32_t attributes, const uint8_t *data, size_t size)
{
    return vs_plan_set_lent(&session, VS_OURS, part, SMALL, rate, sizeof rate, vendor, attributes, data, size, 0, VS_BY_NONE, content);
}

/* A plan carried out gives the image that the call gives; carried out up to its deciding operation it is undone, with it done. */
static void planned_set(const uint8_t *before, uint32_t attributes, const uint8_t *data, size_t size)
{
    CopyMem(other, before, SMALL);
    vs_answer answer = set(VS_NO_LIMIT, other, SMALL, rate, sizeof rate, attributes, data, size);
    for (unsigned i = 0; i < 3; i++) {
        CopyMem(part, before, SMALL);
        vs_plan plan = plan_rate(attributes, data, size);
        told("a plan's rule", plan.rule == 0 && plan.deciding < VS_OPERATIONS && plan.operations[plan.deciding].kind == VS_MARK);
        carry_out(&plan, i == 0 ? VS_OPERATIONS : plan.deciding + i - 1);
        if (i == 0) {
            told("a plan carried out", done(answer, stores) && equal(part, other, SMALL));
        } else {
            told("the start-up after a plan cut short", start_up(part, SMALL).kind == VS_DONE);
            told("RATE after a plan cut short", i == 1 ? rate_is(part, old_rate) : size == 0 ? rate_is_absent(part) : rate_is(part, data));
        }
    }
}

static void planned_start_up(void)
{
    CopyMem(part, full, SMALL);
    set_rate(6000, part, new_rate);
    CopyMem(other, part, SMALL);
    vs_plan plan = vs_plan_start_up_lent(&session, part, SMALL, content);
    told("a start-up's plan", plan.rule == 0 && plan.deciding == VS_OPERATIONS);
    carry_out(&plan, VS_OPERATIONS);
    uint64_t made = stores;
    told("a start-up's plan carried out", done(start_up(other, SMALL), made) && equal(part, other, SMALL) && rate_is(part, new_rate));
}

static void plans(void)
{
    vs_format(no_limit, image, SMALL, content);
    start_up(image, SMALL);
    set_rate(VS_NO_LIMIT, image, old_rate);
    planned_set(image, PLAIN, new_rate, sizeof new_rate);
    planned_set(image, 0, new_rate, 0);
    planned_set(full, PLAIN, new_rate, sizeof new_rate);
    planned_start_up();
    CopyMem(part, image, SMALL);
    vs_plan none = plan_rate(0x13, new_rate, sizeof new_rate);
    told("a refused plan", none.rule == VS_ATTRIBUTES && none.operations[0].kind == VS_NOTHING);
    told("no bit was asked to rise", risen == 0);
}

/* ---- gets under the timer interrupt */

static volatile UINT64 ticks;

static VOID EFIAPI tick(EFI_EVENT event, VOID *context)
{
    (void)event;
    (void)context;
    ticks++;
}

static void gets(void)
{
    static const uint8_t data[64] = {0x5A};
    EFI_EVENT timer;
    told("format of seven blocks", done(vs_format(no_limit, large, LARGE, content), 15 + 28));
    told("start-up of seven blocks", done(start_up(large, LARGE), 0));
    for (unsigned i = 0; i + 1 < VALUES; i++) {
        told("set", vs_set_lent(no_limit, &session, large, LARGE, numbered(i), 10, vendor, PLAIN, data, sizeof data, 0, VS_BY_NONE, content).kind == VS_DONE);
    }
    told("set RATE as the last", done(set(VS_NO_LIMIT, large, LARGE, rate, sizeof rate, PLAIN, old_rate, sizeof old_rate), 75));
    /* 10,000 units of 100 ns: a notification at every tick of the firmware's timer */
    told("a timer", uefi_call_wrapper(BS->CreateEvent, 5, EVT_TIMER | EVT_NOTIFY_SIGNAL, TPL_CALLBACK, tick, NULL, &timer) == EFI_SUCCESS &&
                        uefi_call_wrapper(BS->SetTimer, 3, timer, TimerPeriodic, 10000) == EFI_SUCCESS);
    for (unsigned i = 0; i < GETS; i++) {
        told("get RATE of 200 values", holds(large, LARGE, rate, sizeof rate, old_rate, sizeof old_rate));
    }
    uefi_call_wrapper(BS->CloseEvent, 1, timer);
    told("the timer ran", ticks > 0);
    Print(L"varstore: %d gets of the last of %d values, %ld timer notifications during them\n", GETS, VALUES, ticks);
}

EFI_STATUS efi_main(EFI_HANDLE handle, EFI_SYSTEM_TABLE *table)
{
    InitializeLib(handle, table);
    Print(L"\nvarstore: begins\n");
    first_calls();
    fill();
    compaction();
    stops();
    plans();
    Print(L"varstore: %d answers checked before the gets, %d wrong\n", checked, wrong);
    gets();
    Print(L"varstore: %a: %d answers checked, %d wrong\n", wrong == 0 ? "PASS" : "FAIL", checked, wrong);
    uefi_call_wrapper(RT->ResetSystem, 4, EfiResetShutdown, EFI_SUCCESS, 0, NULL);
    return EFI_SUCCESS;
}
