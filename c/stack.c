/* How much stack the calls take, measured: each is made on a painted stack of its own, at b = 7, with 32 rules for settings, and where it takes the longest way that is known.
 * Three figures for each:
 *
 *   own     from the return address that the call instruction pushes, which is counted in, down to the deepest byte that was written, but for the copies
 *   copies  of these bytes those in which the call has copied the table of rules, which is most of a session: 6,912 for each place where it was
 *   total   both with the frame of a caller on top that does nothing else: what it holds for the call are arguments and results that go by value (a session
 *           is 9,332 bytes, a result with a session 9,352, a setup 6,956, a plan 400), and arguments that found no register
 *
 * The caller's frame is measured, not reckoned: the same caller calls, on a stack of the same kind, a function that only returns. So are the copies: each rule is
 * known by its bytes, and two that stand as far apart as in the table tell where it was; a call may have written over the others.
 * Exit status 1 if a call takes more of its own, or in all, than it may, or makes more than one copy of the table; one with its session in the host's memory may make
 * none, and take 4,096 bytes in all.
 *
 *   stack
 */
#define _XOPEN_SOURCE 700
#include <stdio.h>
#include <string.h>
#include <ucontext.h>

#include "varstore.h"

enum { BLOCKS = 7, IMAGE = VS_LARGEST_IMAGE, STACK = 1 << 18, PAINT = 0xC5, ADDRESS = 8, OWN = 6 * 1024 + 512, ALL = 23 * 1024, LOCK = 28 * 1024, ALIKE = 40, LENT = 4 * 1024, PLAIN = VS_NV | VS_BOOT_ACCESS };
/* A profile's settings, the data of each, and what each takes in the file: three numbers, GUID, name and data. */
enum { ITEMS = 8, SETTING = 100, ITEM = 3 + 16 + 6 + SETTING };

static const vs_context no_limit = {.limit = VS_NO_LIMIT};
static vs_setup setup; /* no custom mode, no reserve, no bytes for error records, a modem with nothing, and as many rules as there may be */
static const uint8_t vendor[16] = {1}, zeros[2048];
static const uint8_t pk[6] = {'P', 0, 'K', 0}, global_vendor[16] = {0x61, 0xDF, 0xE4, 0x8B, 0xCA, 0x93, 0xD2, 0x11, 0xAA, 0x0D, 0x00, 0xE0, 0x98, 0x03, 0x2B, 0x8C};
/* PK with its descriptor, which has no signature: a key of one byte. */
static const uint8_t key[41] = {[16] = 24, 0, 0, 0, 0x00, 0x02, 0xF1, 0x0E, 0x9D, 0xD2, 0xAF, 0x4A, 0xDF, 0x68, 0xEE, 0x49, 0x8A, 0xA9, 0x34, 0x7D, 0x37, 0x56, 0x65, 0xA7, 1};
static uint8_t image[IMAGE], plain[IMAGE], buffer[2048], content[VS_CONTENT], stack[STACK];
static uint8_t keys[VS_NAMES * VS_KEY], file[1 + ITEMS * ITEM];
static uint32_t sizes[VS_NAMES];
static vs_item items[VS_NAMES];
static vs_session session, made;
static vs_answer answer;
static vs_listed listed;
static vs_started started;
static vs_plan plan;
static ucontext_t here, there;

/* It stands for any function, and touches nothing: a result that goes by memory is where the first argument says. */
void only_returns(void);
/* On x86-64 a call pushes its return address. ABOVE is from a frame's address up to where it began. */
#if defined(__x86_64__)
enum { PUSHED = 8, ABOVE = 8 };
__asm__(".text\nonly_returns:\n\tmov %rdi, %rax\n\tret\n");
#elif defined(__aarch64__)
enum { PUSHED = 0, ABOVE = 16 };
__asm__(".text\nonly_returns:\n\tret\n");
#else
enum { PUSHED = 0, ABOVE = 8 };
__asm__(".text\nonly_returns:\n\tret\n");
#endif
static volatile int replaced;
#define CALL(function) (replaced ? (__typeof__(function) *)only_returns : (function))

/* The numbers of two names: of the value that stands first, and of none. */
enum { FIRST = 0, FREE = 700, RULES = sizeof setup.settings / sizeof setup.settings[0] };

/* A name of two characters. */
static const uint8_t *named(unsigned i)
{
    static uint8_t name[6];
    name[0] = (uint8_t)('A' + i / 26);
    name[2] = (uint8_t)('A' + i % 26);
    return name;
}

/* Every rule is of its own: its number is in its vendor. The last two are for the names that the measured sets have, and are met at the end of the list. */
static void lay_rules(void)
{
    static const unsigned for_names[] = {FIRST, FREE};
    setup.share = VS_WHOLE_SHARE(IMAGE);
    setup.rules = RULES;
    for (uint32_t i = 0; i < RULES; i++) {
        vs_setting rule = {.size = VS_LARGEST_NAME, .least = 1, .most = VS_LARGEST_DATA, .width = 1, .count = 8, .numbers = {9, 8, 7, 6, 5, 4, 3, 0}};
        memset(rule.name, 'n', sizeof rule.name - 2);
        memset(rule.vendor, 0xA7, sizeof rule.vendor);
        rule.vendor[1] = (uint8_t)i;
        if (i >= RULES - 2) {
            rule.size = 6;
            memcpy(rule.name, named(for_names[i - (RULES - 2)]), rule.size);
            memcpy(rule.vendor, vendor, sizeof vendor);
        }
        setup.settings[i] = rule;
    }
}

/* As many names as one call takes; the first of them stands. */
static void lay_keys(void)
{
    for (unsigned i = 0; i < VS_NAMES; i++) {
        memcpy(keys + VS_KEY * i, vendor, sizeof vendor);
        memcpy(keys + VS_KEY * i + sizeof vendor, named(i), 6);
        sizes[i] = sizeof vendor + 6;
    }
}

/* As many settings as a profile has: of the value that stands first, of one that is not there, and of more such. Each number takes one byte. */
static void lay_file(void)
{
    uint8_t *item = file;
    *item++ = ITEMS;
    for (unsigned i = 0; i < ITEMS; i++, item += ITEM) {
        memcpy(item, (const uint8_t[]){PLAIN, 6, SETTING}, 3);
        memcpy(item + 3, vendor, sizeof vendor);
        memcpy(item + 19, named(i == 0 ? FIRST : FREE + i - 1), 6);
    }
}

static void put(unsigned i, const uint8_t *under, uint32_t attributes, size_t size)
{
    vs_set(no_limit, session, image, IMAGE, named(i), 6, under, attributes, zeros, size, 0, VS_BY_NONE, content);
}

/* Values of one name under GUIDs whose marks are equal (docs/CHECK.md): a check looks back at the first few, then sorts. */
static void put_alike(void)
{
    for (uint64_t i = 1; i <= ALIKE; i++) {
        uint8_t under[16] = {0};
        for (unsigned k = 0; k < 8; k++) {
            under[k] = (uint8_t)(i * 1279 * 128 >> 8 * k);
        }
        put(FIRST, under, PLAIN, 1);
    }
}

/* A region whose free part is too short for `size` bytes more, with deleted entries before it. */
static void fill(size_t size)
{
    vs_format(no_limit, image, IMAGE, content);
    session = vs_start_up(no_limit, image, IMAGE, setup, content).session;
    put(FIRST, vendor, PLAIN, 1024);
    put_alike();
    for (unsigned i = 1; vs_check(image, IMAGE).tail + 72 + size <= 4096 * BLOCKS; i++) {
        put(i, vendor, PLAIN, 512);
        put(i, vendor, 0, 0);
    }
}

/* The platform in a mode; where the free part is to be too short, nothing of it is left for a mode. */
static void enter_mode(uint32_t from, int full)
{
    if (from == VS_USER_MODE) {
        vs_set(no_limit, session, image, IMAGE, pk, sizeof pk, global_vendor, 0x27, key, sizeof key, 0, VS_BY_PAYLOAD, content);
    }
    if (from == VS_AUDIT_MODE) {
        vs_mode(no_limit, session, image, IMAGE, VS_AUDIT_MODE, content);
    }
    if (from != VS_SETUP_MODE && full) {
        put(FREE - 1, vendor, PLAIN, 4096 * BLOCKS - vs_check(image, IMAGE).tail - 60 - sizeof pk);
    }
}

/* A plan as the answer of its call. */
static vs_answer planned(void)
{
    vs_answer told = {plan.rule == 0 ? VS_DONE : VS_REFUSED, plan.rule, 0};
    for (size_t i = 0; i < VS_OPERATIONS; i++) {
        told.stores += plan.operations[i].len;
    }
    return told;
}

/* What the measured set is asked. */
static uint8_t name[6];
static uint32_t attributes;
static size_t size;

/* Where a caller's frame begins: below its own return address, if that is on the stack. */
static uint8_t *begin;
static void enter(void) { begin = (uint8_t *)__builtin_frame_address(0) + ABOVE; }

/* The callers. */
static void check(void) { answer = CALL(vs_check)(image, IMAGE).answer; }
static void new_session(void) { made = CALL(vs_session_new)(setup); }
static void phase(void) { made = CALL(vs_phase)(session, VS_RUNTIME); }
static void lock(void) { listed = CALL(vs_lock)(session, VS_OURS, name, sizeof name, vendor); }
static void get(void) { answer = CALL(vs_get)(no_limit, session, image, IMAGE, name, sizeof name, vendor, buffer, sizeof buffer).answer; }
static void many(void) { answer = CALL(vs_get_many)(no_limit, session, image, IMAGE, keys, sizeof keys, sizes, VS_NAMES, items, buffer, sizeof buffer); }
static void next_name(void) { answer = CALL(vs_next_name)(no_limit, session, image, IMAGE, zeros, 2, vendor, buffer, sizeof buffer).answer; }
static void format(void) { answer = CALL(vs_format)(no_limit, image, IMAGE, content); }
static void plan_format(void) { plan = CALL(vs_plan_format)(image, IMAGE, content); }
static void start_up(void) { started = CALL(vs_start_up)(no_limit, image, IMAGE, setup, content); }
static void plan_start_up(void) { plan = CALL(vs_plan_start_up)(image, IMAGE, setup, content); }
static void to_plain(void) { answer = CALL(vs_to_plain)(image, IMAGE, plain, IMAGE); }
static void from_plain(void) { answer = CALL(vs_from_plain)(plain, IMAGE, image, IMAGE); }

static void set(void)
{
    answer = CALL(vs_set)(no_limit, session, image, IMAGE, name, sizeof name, vendor, attributes, zeros, size, 0, VS_BY_NONE, content);
}

static void plan_set(void)
{
    plan = CALL(vs_plan_set)(session, VS_OURS, image, IMAGE, name, sizeof name, vendor, attributes, zeros, size, 0, VS_BY_NONE, content);
}

static void set_key(void)
{
    answer = CALL(vs_set)(no_limit, session, image, IMAGE, pk, sizeof pk, global_vendor, 0x27, key, sizeof key, 0, VS_BY_PAYLOAD, content);
}

static void plan_set_key(void)
{
    plan = CALL(vs_plan_set)(session, VS_OURS, image, IMAGE, pk, sizeof pk, global_vendor, 0x27, key, sizeof key, 0, VS_BY_PAYLOAD, content);
}

static void present_mode(void) { answer = CALL(vs_present_mode)(image, IMAGE).answer; }
static void mode(void) { answer = CALL(vs_mode)(no_limit, session, image, IMAGE, attributes, content); }
static void plan_mode(void) { plan = CALL(vs_plan_mode)(session, VS_OURS, image, IMAGE, attributes, content); }
static void profile(void) { answer = CALL(vs_profile)(no_limit, session, image, IMAGE, file, sizeof file, content); }
static void plan_profile(void) { plan = CALL(vs_plan_profile)(session, VS_OURS, image, IMAGE, file, sizeof file, content); }
static void session_fresh(void) { CALL(vs_session_fresh)(&session); }
static void phase_lent(void) { CALL(vs_phase_lent)(&session, VS_RUNTIME); }
static void lock_lent(void) { answer = CALL(vs_lock_lent)(&session, VS_OURS, name, sizeof name, vendor); }
static void query(void) { answer = CALL(vs_query)(no_limit, session, image, IMAGE, PLAIN).answer; }
static void query_lent(void) { answer = CALL(vs_query_lent)(no_limit, &session, image, IMAGE, PLAIN).answer; }
static void get_lent(void) { answer = CALL(vs_get_lent)(no_limit, &session, image, IMAGE, name, sizeof name, vendor, buffer, sizeof buffer).answer; }
static void many_lent(void) { answer = CALL(vs_get_many_lent)(no_limit, &session, image, IMAGE, keys, sizeof keys, sizes, VS_NAMES, items, buffer, sizeof buffer); }
static void next_lent(void) { answer = CALL(vs_next_name_lent)(no_limit, &session, image, IMAGE, zeros, 2, vendor, buffer, sizeof buffer).answer; }
static void start_up_lent(void) { answer = CALL(vs_start_up_lent)(no_limit, image, IMAGE, &session, content); }

static void plan_start_up_lent(void) { plan = CALL(vs_plan_start_up_lent)(&session, image, IMAGE, content); }

static void set_lent(void)
{
    answer = CALL(vs_set_lent)(no_limit, &session, image, IMAGE, name, sizeof name, vendor, attributes, zeros, size, 0, VS_BY_NONE, content);
}

static void plan_set_lent(void)
{
    plan = CALL(vs_plan_set_lent)(&session, VS_OURS, image, IMAGE, name, sizeof name, vendor, attributes, zeros, size, 0, VS_BY_NONE, content);
}

static void set_key_lent(void)
{
    answer = CALL(vs_set_lent)(no_limit, &session, image, IMAGE, pk, sizeof pk, global_vendor, 0x27, key, sizeof key, 0, VS_BY_PAYLOAD, content);
}

static void plan_set_key_lent(void)
{
    plan = CALL(vs_plan_set_lent)(&session, VS_OURS, image, IMAGE, pk, sizeof pk, global_vendor, 0x27, key, sizeof key, 0, VS_BY_PAYLOAD, content);
}

static void mode_lent(void) { answer = CALL(vs_mode_lent)(no_limit, &session, image, IMAGE, attributes, content); }
static void plan_mode_lent(void) { plan = CALL(vs_plan_mode_lent)(&session, VS_OURS, image, IMAGE, attributes, content); }
static void profile_lent(void) { answer = CALL(vs_profile_lent)(no_limit, &session, image, IMAGE, file, sizeof file, content); }
static void plan_profile_lent(void) { plan = CALL(vs_plan_profile_lent)(&session, VS_OURS, image, IMAGE, file, sizeof file, content); }

/* The bytes of the stack that a caller and what it calls have used. */
static size_t taken(void (*caller)(void))
{
    memset(stack, PAINT, STACK);
    getcontext(&there);
    there.uc_stack.ss_sp = stack;
    there.uc_stack.ss_size = STACK;
    there.uc_link = &here;
    makecontext(&there, caller, 0);
    swapcontext(&here, &there);
    size_t untouched = 0;
    while (untouched < STACK && stack[untouched] == PAINT) {
        untouched++;
    }
    /* a return address may end in the paint's byte */
    return STACK - untouched / ADDRESS * ADDRESS;
}

/* Of the bytes of the stack from the deepest up to a frame those of copied tables: places from which two rules or more are where they belong. Numbers are aligned to 4. */
static size_t copied(size_t whole, size_t frame)
{
    static unsigned here[STACK]; /* the rules of a table that would begin there */
    size_t found = 0;
    memset(here, 0, sizeof here);
    for (size_t at = STACK - whole; at + sizeof(vs_setting) <= STACK - frame; at += 4) {
        for (size_t i = 0; i < RULES; i++) {
            if (memcmp(stack + at, &setup.settings[i], sizeof(vs_setting)) == 0 && at >= i * sizeof(vs_setting)) {
                found += ++here[at - i * sizeof(vs_setting)] == 2;
            }
        }
    }
    return found * sizeof setup.settings;
}

typedef struct {
    const char *name;
    void (*caller)(void);
    size_t filled;   /* the room that the region must lack; with 0 most of it is free */
    unsigned stores; /* that the call makes or plans at least */
    enum { ANSWER, LISTED, STARTED, PLANNED } result;
    unsigned i; /* of a set: the name's number, attributes, size */
    uint32_t attributes; /* of a mode request the mode */
    size_t size;
    int lent; /* whether its session is in the host's memory */
    uint32_t from; /* the platform's mode: setup, user or audit */
} measured;

static const measured calls[] = {
    {"vs_check", check, 0, 0, ANSWER, 0, 0, 0, 0, VS_SETUP_MODE},
    {"vs_present_mode", present_mode, 0, 0, ANSWER, 0, 0, 0, 0, VS_AUDIT_MODE},
    {"vs_session_new", new_session, 0, 0, ANSWER, 0, 0, 0, 0, VS_SETUP_MODE},
    {"vs_phase", phase, 0, 0, ANSWER, 0, 0, 0, 0, VS_SETUP_MODE},
    {"vs_lock", lock, 0, 0, LISTED, 0, 0, 0, 0, VS_SETUP_MODE},
    {"vs_get", get, 0, 0, ANSWER, 0, 0, 0, 0, VS_SETUP_MODE},
    {"vs_get_many", many, 0, 0, ANSWER, 0, 0, 0, 0, VS_SETUP_MODE},
    {"vs_query", query, 0, 0, ANSWER, 0, 0, 0, 0, VS_SETUP_MODE},
    {"vs_next_name", next_name, 0, 0, ANSWER, 0, 0, 0, 0, VS_SETUP_MODE},
    {"vs_set in the tail", set, 0, 60, ANSWER, FREE, PLAIN, 1, 0, VS_SETUP_MODE},
    {"vs_set that deletes", set, 0, 1, ANSWER, FIRST, 0, 0, 0, VS_SETUP_MODE},
    {"vs_set that compacts", set, 1000, 50000, ANSWER, FIRST, PLAIN, 1000, 0, VS_SETUP_MODE},
    {"vs_set that appends and compacts", set, 2048, 50000, ANSWER, FIRST, PLAIN | VS_APPEND, 1024, 0, VS_SETUP_MODE},
    {"vs_set of PK and mode", set_key, 1000, 50000, ANSWER, 0, 0, 0, 0, VS_AUDIT_MODE},
    {"vs_profile", profile, 1000, 50000, ANSWER, 0, 0, 0, 0, VS_SETUP_MODE},
    {"vs_mode in the tail", mode, 0, 60, ANSWER, 0, VS_DEPLOYED_MODE, 0, 0, VS_USER_MODE},
    {"vs_mode that compacts", mode, 1000, 50000, ANSWER, 0, VS_DEPLOYED_MODE, 0, 0, VS_USER_MODE},
    {"vs_mode that loses PK", mode, 1000, 50000, ANSWER, 0, VS_AUDIT_MODE, 0, 0, VS_USER_MODE},
    {"vs_format", format, 0, 15, ANSWER, 0, 0, 0, 0, VS_SETUP_MODE},
    {"vs_start_up that compacts", start_up, 0, 50000, STARTED, 0, 0, 0, 0, VS_SETUP_MODE},
    {"vs_plan_set in the tail", plan_set, 0, 60, PLANNED, FREE, PLAIN, 1, 0, VS_SETUP_MODE},
    {"vs_plan_set that deletes", plan_set, 0, 1, PLANNED, FIRST, 0, 0, 0, VS_SETUP_MODE},
    {"vs_plan_set that compacts", plan_set, 1000, 50000, PLANNED, FIRST, PLAIN, 1000, 0, VS_SETUP_MODE},
    {"vs_plan_set, appends and compacts", plan_set, 2048, 50000, PLANNED, FIRST, PLAIN | VS_APPEND, 1024, 0, VS_SETUP_MODE},
    {"vs_plan_set of PK and mode", plan_set_key, 1000, 50000, PLANNED, 0, 0, 0, 0, VS_AUDIT_MODE},
    {"vs_plan_profile", plan_profile, 1000, 50000, PLANNED, 0, 0, 0, 0, VS_SETUP_MODE},
    {"vs_plan_mode in the tail", plan_mode, 0, 60, PLANNED, 0, VS_DEPLOYED_MODE, 0, 0, VS_USER_MODE},
    {"vs_plan_mode that compacts", plan_mode, 1000, 50000, PLANNED, 0, VS_DEPLOYED_MODE, 0, 0, VS_USER_MODE},
    {"vs_plan_mode that loses PK", plan_mode, 1000, 50000, PLANNED, 0, VS_AUDIT_MODE, 0, 0, VS_USER_MODE},
    {"vs_plan_format", plan_format, 0, 15, PLANNED, 0, 0, 0, 0, VS_SETUP_MODE},
    {"vs_plan_start_up that compacts", plan_start_up, 0, 50000, PLANNED, 0, 0, 0, 0, VS_SETUP_MODE},
    {"vs_to_plain", to_plain, 0, 0, ANSWER, 0, 0, 0, 0, VS_SETUP_MODE},
    {"vs_from_plain", from_plain, 0, 0, ANSWER, 0, 0, 0, 0, VS_SETUP_MODE},
    {"vs_session_fresh", session_fresh, 0, 0, ANSWER, 0, 0, 0, 1, VS_SETUP_MODE},
    {"vs_phase_lent", phase_lent, 0, 0, ANSWER, 0, 0, 0, 1, VS_SETUP_MODE},
    {"vs_lock_lent", lock_lent, 0, 0, ANSWER, 0, 0, 0, 1, VS_SETUP_MODE},
    {"vs_get_lent", get_lent, 0, 0, ANSWER, 0, 0, 0, 1, VS_SETUP_MODE},
    {"vs_get_many_lent", many_lent, 0, 0, ANSWER, 0, 0, 0, 1, VS_SETUP_MODE},
    {"vs_query_lent", query_lent, 0, 0, ANSWER, 0, 0, 0, 1, VS_SETUP_MODE},
    {"vs_next_name_lent", next_lent, 0, 0, ANSWER, 0, 0, 0, 1, VS_SETUP_MODE},
    {"vs_set_lent in the tail", set_lent, 0, 60, ANSWER, FREE, PLAIN, 1, 1, VS_SETUP_MODE},
    {"vs_set_lent that deletes", set_lent, 0, 1, ANSWER, FIRST, 0, 0, 1, VS_SETUP_MODE},
    {"vs_set_lent that compacts", set_lent, 1000, 50000, ANSWER, FIRST, PLAIN, 1000, 1, VS_SETUP_MODE},
    {"vs_set_lent, appends and compacts", set_lent, 2048, 50000, ANSWER, FIRST, PLAIN | VS_APPEND, 1024, 1, VS_SETUP_MODE},
    {"vs_set_lent of PK and mode", set_key_lent, 1000, 50000, ANSWER, 0, 0, 0, 1, VS_AUDIT_MODE},
    {"vs_profile_lent", profile_lent, 1000, 50000, ANSWER, 0, 0, 0, 1, VS_SETUP_MODE},
    {"vs_mode_lent in the tail", mode_lent, 0, 60, ANSWER, 0, VS_DEPLOYED_MODE, 0, 1, VS_USER_MODE},
    {"vs_mode_lent that compacts", mode_lent, 1000, 50000, ANSWER, 0, VS_DEPLOYED_MODE, 0, 1, VS_USER_MODE},
    {"vs_mode_lent that loses PK", mode_lent, 1000, 50000, ANSWER, 0, VS_AUDIT_MODE, 0, 1, VS_USER_MODE},
    {"vs_start_up_lent that compacts", start_up_lent, 0, 50000, ANSWER, 0, 0, 0, 1, VS_SETUP_MODE},
    {"vs_plan_set_lent in the tail", plan_set_lent, 0, 60, PLANNED, FREE, PLAIN, 1, 1, VS_SETUP_MODE},
    {"vs_plan_set_lent that compacts", plan_set_lent, 1000, 50000, PLANNED, FIRST, PLAIN, 1000, 1, VS_SETUP_MODE},
    {"vs_plan_set_lent, appends", plan_set_lent, 2048, 50000, PLANNED, FIRST, PLAIN | VS_APPEND, 1024, 1, VS_SETUP_MODE},
    {"vs_plan_set_lent of PK and mode", plan_set_key_lent, 1000, 50000, PLANNED, 0, 0, 0, 1, VS_AUDIT_MODE},
    {"vs_plan_profile_lent", plan_profile_lent, 1000, 50000, PLANNED, 0, 0, 0, 1, VS_SETUP_MODE},
    {"vs_plan_mode_lent in the tail", plan_mode_lent, 0, 60, PLANNED, 0, VS_DEPLOYED_MODE, 0, 1, VS_USER_MODE},
    {"vs_plan_mode_lent that compacts", plan_mode_lent, 1000, 50000, PLANNED, 0, VS_DEPLOYED_MODE, 0, 1, VS_USER_MODE},
    {"vs_plan_mode_lent that loses PK", plan_mode_lent, 1000, 50000, PLANNED, 0, VS_AUDIT_MODE, 0, 1, VS_USER_MODE},
    {"vs_plan_start_up_lent, compacts", plan_start_up_lent, 0, 50000, PLANNED, 0, 0, 0, 1, VS_SETUP_MODE},
};

/* All is laid ready; a start-up finds a byte in the tail that no entry accounts for, and a move from the plain form what one to it has left. */
static void prepare(const measured *m)
{
    fill(m->filled ? m->filled : 4096 * BLOCKS - 4096);
    enter_mode(m->from, m->filled > 0);
    if (m->caller == start_up || m->caller == plan_start_up || m->caller == start_up_lent || m->caller == plan_start_up_lent) {
        image[4096 * BLOCKS - 1] = 0;
    }
    if (m->caller == from_plain) {
        vs_to_plain(image, IMAGE, plain, IMAGE);
    }
    memcpy(name, named(m->i), sizeof name);
    attributes = m->attributes;
    size = m->size;
    answer = (vs_answer){VS_DONE, 0, 0};
}

static int is_done(const measured *m)
{
    vs_answer told = m->result == LISTED ? listed.answer : m->result == STARTED ? started.answer : m->result == PLANNED ? planned() : answer;
    return told.kind == VS_DONE && told.stores >= m->stores;
}

int main(void)
{
    int wrong = 0;
    lay_rules();
    lay_keys();
    lay_file();
    taken(enter);
    size_t above = STACK - (size_t)(begin - stack), most_own = 0, most_copies = 0, most_total = 0;
    printf("%-34s%7s%7s%7s\n", "bytes of stack", "own", "copies", "total");
    for (const measured *m = calls; m < calls + sizeof calls / sizeof calls[0]; m++) {
        replaced = 1;
        prepare(m);
        size_t frame = taken(m->caller) - PUSHED;
        replaced = 0;
        prepare(m);
        size_t whole = taken(m->caller);
        if (!is_done(m)) {
            printf("%s: not done as it should be\n", m->name);
            return 1;
        }
        size_t copies = copied(whole, frame), own = whole - frame - copies, total = whole - above;
        printf("%-34s%7zu%7zu%7zu\n", m->name, own, copies, total);
        most_own = own > most_own ? own : most_own;
        most_copies = copies > most_copies ? copies : most_copies;
        most_total = total > most_total ? total : most_total;
        wrong |= own > OWN || copies > (m->lent ? 0 : sizeof setup.settings) || total > (m->lent ? LENT : m->caller == lock ? LOCK : ALL);
    }
    printf("%-34s%7zu%7zu%7zu\n", "most", most_own, most_copies, most_total);
    printf("%-34s%7d%7zu%7d   in all %d but for a lock, %d lent\n", "allowed", OWN, sizeof setup.settings, LOCK, ALL, LENT);
    return wrong;
}
