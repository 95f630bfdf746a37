/* Calls of every exported function, random ones and those at the edges, and one line of what came of them: how many were done, stopped and refused, by how many
 * rules, and a hash of every answer and of all that the calls left. It is the same on every machine and by every compiler; tools/targets-test compares.
 *
 * Calls that take a session by value are made a second time with the session lent, on a copy of all that they write, and must do the same.
 *
 *   calls [COUNT]      50,000 if no number is given, enough to break every rule; exit status 1 if some rule is not broken then, or two forms differ
 */
#include <stdio.h>
#include <stdlib.h>
#include <string.h>

#include "varstore.h"

enum { COUNT = 50000, RULES = VS_TWICE + 1, KNOWN = 26, NAMED = 160, DATA = 2200, ASKED = VS_NAMES + 6, ITEMS = 9, ITEM = 3 * 6 + 16 + NAMED + DATA };

/* ---- numbers, and what is hashed */

static uint64_t seed = 1, hash = 0x243F6A8885A308D3u, kinds[3], broken[RULES];

static uint64_t number(void)
{
    uint64_t x = seed += 0x9E3779B97F4A7C15u;
    x = (x ^ (x >> 30)) * 0xBF58476D1CE4E5B9u;
    x = (x ^ (x >> 27)) * 0x94D049BB133111EBu;
    return x ^ (x >> 31);
}

static uint64_t below(uint64_t end) { return number() % end; }

/* One byte becomes another. Here and below no expression asks for two numbers whose order the language leaves open. */
static void change(uint8_t *bytes, size_t size)
{
    size_t at = below(size);
    bytes[at] ^= (uint8_t)number();
}

static uint32_t one_of(const uint32_t *numbers, size_t count) { return numbers[below(count)]; }

#define ONE_OF(...) one_of((const uint32_t[]){__VA_ARGS__}, sizeof(const uint32_t[]){__VA_ARGS__} / sizeof(uint32_t))

static void mix(uint64_t x)
{
    hash = (hash ^ x) * 0x9E3779B97F4A7C15u;
    hash ^= hash >> 29;
}

static void mix_bytes(const void *bytes, size_t size)
{
    size_t at = 0;
    for (uint64_t word; at + sizeof word <= size; at += sizeof word) {
        memcpy(&word, (const uint8_t *)bytes + at, sizeof word);
        mix(word);
    }
    for (; at < size; at++) {
        mix(((const uint8_t *)bytes)[at]);
    }
}

static vs_answer answered(vs_answer answer)
{
    mix(answer.kind);
    mix(answer.rule);
    mix(answer.stores);
    kinds[answer.kind % 3]++;
    broken[answer.rule % RULES]++;
    return answer;
}

/* ---- arguments */

static uint8_t image[VS_LARGEST_IMAGE], other[VS_LARGEST_IMAGE], content[VS_CONTENT], name[NAMED], vendor[16], data[DATA], buffer[DATA];
static uint8_t twin_image[VS_LARGEST_IMAGE], twin_content[VS_CONTENT], twin_buffer[DATA]; /* what the same call has with its session lent */
static uint8_t keys[ASKED * VS_KEY], file[6 + ITEMS * ITEM + 1];
static uint32_t sizes[ASKED];
static vs_item items[VS_NAMES], twin_items[VS_NAMES];
static unsigned long differences;
static size_t length, name_len, data_len, file_len;
static vs_session session;
static vs_setup setup;
static uint32_t side;

static const uint8_t vendors[5][16] = {
    {1, 2, 3, 4, 5, 6, 7, 8, 9, 10, 11, 12, 13, 14, 15, 16},
    {0x61, 0xDF, 0xE4, 0x8B, 0xCA, 0x93, 0xD2, 0x11, 0xAA, 0x0D, 0x00, 0xE0, 0x98, 0x03, 0x2B, 0x8C}, /* EFI_GLOBAL_VARIABLE: PK, KEK */
    {0xCB, 0xB2, 0x19, 0xD7, 0x3A, 0x3D, 0x96, 0x45, 0xA3, 0xBC, 0xDA, 0xD0, 0x0E, 0x67, 0x65, 0x6F}, /* EFI_IMAGE_SECURITY_DATABASE: db, dbx, dbt */
    {0xDD, 0x6B, 0x4E, 0x41, 0x7B, 0xE4, 0xCC, 0x47, 0xB2, 0x44, 0xBB, 0x61, 0x02, 0x0C, 0xF5, 0x16}, /* EFI_HARDWARE_ERROR_VARIABLE */
    {0x4D, 0x4F, 0x44, 0x45, 0x4D},                                                                   /* the modem's, mostly */
};

/* A vendor's name, mostly well formed. */
static void choose_name(void)
{
    static const struct {
        const char *text;
        uint8_t vendor;
    } names[] = {
        {"RATE", 0}, {"RATE", 0}, {"RATE", 0}, {"A", 0}, {"A", 0}, {"B", 0}, {"B", 0}, {"C", 0}, {"NOTE", 0}, {"SampleRate", 0}, {"PK", 1}, {"PK", 1}, {"PlatMode", 1}, {"KEK", 1}, {"db", 2}, {"dbx", 2}, {"dbt", 2}, {"PK", 0},
        {"RATE", 4}, {"RATE", 4}, {"A", 4}, {"APN", 4}, {"APN", 4}, {"PK", 4}, {"HwErrRec0001", 4},
        {"HwErrRec0001", 3}, {"HwErrRec00FF", 3}, {"HwErrRec00ff", 3}, {"HwErrRec0001", 0}, {"", 0},
        {"0123456789012345678901234567890123456789012345678901234567890123", 0}, /* 64 characters, one too many */
        {"012345678901234567890123456789012345678901234567890123456789012", 0},
    };
    size_t chosen = below(sizeof names / sizeof names[0]), size = strlen(names[chosen].text);
    memset(name, 0, sizeof name);
    for (size_t i = 0; i < size; i++) {
        name[2 * i] = (uint8_t)names[chosen].text[i];
    }
    name_len = 2 * size + 2;
    memcpy(vendor, vendors[names[chosen].vendor], 16);
    if (below(16) == 0) {
        change(name, name_len);
    }
    if (below(32) == 0) {
        name_len = below(NAMED);
    }
    if (below(32) == 0) {
        change(vendor, 16);
    }
    side = below(16) > 0 ? memcmp(vendor, session.setup.modem.vendor, 16) == 0 : ONE_OF(VS_OURS, VS_MODEM, 2, 0xFFFFFFFF); /* mostly whose it is */
}

/* The same, and mostly under one vendor. */
static void choose_name_under(const uint8_t *one)
{
    do {
        choose_name();
    } while (below(16) > 0 && memcmp(vendor, one, 16) != 0);
}

/* With attributes that want it, a descriptor, mostly sound, of one of two years. */
static void choose_data(uint32_t attributes)
{
    static const uint8_t certificate[20] = {0x00, 0x02, 0xF1, 0x0E, 0x9D, 0xD2, 0xAF, 0x4A, 0xDF, 0x68, 0xEE, 0x49, 0x8A, 0xA9, 0x34, 0x7D, 0x37, 0x56, 0x65, 0xA7};
    data_len = below(4) == 0 ? ONE_OF(0, 0, 1, 2046, 2047, 2048, 2049) : below(3) == 0 ? below(300) : below(12);
    if (attributes & VS_TIME_BASED) {
        memset(data, 0, 40);
        data[0] = (uint8_t)below(2);
        data[16] = 24;
        memcpy(data + 20, certificate, sizeof certificate);
        for (size_t i = 0; i < data_len; i++) {
            data[40 + i] = (uint8_t)(i * 7);
        }
        data_len += 40;
    } else {
        for (size_t i = 0; i < data_len; i++) {
            data[i] = (uint8_t)below(3);
        }
    }
    if (below(32) == 0 && data_len > 0) {
        change(data, data_len < 40 ? data_len : 40);
    }
}

static uint32_t choose_attributes(void)
{
    return below(3) == 0 ? ONE_OF(0, 0x03, 0x23, 0x27, 0x43, 0x47, 0x63, 0x67, 0x0F, 0x4F, 0x40, 0x01, 0x17, 0xFFFFFFFF) : name[0] == 'H' ? 0x0F : vendor[0] == 1 || vendor[0] == 0x4D || name[2] == 'l' ? 0x07 : 0x27;
}

static void add(const uint8_t *bytes, size_t size)
{
    memcpy(file + file_len, bytes, size);
    file_len += size;
}

/* A number of a profile, mostly in its shortest form; of 32 bits it takes five bytes. */
static void add_number(uint32_t x)
{
    int longer = below(200) == 0;
    for (; x > 0x7F; x >>= 7) {
        file[file_len++] = (uint8_t)(x | 0x80);
    }
    file[file_len++] = (uint8_t)(longer ? x | 0x80 : x);
    if (longer) {
        file[file_len++] = 0;
    }
}

static void choose_item(const uint8_t *one)
{
    choose_name_under(one);
    uint32_t attributes = below(64) == 0 ? choose_attributes() : ONE_OF(0x07, 0x07, 0x07, 0x03);
    choose_data(0);
    add_number(attributes);
    add_number((uint32_t)name_len);
    add_number((uint32_t)data_len);
    add(vendor, 16);
    add(name, name_len);
    add(data, data_len);
}

/* A profile's file, mostly of its form, with settings of one side. That is the side of the last one. */
static void choose_file(void)
{
    const uint8_t *one = vendors[ONE_OF(0, 0, 4)];
    uint32_t items = below(8) == 0 ? ONE_OF(0, 8, ITEMS) : 1 + (uint32_t)below(4);
    file_len = 0;
    add_number(items);
    for (uint32_t i = 0; i < items; i++) {
        choose_item(one);
    }
    switch (below(32)) {
    case 0:
        file_len -= 1 + below(file_len);
        break;
    case 1:
        file[file_len++] = (uint8_t)number();
        break;
    case 2:
        change(file, file_len);
        break;
    }
}

static vs_context choose_context(void)
{
    vs_context context = {.limit = VS_NO_LIMIT, .side = side, .width = ONE_OF(1, 1, 1, 0, 2, 3, 4, 8, 16, 17)};
    if (below(8) == 0) {
        context.limit = below(4) == 0 ? below(9000) : below(120);
    }
    if (below(16) == 0) {
        context.count = ONE_OF(1, 2, 16, 17, 0xFFFFFFFF);
        for (size_t i = 0; i < 16; i++) {
            context.dead[i] = (uint32_t)below(length + 10);
        }
    }
    return context;
}

static void choose_setup(void)
{
    memset(&setup, 0, sizeof setup);
    setup.custom = ONE_OF(0, 0, 1, 9);
    setup.reserve = ONE_OF(0, 0, 0, 100, 4097);
    setup.records = ONE_OF(0, 200, 1000, 1000);
    setup.modem.share = ONE_OF(0, 300, 1000, 1500, 1500);
    setup.modem.reserve = ONE_OF(0, 0, 100, 4097);
    memcpy(setup.modem.vendor, vendors[ONE_OF(4, 4, 4, 4, 4, 4, 4, 4, 0, 1, 3)], 16);
    setup.share = VS_WHOLE_SHARE(length) - setup.records - setup.modem.share;
    switch (below(40)) {
    case 0:
        setup.share += 1;
        break;
    case 1:
        setup.share = 0;
        break;
    case 2:
        setup.records = 0xFFFFFFFF;
        break;
    case 3:
        setup.share = setup.modem.share = setup.records = 0xFFFFFFFF; /* their sum does not wrap */
        break;
    }
    setup.rules = ONE_OF(0, 0, 0, 1, 2, 33);
    for (size_t i = 0; i < 32; i++) {
        vs_setting *rule = &setup.settings[i];
        choose_name();
        rule->size = (uint32_t)name_len;
        memcpy(rule->name, name, 128);
        memcpy(rule->vendor, vendor, 16);
        rule->least = ONE_OF(0, 0, 1, 4);
        rule->most = ONE_OF(4, 2048, 2048, 0xFFFFFFFF);
        rule->fixed = ONE_OF(0, 0, 0, 1);
        rule->at = ONE_OF(0, 0, 1, 0xFFFFFFFF);
        rule->width = ONE_OF(1, 1, 2, 4, 3);
        rule->ranged = ONE_OF(0, 1, 1, 2);
        rule->high = ONE_OF(255, 255, 2, 0xFFFFFFFF);
        rule->count = ONE_OF(0, 3, 8, 9);
        for (uint32_t k = 0; k < 8; k++) {
            rule->numbers[k] = k;
        }
    }
}

/* How much of the image a call is given: sometimes less than there is. */
static size_t given(void) { return below(200) == 0 ? length - 1 - below(length) : length; }

/* ---- the calls */

static void twins(void)
{
    memcpy(twin_image, image, length);
    memcpy(twin_content, content, sizeof content);
    memcpy(twin_buffer, buffer, sizeof buffer);
}

static int same_answer(vs_answer one, vs_answer two) { return one.kind == two.kind && one.rule == two.rule && one.stores == two.stores; }

/* Both forms have done the same. */
static void alike(int answered)
{
    differences += !answered || memcmp(twin_image, image, length) != 0 || memcmp(twin_content, content, sizeof content) != 0 || memcmp(twin_buffer, buffer, sizeof buffer) != 0;
}

static void alike_sessions(const vs_session *one, const vs_session *two) { differences += memcmp(one, two, sizeof *one) != 0; }

static void alike_plans(const vs_plan *one, const vs_plan *two)
{
    alike(one->rule == two->rule && one->deciding == two->deciding && memcmp(one->operations, two->operations, sizeof one->operations) == 0);
}

static void stored(vs_answer answer)
{
    answered(answer);
    mix_bytes(image, length);
    mix_bytes(content, VS_BLOCK);
}

static void format(void)
{
    length = VS_BLOCK * (2 * ONE_OF(1, 1, 1, 1, 1, 2, 2, 3, 7) + 1);
    for (size_t i = 0; below(2) == 0 && i < length; i += 1 + below(100)) {
        image[i] = (uint8_t)number();
    }
    vs_context context = choose_context();
    stored(vs_format(context, image, given(), content));
}

static void start_up(void)
{
    choose_setup();
    vs_context context = choose_context();
    size_t size = given();
    twins();
    session.setup = setup;
    vs_answer lent = vs_start_up_lent(context, twin_image, size, &session, twin_content);
    vs_started started = vs_start_up(context, image, size, setup, content);
    alike(same_answer(started.answer, lent));
    alike_sessions(&started.session, &session);
    mix_bytes(&session, sizeof session);
    stored(started.answer);
}

static void set(void)
{
    choose_name();
    uint32_t attributes = choose_attributes();
    choose_data(attributes);
    uint32_t presence = ONE_OF(0, 0, 1, 7), verdict = ONE_OF(VS_BY_NONE, VS_BY_PK, VS_BY_KEK, VS_BY_PAYLOAD, VS_BY_CREATOR, 5);
    vs_context context = choose_context();
    size_t size = given();
    twins();
    vs_answer lent = vs_set_lent(context, &session, twin_image, size, name, name_len, vendor, attributes, data, data_len, presence, verdict, twin_content);
    vs_answer answer = vs_set(context, session, image, size, name, name_len, vendor, attributes, data, data_len, presence, verdict, content);
    alike(same_answer(answer, lent));
    stored(answer);
}

static void profile(void)
{
    choose_file();
    vs_context context = choose_context();
    size_t size = given();
    twins();
    vs_answer lent = vs_profile_lent(context, &session, twin_image, size, file, file_len, twin_content);
    vs_answer answer = vs_profile(context, session, image, size, file, file_len, content);
    alike(same_answer(answer, lent));
    stored(answer);
}

/* Mostly one that a request may name, and asked by us. */
static uint32_t choose_mode(void)
{
    side = below(8) > 0 ? VS_OURS : ONE_OF(VS_MODEM, 2, 0xFFFFFFFF);
    return below(8) > 0 ? ONE_OF(VS_AUDIT_MODE, VS_DEPLOYED_MODE) : ONE_OF(VS_SETUP_MODE, VS_USER_MODE, 4, 0x102, 0xFFFFFFFF);
}

static void mode(void)
{
    uint32_t to = choose_mode();
    vs_context context = choose_context();
    size_t size = given();
    twins();
    vs_answer lent = vs_mode_lent(context, &session, twin_image, size, to, twin_content);
    vs_answer answer = vs_mode(context, session, image, size, to, content);
    alike(same_answer(answer, lent));
    stored(answer);
}

static void replied(vs_reply reply, vs_reply lent)
{
    alike(same_answer(reply.answer, lent.answer) && reply.size == lent.size && reply.attributes == lent.attributes && reply.needed == lent.needed);
    answered(reply.answer);
    mix(reply.size);
    mix(reply.attributes);
    mix(reply.needed);
    mix_bytes(buffer, 256);
}

static void get(void)
{
    choose_name();
    size_t size = below(3) == 0 ? below(20) : DATA, image_size;
    vs_context context = choose_context();
    image_size = given();
    twins();
    vs_reply lent = vs_get_lent(context, &session, twin_image, image_size, name, name_len, vendor, twin_buffer, size);
    replied(vs_get(context, session, image, image_size, name, name_len, vendor, buffer, size), lent);
}

/* A key in its place, with what follows the name; its size is mostly right. The side is mostly that of the last name. */
static void choose_key(size_t i)
{
    choose_name();
    memcpy(keys + VS_KEY * i, vendor, 16);
    memcpy(keys + VS_KEY * i + 16, name, VS_LARGEST_NAME);
    sizes[i] = below(16) > 0 ? (uint32_t)(16 + name_len) : ONE_OF(0, 15, 16, 145, 0xFFFFFFFF);
}

static void get_many(void)
{
    size_t names = below(8) == 0 ? ONE_OF(0, 1, 63, 64, 65, ASKED) : below(12), keys_len, size, image_size;
    for (size_t i = 0; i < names; i++) {
        choose_key(i);
    }
    keys_len = below(8) == 0 ? below(VS_KEY * names + 1) : VS_KEY * names;
    size = below(3) == 0 ? below(40) : DATA;
    vs_context context = choose_context();
    image_size = given();
    twins();
    memcpy(twin_items, items, sizeof items);
    vs_answer lent = vs_get_many_lent(context, &session, twin_image, image_size, keys, keys_len, sizes, names, twin_items, twin_buffer, size);
    vs_answer answer = vs_get_many(context, session, image, image_size, keys, keys_len, sizes, names, items, buffer, size);
    alike(same_answer(answer, lent) && memcmp(twin_items, items, sizeof items) == 0);
    answered(answer);
    mix_bytes(items, sizeof items);
    mix_bytes(buffer, sizeof buffer);
}

static void query(void)
{
    uint32_t attributes = choose_attributes();
    vs_context context = choose_context();
    size_t image_size = given();
    twins();
    vs_room lent = vs_query_lent(context, &session, twin_image, image_size, attributes);
    vs_room room = vs_query(context, session, image, image_size, attributes);
    alike(same_answer(room.answer, lent.answer) && room.storage == lent.storage && room.remaining == lent.remaining && room.largest == lent.largest);
    answered(room.answer);
    mix(room.storage);
    mix(room.remaining);
    mix(room.largest);
}

static void next_name(void)
{
    choose_name();
    name_len = below(4) == 0 ? 2 : name_len;
    name[0] = name_len == 2 ? 0 : name[0];
    size_t size = below(3) == 0 ? below(VS_LARGEST_NAMED) : VS_LARGEST_NAMED, image_size;
    vs_context context = choose_context();
    image_size = given();
    twins();
    vs_reply lent = vs_next_name_lent(context, &session, twin_image, image_size, name, name_len, vendor, twin_buffer, size);
    replied(vs_next_name(context, session, image, image_size, name, name_len, vendor, buffer, size), lent);
}

static void planned(vs_plan plan)
{
    answered((vs_answer){plan.rule == 0 ? VS_DONE : VS_REFUSED, plan.rule, plan.deciding});
    for (size_t i = 0; i < VS_OPERATIONS; i++) {
        mix(plan.operations[i].kind);
        mix(plan.operations[i].at);
        mix(plan.operations[i].from);
        mix(plan.operations[i].len);
    }
    mix_bytes(content, VS_BLOCK);
}

static void plan_set(void)
{
    choose_name();
    uint32_t attributes = choose_attributes();
    choose_data(attributes);
    uint32_t presence = ONE_OF(0, 1), verdict = ONE_OF(VS_BY_NONE, VS_BY_PK, VS_BY_PAYLOAD, 5);
    size_t size = given();
    twins();
    vs_plan lent = vs_plan_set_lent(&session, side, twin_image, size, name, name_len, vendor, attributes, data, data_len, presence, verdict, twin_content);
    vs_plan plan = vs_plan_set(session, side, image, size, name, name_len, vendor, attributes, data, data_len, presence, verdict, content);
    alike_plans(&plan, &lent);
    planned(plan);
}

static void plan_profile(void)
{
    choose_file();
    size_t size = given();
    twins();
    vs_plan lent = vs_plan_profile_lent(&session, side, twin_image, size, file, file_len, twin_content);
    vs_plan plan = vs_plan_profile(session, side, image, size, file, file_len, content);
    alike_plans(&plan, &lent);
    planned(plan);
}

static void plan_mode(void)
{
    uint32_t to = choose_mode();
    size_t size = given();
    twins();
    vs_plan lent = vs_plan_mode_lent(&session, side, twin_image, size, to, twin_content);
    vs_plan plan = vs_plan_mode(session, side, image, size, to, content);
    alike_plans(&plan, &lent);
    planned(plan);
}

static void plan_start_up(void)
{
    size_t size = given();
    twins();
    vs_plan lent = vs_plan_start_up_lent(&session, twin_image, size, twin_content);
    vs_plan plan = vs_plan_start_up(image, size, session.setup, content);
    alike_plans(&plan, &lent);
    planned(plan);
}

static void plan_format(void) { planned(vs_plan_format(image, given(), content)); }

static void check(void)
{
    vs_checked checked = vs_check(image, given());
    answered(checked.answer);
    mix(checked.blocks);
    mix(checked.tail);
}

static void present_mode(void)
{
    vs_platform platform = vs_present_mode(image, given());
    answered(platform.answer);
    mix(platform.mode);
}

/* One name, or so many that the list may be full. */
static void lock(void)
{
    for (uint64_t left = below(8) == 0 ? 20 : 1; left > 0; left--) {
        choose_name();
        name[0] = (uint8_t)(name[0] ^ (left > 1 ? left : 0));
        vs_listed listed = vs_lock(session, side, name, name_len, vendor);
        differences += !same_answer(listed.answer, vs_lock_lent(&session, side, name, name_len, vendor));
        alike_sessions(&listed.session, &session);
        answered(listed.answer);
        mix_bytes(&session, sizeof session);
    }
}

static void phase(void)
{
    uint32_t to = ONE_OF(0, 0, 1, 1, 2, 3);
    vs_session moved = vs_phase(session, to);
    vs_phase_lent(&session, to);
    alike_sessions(&moved, &session);
    mix_bytes(&session, sizeof session);
}

static void session_new(void)
{
    choose_setup();
    session.setup = setup;
    vs_session_fresh(&session);
    vs_session made = vs_session_new(setup);
    alike_sessions(&made, &session);
    mix_bytes(&session, sizeof session);
}

/* There, and mostly back. */
static void move(void)
{
    size_t target = below(50) == 0 ? below(VS_LARGEST_IMAGE) : below(4) == 0 ? VS_BLOCK * (2 * ONE_OF(1, 2, 7) + 1) : length;
    answered(vs_to_plain(image, given(), other, target));
    mix_bytes(other, target);
    answered(vs_from_plain(other, target, image, length));
    mix_bytes(image, length);
}

/* No call: a bit of the image is another. */
static void damage(void)
{
    size_t at = below(length);
    image[at] ^= (uint8_t)(1u << below(8));
}

/* No call: every PlatMode that is stored is another byte, which may count as absent. */
static void stray(void)
{
    static const uint8_t mode_name[18] = {'P', 0, 'l', 0, 'a', 0, 't', 0, 'M', 0, 'o', 0, 'd', 0, 'e', 0, 0, 0};
    uint8_t byte = ONE_OF(2, 3, 0, 7);
    for (size_t at = 0; at + sizeof mode_name < length; at++) {
        if (memcmp(image + at, mode_name, sizeof mode_name) == 0) {
            image[at + sizeof mode_name] = byte;
        }
    }
}

static void call(void)
{
    static const struct {
        void (*made)(void);
        uint32_t share;
    } calls[] = {{set, 28}, {profile, 4}, {mode, 4}, {get, 9}, {get_many, 4}, {query, 3}, {next_name, 9}, {plan_set, 8}, {plan_profile, 2}, {plan_mode, 1}, {start_up, 8},
                 {check, 3}, {present_mode, 1}, {plan_start_up, 3}, {lock, 4}, {phase, 2}, {session_new, 1}, {plan_format, 1}, {move, 2}, {format, 1}, {damage, 1}, {stray, 1}};
    uint64_t chosen = below(100);
    for (size_t i = 0; i < sizeof calls / sizeof calls[0]; i++) {
        if (chosen < calls[i].share) {
            mix(i);
            calls[i].made();
            return;
        }
        chosen -= calls[i].share;
    }
}

int main(int argc, char **argv)
{
    unsigned long count = argc > 1 ? strtoul(argv[1], NULL, 10) : COUNT, rules = 0;
    format();
    start_up();
    for (unsigned long i = 0; i < count; i++) {
        call();
        /* a store that no start-up mends is of little use */
        if (below(20) == 0 && vs_check(image, length).answer.kind == VS_REFUSED) {
            start_up();
            if (vs_check(image, length).answer.kind == VS_REFUSED) {
                format();
            }
        }
    }
    for (size_t rule = 1; rule < RULES; rule++) {
        rules += broken[rule] > 0;
    }
    printf("%lu calls: %llu done, %llu stopped, %llu refused by %lu rules; hash %016llX; %lu with another outcome if the session is lent\n", count,
           (unsigned long long)kinds[VS_DONE], (unsigned long long)kinds[VS_STOPPED], (unsigned long long)kinds[VS_REFUSED], rules, (unsigned long long)hash, differences);
    return differences > 0 || (count >= COUNT && rules < KNOWN);
}
