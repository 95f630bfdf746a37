/* The store on a file, for scripts: makes the calls that standard input asks for on an image, answers each with a line, and writes the image back.
 *
 *   store IMAGE [BLOCKS]     with BLOCKS the image is formatted first
 *
 *   set VENDOR NAME ATTRIBUTES VERDICT DATA     all in hexadecimal, the name's bytes with their zero character, - for no data: done STORES, or refused RULE
 *   list                                        VENDOR NAME ATTRIBUTES DATA of each variable in flash order, then: end
 *
 * A start-up is made before the first of them. Exit status 1 where the image or a line cannot be understood, or the start-up is refused.
 */
#include <stdio.h>
#include <stdlib.h>
#include <string.h>

#include "varstore.h"

enum { LONGEST = 2 * (VS_LARGEST_DATA + 256) };

static const vs_context no_limit = {.limit = VS_NO_LIMIT};
static vs_session session; /* its setup: no custom mode, no reserve, no bytes for error records, no modem, no rules for settings; our share is all there is */
static uint8_t image[VS_LARGEST_IMAGE + 1], content[VS_CONTENT];

static void fail(const char *why)
{
    fprintf(stderr, "store: %s\n", why);
    exit(1);
}

static void answered(vs_answer answer)
{
    if (answer.kind == VS_DONE) {
        printf("done %llu\n", (unsigned long long)answer.stores);
    } else {
        printf("refused %u\n", (unsigned)answer.rule);
    }
}

static size_t bytes(const char *text, uint8_t *out)
{
    size_t size = 0;
    if (strcmp(text, "-") == 0) {
        return 0;
    }
    for (; text[0] != 0; text += 2) {
        unsigned byte;
        if (text[1] == 0 || sscanf(text, "%2x", &byte) != 1) {
            fail("not pairs of hexadecimal digits");
        }
        out[size++] = (uint8_t)byte;
    }
    return size;
}

static void print(const uint8_t *these, size_t size, char end)
{
    for (size_t i = 0; i < size; i++) {
        printf("%02X", (unsigned)these[i]);
    }
    putchar(end);
}

static void set(const vs_session *session, size_t length, const char *line)
{
    static char words[3][LONGEST + 1];
    static uint8_t vendor[LONGEST], name[LONGEST], data[LONGEST];
    unsigned attributes, verdict;
    /* LONGEST */
    if (sscanf(line, "set %4608s %4608s %x %u %4608s", words[0], words[1], &attributes, &verdict, words[2]) != 5 || bytes(words[0], vendor) != 16) {
        fail("set VENDOR NAME ATTRIBUTES VERDICT DATA");
    }
    size_t name_size = bytes(words[1], name), size = bytes(words[2], data);
    answered(vs_set_lent(no_limit, session, image, length, name, name_size, vendor, attributes, data, size, 0, verdict, content));
}

static void list(const vs_session *session, size_t length)
{
    uint8_t named[VS_LARGEST_NAMED] = {0}, next[VS_LARGEST_NAMED], data[VS_LARGEST_DATA];
    size_t size = 16 + 2;
    for (;;) {
        vs_reply reply = vs_next_name_lent(no_limit, session, image, length, named + 16, size - 16, named, next, sizeof next);
        if (reply.answer.kind != VS_DONE) {
            break;
        }
        size = reply.size;
        memcpy(named, next, size);
        vs_reply got = vs_get_lent(no_limit, session, image, length, named + 16, size - 16, named, data, sizeof data);
        if (got.answer.kind != VS_DONE) {
            fail("a name without a value");
        }
        print(named, 16, ' ');
        print(named + 16, size - 16, ' ');
        printf("%02X ", (unsigned)got.attributes);
        print(data, got.size, '\n');
    }
    puts("end");
}

static void calls(const vs_session *session, size_t length)
{
    static char line[3 * LONGEST];
    while (fgets(line, sizeof line, stdin) != NULL) {
        if (strncmp(line, "set ", 4) == 0) {
            set(session, length, line);
        } else if (strcmp(line, "list\n") == 0) {
            list(session, length);
        } else {
            fail("neither set nor list");
        }
    }
}

static size_t read_image(const char *path)
{
    FILE *file = fopen(path, "rb");
    if (file == NULL) {
        fail("no such image");
    }
    size_t length = fread(image, 1, sizeof image, file);
    fclose(file);
    return length;
}

static size_t format(unsigned blocks)
{
    size_t length = blocks > 7 ? 0 : VS_BLOCK * (2 * blocks + 1);
    if (vs_format(no_limit, image, length, content).kind != VS_DONE) {
        fail("BLOCKS is 1 to 7");
    }
    return length;
}

int main(int argc, char **argv)
{
    if (argc != 2 && argc != 3) {
        fail("usage: store IMAGE [BLOCKS]");
    }
    size_t length = argc == 3 ? format((unsigned)atoi(argv[2])) : read_image(argv[1]);
    session.setup.share = VS_WHOLE_SHARE(length);
    if (vs_start_up_lent(no_limit, image, length, &session, content).kind != VS_DONE) {
        fail("the start-up is refused");
    }
    calls(&session, length);
    FILE *file = fopen(argv[1], "wb");
    if (file == NULL || fwrite(image, 1, length, file) != length || fclose(file) != 0) {
        fail("the image cannot be written");
    }
    return 0;
}
