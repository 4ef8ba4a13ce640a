/* Text for people, and JSON. */
#include "text.h"

#include <inttypes.h>
#include <locale.h>
#include <stdio.h>
#include <stdlib.h>
#include <string.h>

enum { KEPT = 8, TEXT_SIZE = 32 };

static char *kept_text(void) {
    static char texts[KEPT][TEXT_SIZE];
    static size_t next;
    return texts[next++ % KEPT];
}

bool is_same_name(const struct name *one, const struct name *other) {
    return one->length == other->length && memcmp(one->bytes, other->bytes, one->length) == 0;
}

const char *printed(const struct name *name) {
    char *text = kept_text();
    for (size_t i = 0; i < name->length; i++)
        text[i] = name->bytes[i] >= 0x21 && name->bytes[i] <= 0x7E ? (char)name->bytes[i] : '?';
    text[name->length] = 0;
    return text;
}

const char *grouped(uint64_t number) {
    char digits[TEXT_SIZE], *text = kept_text(), *end = text;
    int count = snprintf(digits, sizeof digits, "%" PRIu64, number);
    for (int i = 0; i < count; i++) {
        if (i > 0 && (count - i) % 3 == 0) *end++ = ',';
        *end++ = digits[i];
    }
    *end = 0;
    return text;
}

static bool needs_comma;

static void before_value(void) {
    if (needs_comma) putchar(',');
    needs_comma = true;
}

void json_open(char bracket) {
    before_value();
    putchar(bracket);
    needs_comma = false;
}

void json_close(char bracket) {
    putchar(bracket);
    needs_comma = true;
}

/* Bytes of 0x80 and more are put as they are where they are UTF-8, else as the characters of these numbers. */
static void put_escaped(const uint8_t *bytes, size_t length, bool is_utf8) {
    putchar('"');
    for (size_t i = 0; i < length; i++)
        if (bytes[i] < 0x20 || bytes[i] == 0x7F || (bytes[i] > 0x7F && !is_utf8) || bytes[i] == '"' || bytes[i] == '\\')
            printf("\\u%04x", bytes[i]);
        else
            putchar(bytes[i]);
    putchar('"');
}

void json_key(const char *key) {
    before_value();
    printf("\"%s\":", key);
    needs_comma = false;
}

void json_number(uint64_t number) {
    before_value();
    printf("%" PRIu64, number);
}

void json_bool(int truth) {
    before_value();
    fputs(truth ? "true" : "false", stdout);
}

void json_text(const char *text) {
    before_value();
    bool is_utf8 = setlocale(LC_CTYPE, "C.UTF-8") != NULL && mbstowcs(NULL, text, 0) != (size_t)-1;
    put_escaped((const uint8_t *)text, strlen(text), is_utf8);
}

void json_name(const struct name *name) {
    before_value();
    put_escaped(name->bytes, name->length, false);
}

void json_end(void) {
    putchar('\n');
    needs_comma = false;
}
