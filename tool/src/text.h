/* Text for people, and JSON. */
#ifndef TEXT_H
#define TEXT_H

#include <stdbool.h>
#include <stddef.h>
#include <stdint.h>

enum { NAME_MAX_SIZE = 16 };

/* A name as the table has it, which may be any bytes but zero. */
struct name {
    uint8_t bytes[NAME_MAX_SIZE];
    size_t length;
};

bool is_same_name(const struct name *one, const struct name *other);

/* The name as it is printed, bytes outside 0x21-0x7E as `?`. Each call keeps its text until eight more calls. */
const char *printed(const struct name *name);

/* 4101 as 4,101. Each call keeps its text until eight more calls. */
const char *grouped(uint64_t number);

/* JSON to standard output. A key is followed by its value; what comes before needs a comma if it is not the first. */
void json_open(char bracket);
void json_close(char bracket);
void json_key(const char *key);
void json_number(uint64_t number);
void json_bool(int truth);
void json_text(const char *text);
void json_name(const struct name *name);
void json_end(void);

#endif
