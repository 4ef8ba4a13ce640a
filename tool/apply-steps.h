/* What rsu-image uses of apply-steps.c, which is built into it. */
#ifndef APPLY_STEPS_H
#define APPLY_STEPS_H

#include <stdint.h>
#include <stdio.h>

/* Carries a plan out on a file or device, and returns the exit status. */
int apply_steps(FILE *plan_file, const char *target_path, int progress);

/* The SHA-256 of several parts as if they stood one after another, as 64 hexadecimal digits. */
void digest_hex(const uint8_t *const parts[], const size_t lengths[], size_t count, char hex[65]);

#endif
