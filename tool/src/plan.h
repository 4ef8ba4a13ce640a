/* --steps: a job as a plan that apply-steps carries out. */
#ifndef PLAN_H
#define PLAN_H

#include "work.h"

/* The plan's text, to be freed; NULL if there is no memory. */
char *plan_text(const struct work *work, size_t *length);

#endif
