/* --explain: what the power failing at any moment of a job would leave. */
#ifndef EXPLAIN_H
#define EXPLAIN_H

#include "work.h"

/* Carries the job out again, reads the flash at every moment, and tells. The flash is then as after the job. */
void explain(struct work *work);

#endif
