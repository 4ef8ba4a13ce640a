/* Writing a job out: a changed copy, the image itself, a plan, or the device. */
#ifndef OUTPUT_H
#define OUTPUT_H

#include "work.h"

/* Can the output be what is asked for? Judged before anything is done. */
int judge_output(const struct options *options, const struct dump *dump);

int write_out(struct work *work);

#endif
