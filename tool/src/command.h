/* A command: what it would do, and its job written out if that is asked for. */
#ifndef COMMAND_H
#define COMMAND_H

#include "actions.h"

int do_command(const struct options *options, const struct dump *dump, struct flash *flash);

start_job start_enable, start_disable, start_rename, start_create, start_delete, start_repair;

#endif
