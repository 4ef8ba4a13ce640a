/* The actions: one row each. */
#include "actions.h"

#include "check.h"
#include "command.h"
#include "map.h"
#include "places.h"
#include "slots.h"
#include "table.h"

const struct action actions[] = {
    {"count", 'c', 0, 0, false, false, show_count, NULL},
    {"list", 'l', 1, 1, false, false, show_list, NULL},
    {"size", 'z', 1, 0, false, false, show_size, NULL},
    {"priority", 'p', 1, 0, false, false, show_priority, NULL},
    {"table", 0, 0, 0, false, false, show_table, NULL},
    {"map", 0, 0, 0, false, false, show_map, NULL},
    {"check", 0, 0, 0, false, true, show_check, NULL},
    {"places", 0, 0, 0, false, false, show_places, NULL},
    {"enable", 'E', 1, 0, false, false, do_command, start_enable},
    {"disable", 'D', 1, 0, false, false, do_command, start_disable},
    {"rename", 0, 2, 0, false, false, do_command, start_rename},
    {"create", 0, 2, 0, true, false, do_command, start_create},
    {"delete", 0, 1, 0, false, false, do_command, start_delete},
    {"repair", 0, 0, 0, false, false, do_command, start_repair},
};

const size_t action_count = sizeof actions / sizeof actions[0];
