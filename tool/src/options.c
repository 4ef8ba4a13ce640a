/* The command line: actions, setting and output in any order. */
#define _GNU_SOURCE
#include "options.h"

#include <errno.h>
#include <getopt.h>
#include <stdio.h>
#include <stdlib.h>
#include <string.h>

#include "actions.h"
#include "status.h"

enum { ACTION = 256, BASE = 512, SPT0, SPT1, GRANULE, DRY, PLACE, PLAN, BOX, EXPLAIN, JSON, VERSION };
enum { LENGTH_MAX = 268435456, OPTIONS_MAX = 64 };

static const char usage_text[] =
    "usage: rsu-image IMAGE [SETTING] ACTION [OUTPUT]        SLOT: a slot number, or a name (=NAME is always a name)\n"
    "  -c, --count               -l, --list [SLOT]           as rsu_client prints them; --list alone: a table of all "
    "slots\n"
    "  -z, --size SLOT           -p, --priority SLOT\n"
    "  -E, --enable SLOT         -D, --disable SLOT\n"
    "      --rename SLOT NAME        --repair\n"
    "      --create NAME LENGTH      --delete NAME             a slot is deleted by its name alone: numbers move\n"
    "      --table                   tables, entries, pointer block and its pointers, as U-Boot's `rsu list` shows "
    "them\n"
    "      --map                     a drawing of the flash: partitions, which copies stand and agree, the boot order\n"
    "      --check                   do the pairs agree, what do the places hold; with several images one line each\n"
    "      --places                  every place in use and what it holds\n"
    "      --explain                 with a command: what the power failing at any moment would leave\n"
    "SETTING  --base ADDRESS  --spt0 ADDRESS  --spt1 ADDRESS  --granule 4096|32768|65536     numbers as 0x.. or "
    "decimal\n"
    "OUTPUT   --dry-run (default)  -o FILE  --in-place  --steps FILE  --device   -q  --json  -h, --help  --version\n";

static const struct option fixed_options[] = {
    {"base", required_argument, NULL, BASE},  {"spt0", required_argument, NULL, SPT0},
    {"spt1", required_argument, NULL, SPT1},  {"granule", required_argument, NULL, GRANULE},
    {"dry-run", no_argument, NULL, DRY},      {"in-place", no_argument, NULL, PLACE},
    {"steps", required_argument, NULL, PLAN}, {"device", no_argument, NULL, BOX},
    {"explain", no_argument, NULL, EXPLAIN},  {"json", no_argument, NULL, JSON},
    {"help", no_argument, NULL, 'h'},         {"version", no_argument, NULL, VERSION},
};

/* What the parsing keeps beside the options. */
struct parsing {
    struct options *options;
    int argc;
    char **argv;
    char *after_list; /* the word after --list: its slot, or the image */
    bool output_is_given;
    struct option rows[OPTIONS_MAX];
    char letters[OPTIONS_MAX];
};

static int fail_usage(const char *what, const char *word) {
    return fail(USAGE, "%s%s%s (rsu-image --help shows them all)", what, word != NULL ? ": " : "",
                word != NULL ? word : "");
}

/* getopt's rows: the actions, then the rest. Words that are no option are returned in their turn, as 1. */
static void make_rows(struct parsing *parsing) {
    size_t row = 0;
    char *letter = parsing->letters + sprintf(parsing->letters, "-:o:qh");
    for (size_t i = 0; i < action_count; i++) {
        int argument = actions[i].words == 0 ? no_argument
                       : actions[i].optional ? optional_argument
                                             : required_argument;
        parsing->rows[row++] = (struct option){actions[i].name, argument, NULL, ACTION + (int)i};
        if (actions[i].letter == 0) continue;
        *letter++ = (char)actions[i].letter;
        for (int colons = argument; colons > 0; colons--) *letter++ = ':';
    }
    *letter = 0;
    memcpy(parsing->rows + row, fixed_options, sizeof fixed_options);
    memset(parsing->rows + row + sizeof fixed_options / sizeof fixed_options[0], 0, sizeof parsing->rows[0]);
}

static bool is_number(const char *word, unsigned long long *value) {
    char *end;
    int base = strncmp(word, "0x", 2) == 0 || strncmp(word, "0X", 2) == 0 ? 16 : 10;
    errno = 0;
    *value = strtoull(word, &end, base);
    return strspn(word, "0123456789") > 0 && *end == 0 && errno == 0;
}

static int take_number(struct given *given, const char *option) {
    unsigned long long value;
    if (!is_number(optarg, &value)) return fail_usage(option, "a number, as 0x.. or decimal");
    if (given->is_given && given->value != value) return fail_usage(option, "given twice");
    *given = (struct given){true, value};
    return -1;
}

static int take_base(struct parsing *parsing) {
    int status = take_number(&parsing->options->base, "--base");
    size_t base = parsing->options->base.value;
    if (status == -1 && (base % 4096 != 0 || base > LENGTH_MAX))
        return fail_usage("--base", "a multiple of 4,096, at most 268,435,456");
    return status;
}

static int take_output(struct parsing *parsing, enum output output) {
    if (parsing->output_is_given) return fail_usage("one output at a time", NULL);
    parsing->output_is_given = true;
    parsing->options->output = output;
    parsing->options->output_path = output == COPY || output == STEPS ? optarg : NULL;
    return -1;
}

/* The next word of the command line, if it is no option. */
static char *next_word(struct parsing *parsing) {
    return optind < parsing->argc ? parsing->argv[optind++] : NULL;
}

/* A length has 32 bits; whether one fits the flash is the library's to judge. */
static int take_length(struct options *options) {
    unsigned long long length;
    if (!is_number(options->words[1], &length) || length > UINT32_MAX)
        return fail_usage("LENGTH", "a number of bytes, as 0x.. or decimal, at most 4,294,967,295");
    options->length = (uint32_t)length;
    return -1;
}

static int take_action(struct parsing *parsing, const struct action *action) {
    struct options *options = parsing->options;
    if (options->action != NULL) return fail_usage("one action at a time", action->name);
    options->action = action;
    options->words[0] = optarg;
    if (action->optional && optarg == NULL && optind < parsing->argc && parsing->argv[optind][0] != '-')
        parsing->after_list = next_word(parsing);
    if (action->words == 2 && (options->words[1] = next_word(parsing)) == NULL)
        return fail_usage("two words belong to this action", action->name);
    return action->has_length ? take_length(options) : -1;
}

static int take_option(struct parsing *parsing, int option) {
    struct options *options = parsing->options;
    switch (option) {
    case 1: options->images[options->image_count++] = optarg; return -1;
    case BASE: return take_base(parsing);
    case SPT0: return take_number(&options->spt0, "--spt0");
    case SPT1: return take_number(&options->spt1, "--spt1");
    case GRANULE: return take_number(&options->granule, "--granule");
    case DRY: return take_output(parsing, DRY_RUN);
    case 'o': return take_output(parsing, COPY);
    case PLACE: return take_output(parsing, IN_PLACE);
    case PLAN: return take_output(parsing, STEPS);
    case BOX: return take_output(parsing, DEVICE);
    case EXPLAIN: options->explain = true; return -1;
    case JSON: options->json = true; return -1;
    case 'q': quiet = true; return -1;
    case 'h': fputs(usage_text, stdout); return DONE;
    case VERSION: puts("rsu-image 1"); return DONE;
    case ':': return fail_usage("a word is missing after", parsing->argv[optind - 1]);
    case '?': return fail_usage("no such option", parsing->argv[optind - 1]);
    }
    for (size_t i = 0; i < action_count; i++)
        if (option == ACTION + (int)i || option == actions[i].letter) return take_action(parsing, &actions[i]);
    return fail_usage("no such option", NULL);
}

/* The word after --list is its slot if another word is left for the image, else it is the image. */
static void settle_list(struct parsing *parsing) {
    struct options *options = parsing->options;
    if (parsing->after_list == NULL) return;
    if (options->image_count > 0)
        options->words[0] = parsing->after_list;
    else
        options->images[options->image_count++] = parsing->after_list;
}

static int judge(const struct options *options) {
    if (options->image_count == 0 && options->action == NULL) {
        fputs(usage_text, stderr);
        return USAGE;
    }
    if (options->action == NULL) return fail_usage("no action is given", NULL);
    if (options->image_count == 0) return fail_usage("no image is given", NULL);
    if (options->image_count > 1 && !options->action->many_images)
        return fail_usage("one image at a time", options->images[1]);
    if (options->action->start == NULL && (options->explain || options->output != DRY_RUN))
        return fail_usage("--explain and an output belong to a command, and this action only reads",
                          options->action->name);
    return -1;
}

int options_parse(struct options *options, int argc, char **argv) {
    static struct parsing parsing;
    parsing = (struct parsing){.options = options, .argc = argc, .argv = argv};
    *options = (struct options){.images = calloc((size_t)argc + 1, sizeof(char *))};
    if (options->images == NULL) return fail(INPUT_OUTPUT, "no memory");
    make_rows(&parsing);
    opterr = 0;
    int option, status = -1;
    while (status == -1 && (option = getopt_long(argc, argv, parsing.letters, parsing.rows, NULL)) != -1)
        status = take_option(&parsing, option);
    while (status == -1 && optind < argc) options->images[options->image_count++] = argv[optind++];
    if (status != -1) return status;
    settle_list(&parsing);
    return judge(options);
}
