/* The arguments of a program. */
#include "common.h"

#include <errno.h>
#include <stdlib.h>
#include <string.h>

const char *program;

void name_program(const char *called)
{
    const char *slash = called != NULL ? strrchr(called, '/') : NULL;
    const char *name = slash != NULL ? slash + 1 : called;
    program = name != NULL && strncmp(name, "pedralume-", strlen("pedralume-")) == 0 ? name : own_name;
}

bool wrong_argument(const char *what, const char *argument)
{
    fprintf(stderr, "%s: %s \"%s\"; see %s --help\n", program, what, argument, program);
    return false;
}

/* ---- an option ---- */

/* The length of its name: all, or what stands before "=". */
static size_t name_length(const char *argument)
{
    return strcspn(argument, "=");
}

static const struct option *option_of(const char *argument, const struct option *options, size_t count)
{
    size_t length = name_length(argument);
    for (size_t i = 0; i < count; i++)
        if (strlen(options[i].name) == length && strncmp(options[i].name, argument, length) == 0)
            return &options[i];
    return NULL;
}

/* Takes the option at argv[*i], and with it the argument after it where that is its value. */
static bool take_option(int argc, char **argv, int *i, const struct option *option)
{
    const char *argument = argv[*i];
    bool joined = argument[name_length(argument)] == '=';
    if (*option->value != NULL)
        return wrong_argument("more than one", option->name);
    if (joined && !option->takes_value)
        return wrong_argument("no value goes with", option->name);
    if (option->takes_value && !joined) {
        ++*i;
        /* A forgotten value must not swallow the next option; a file may still be ./--name. */
        if (*i == argc || strncmp(argv[*i], "--", 2) == 0)
            return wrong_argument("no value after", argument);
        argument = argv[*i];
    } else if (joined) {
        argument += name_length(argument) + 1;
    }
    *option->value = argument;
    return true;
}

/* ---- all of them ---- */

static bool take_file(const char *argument, const char **files, size_t most)
{
    size_t taken = 0;
    while (taken < most && files[taken] != NULL)
        taken++;
    if (taken == most)
        return wrong_argument(most == 1 ? "more than one file:" : "more than two files:", argument);
    files[taken] = argument;
    return true;
}

/* "-" alone is a file. */
static bool is_option(const char *argument)
{
    return argument[0] == '-' && argument[1] != '\0';
}

bool read_options(int argc, char **argv, const struct option *options, size_t count, const char **files, size_t most)
{
    bool more_options = true;
    for (int i = 1; i < argc; i++) {
        if (more_options && strcmp(argv[i], "--") == 0) {
            more_options = false;
        } else if (more_options && is_option(argv[i])) {
            const struct option *option = option_of(argv[i], options, count);
            if (option == NULL)
                return wrong_argument("unknown option", argv[i]);
            if (!take_option(argc, argv, &i, option))
                return false;
        } else if (!take_file(argv[i], files, most)) {
            return false;
        }
    }
    return true;
}

bool asked(int argc, char **argv, const char *option)
{
    for (int i = 1; i < argc && strcmp(argv[i], "--") != 0; i++)
        if (strcmp(argv[i], option) == 0)
            return true;
    return false;
}

static void print_usage(void)
{
    printf(usage[0], program, program, program);
    for (size_t part = 1; usage[part] != NULL; part++)
        fputs(usage[part], stdout);
}

bool only_told(int argc, char **argv, int *status)
{
    bool help = asked(argc, argv, "--help") || asked(argc, argv, "-h");
    if (!help && !asked(argc, argv, "--version"))
        return false;
    errno = 0;
    if (help)
        print_usage();
    else
        printf("%s (Pedralume) %s\n", program, PEDRALUME_VERSION);
    *status = all_printed() ? EXIT_SUCCESS : EXIT_FAILURE;
    return true;
}
