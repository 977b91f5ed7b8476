/* A record in words, and back. */
#include "common.h"

#include <ctype.h>
#include <stdlib.h>
#include <string.h>

/* The command bytes; a command that has several is said with a number, counted from its first. */
static const struct command {
    uint8_t first, last;
    const char *words;
} commands[] = {
    { 0x00, 0x7F, "column" },
    { 0xA0, 0xA0, "ADC forward" },
    { 0xA1, 0xA1, "ADC reverse" },
    { 0xA4, 0xA4, "static drive off" },
    { 0xA5, 0xA5, "static drive on" },
    { 0xA8, 0xA8, "duty 1/16" },
    { 0xA9, 0xA9, "duty 1/32" },
    { 0xAE, 0xAE, "display off" },
    { 0xAF, 0xAF, "display on" },
    { 0xB8, 0xBB, "page" },
    { 0xC0, 0xDF, "start line" },
    { 0xE0, 0xE0, "read-modify-write on" },
    { 0xE2, 0xE2, "reset" },
    { 0xEE, 0xEE, "read-modify-write off" },
};

/* The cycles that are said with their byte; typed, the short words do. */
static const struct {
    uint8_t lines;
    const char *words, *short_words;
} cycles[] = {
    { PEDRALUME_COMMAND_WRITE, "command", "command" },
    { PEDRALUME_DATA_WRITE, "data write", "write" },
    { PEDRALUME_STATUS_READ, "status read", "status" },
    { PEDRALUME_DATA_READ, "data read", "read" },
};

enum {
    COMMANDS = sizeof commands / sizeof commands[0],
    CYCLES = sizeof cycles / sizeof cycles[0]
};

/* ---- to words ---- */

bool has_words(const uint8_t record[RECORD])
{
    return record[0] >= PEDRALUME_COMMAND_WRITE && record[0] <= PEDRALUME_DATA_READ && record[1] <= 1 && record[3] == 0;
}

const char *chip_words(unsigned chip)
{
    return chip == 0 ? "left" : "right";
}

/* A byte that is no command is given as it is. */
static void command_words(uint8_t byte, char *words, size_t room)
{
    size_t i = 0;
    while (i < COMMANDS && byte > commands[i].last)
        i++;
    if (i == COMMANDS || byte < commands[i].first)
        snprintf(words, room, "command %02X", byte);
    else if (commands[i].last > commands[i].first)
        snprintf(words, room, "%s %d", commands[i].words, byte - commands[i].first);
    else
        snprintf(words, room, "%s", commands[i].words);
}

void cycle_words(const uint8_t record[RECORD], char *words, size_t room)
{
    size_t i = 0;
    while (cycles[i].lines != record[0])
        i++;
    if (record[0] == PEDRALUME_COMMAND_WRITE)
        command_words(record[2], words, room);
    else
        snprintf(words, room, "%s %02X", cycles[i].words, record[2]);
}

/* ---- and back ---- */

bool take_words(const char **words, const char *wanted)
{
    size_t length = strlen(wanted);
    if (strncmp(*words, wanted, length) != 0 || ((*words)[length] != ' ' && (*words)[length] != '\0'))
        return false;
    *words += length + ((*words)[length] == ' ');
    return true;
}

bool take_cycle_words(const char **words, uint8_t *lines)
{
    for (size_t i = 0; i < CYCLES; i++)
        if (take_words(words, cycles[i].words) || take_words(words, cycles[i].short_words)) {
            *lines = cycles[i].lines;
            return true;
        }
    return false;
}

/* What is left of the words after those of the command; NULL where they are not its words. */
static const char *after(const char *words, const char *command)
{
    while (*command != '\0' && *words == tolower((unsigned char)*command)) {
        words++;
        command++;
    }
    return *command == '\0' ? words : NULL;
}

/* A number of the command, after a space. */
static bool number_of(const char *words, const struct command *command, uint8_t *byte)
{
    char *end;
    if (words[0] != ' ' || !isdigit((unsigned char)words[1]))
        return false;
    unsigned long number = strtoul(words + 1, &end, 10);
    *byte = (uint8_t)(command->first + number);
    return *end == '\0' && number <= (unsigned long)(command->last - command->first);
}

bool takes_number(const char *words, unsigned *highest)
{
    for (size_t i = 0; i < COMMANDS; i++) {
        const char *rest = after(words, commands[i].words);
        if (rest != NULL && (*rest == ' ' || *rest == '\0') && commands[i].last > commands[i].first) {
            *highest = (unsigned)(commands[i].last - commands[i].first);
            return true;
        }
    }
    return false;
}

bool command_of(const char *words, uint8_t *byte)
{
    for (size_t i = 0; i < COMMANDS; i++) {
        const char *rest = after(words, commands[i].words);
        if (rest == NULL)
            continue;
        *byte = commands[i].first;
        if (commands[i].last > commands[i].first ? number_of(rest, &commands[i], byte) : *rest == '\0')
            return true;
    }
    return false;
}
