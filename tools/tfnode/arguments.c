/* Takes the command line apart.  Whatever is not understood ends the tool with one line. */
#include "arguments.h"

#include <inttypes.h>
#include <string.h>

struct known {
    const char *name;
    enum option option;
    bool with_value;
};

static const struct known options[] = {
    {"--json", OPTION_JSON, false},     {"--geometry", OPTION_GEOMETRY, true},
    {"--preset", OPTION_PRESET, true},  {"--lines", OPTION_LINES, false},
    {"--svg", OPTION_SVG, true},        {"--settings", OPTION_SETTINGS, true},
    {"--write", OPTION_WRITE, true},    {"--help", OPTION_HELP, false},
};

/* Geometries worth a name.  docs/TFNODE.md says what each is for. */
static const struct {
    const char *name;
    struct geometry geometry;
} presets[] = {
    {"small", {{4, 8, 12, 6, 40, 4}}},
    {"recorder", {{64, 512, 60, 4, 3600, 128}}},
    {"largest", {{64, 512, 1000, 24, 60000, 4096}}},
};

/* The option that a word is, up to a `=`; NULL if it is none of the command's. */
static const struct known *find_option(const struct command *command, const char *word)
{
    size_t length = strcspn(word, "=");
    for (size_t i = 0; i < sizeof options / sizeof *options; i++)
        if (strlen(options[i].name) == length && strncmp(options[i].name, word, length) == 0 &&
            ((command->options | OPTION_HELP) & (unsigned)options[i].option) != 0)
            return &options[i];
    return NULL;
}

static void keep_value(struct arguments *arguments, enum option option, const char *value)
{
    if (option == OPTION_GEOMETRY)
        arguments->geometry = value;
    else if (option == OPTION_PRESET)
        arguments->preset = value;
    else if (option == OPTION_SVG)
        arguments->svg = value;
    else if (option == OPTION_SETTINGS)
        arguments->settings = value;
    else if (option == OPTION_WRITE)
        arguments->write = value;
}

/* Takes the option at words[0], and its value there or in the next word; the words taken. */
static size_t take_option(struct arguments *arguments, const struct command *command, char **words)
{
    const struct known *option = find_option(command, words[0]);
    const char *equals = strchr(words[0], '=');
    if (option == NULL)
        fail(STATUS_USAGE, "unknown option %s; see `tfnode %s --help`", words[0], command->name);
    if (given(arguments, option->option))
        fail(STATUS_USAGE, "%s is given twice; give it once", option->name);
    if (!option->with_value && equals != NULL)
        fail(STATUS_USAGE, "%s takes no value; leave %s away", option->name, equals);
    if (option->with_value && equals == NULL && words[1] == NULL)
        fail(STATUS_USAGE, "%s needs a value; see `tfnode %s --help`", option->name, command->name);
    arguments->given |= (unsigned)option->option;
    keep_value(arguments, option->option, equals != NULL ? equals + 1 : words[1]);
    return option->with_value && equals == NULL ? 2 : 1;
}

void take_arguments(struct arguments *arguments, const struct command *command, char **words)
{
    size_t count = 0;
    bool options_end = false;
    memset(arguments, 0, sizeof *arguments);
    while (*words != NULL) {
        if (!options_end && strcmp(*words, "--") == 0) {
            options_end = true;
            words++;
        } else if (!options_end && (*words)[0] == '-' && (*words)[1] != '\0') {
            words += take_option(arguments, command, words);
        } else if (command->operands[count] == NULL) {
            fail(STATUS_USAGE, "`%s` is one word too many; see `tfnode %s --help`", *words,
                 command->name);
        } else {
            arguments->operands[count++] = *words++;
        }
    }
    if (command->operands[count] != NULL && !given(arguments, OPTION_HELP))
        fail(STATUS_USAGE, "%s is missing; see `tfnode %s --help`", command->operands[count],
             command->name);
}

/* Digits up to `end`; false if there is none, anything else, or more than 32 bits. */
static bool parse_digits(const char *text, const char *end, uint32_t *number)
{
    uint64_t value = 0;
    bool digits = text < end;
    for (; text < end; text++) {
        if (*text < '0' || *text > '9')
            return false;
        value = value * 10 + (uint64_t)(*text - '0');
        if (value > UINT32_MAX)
            return false;
    }
    *number = (uint32_t)value;
    return digits;
}

bool parse_number(const char *text, uint32_t *number)
{
    return parse_digits(text, text + strlen(text), number);
}

uint32_t number_operand(const char *text, const char *name)
{
    uint32_t number;
    if (!parse_number(text, &number))
        fail(STATUS_USAGE, "%s is `%s`, and must be a number in decimal digits, below 4294967296",
             name, text);
    return number;
}

/* Six numbers with commas between them. */
static bool parse_geometry(const char *text, struct geometry *geometry)
{
    for (int i = 0; i < NUMBERS; i++) {
        const char *end = text + strcspn(text, ",");
        if (!parse_digits(text, end, &geometry->numbers[i]) || (*end == ',') != (i < NUMBERS - 1))
            return false;
        text = end + 1;
    }
    return true;
}

static void find_preset(const char *name, struct geometry *geometry)
{
    for (size_t i = 0; i < sizeof presets / sizeof *presets; i++) {
        if (strcmp(presets[i].name, name) == 0) {
            *geometry = presets[i].geometry;
            return;
        }
    }
    fail(STATUS_USAGE, "there is no preset `%s`; use small, recorder or largest", name);
}

bool geometry_option(const struct arguments *arguments, struct geometry *geometry)
{
    if ((arguments->geometry != NULL) + (arguments->preset != NULL) +
            (arguments->settings != NULL) != 1)
        fail(STATUS_USAGE, "give either --geometry P,W,D,T,L,C, --preset small|recorder|largest or "
             "--settings IN");
    if (arguments->geometry != NULL && !parse_geometry(arguments->geometry, geometry))
        fail(STATUS_USAGE, "`%s` is no geometry; give six numbers P,W,D,T,L,C with commas only",
             arguments->geometry);
    if (arguments->preset != NULL)
        find_preset(arguments->preset, geometry);
    return arguments->settings == NULL;
}

void demand_pages(const struct node *node, uint32_t first, uint64_t count)
{
    uint32_t limit = number(node, L);
    if (first >= limit)
        fail(STATUS_USAGE, "page %" PRIu32 " is past the last; the node has pages 0 to %" PRIu32,
             first, limit - 1);
    if (count > limit - first)
        fail(STATUS_USAGE, "%" PRIu64 " pages from page %" PRIu32 " go past the last; the node has "
             "pages 0 to %" PRIu32, count, first, limit - 1);
}
