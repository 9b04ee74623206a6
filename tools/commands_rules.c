/* Commands on rules: check, tidy, loop, same. */
#define _XOPEN_SOURCE 700
#include "spot.h"

#include <limits.h>
#include <stdlib.h>
#include <string.h>
#include <unistd.h>

/* Tells of each letter whose name cannot stand in a word how it is written. */
static void tell_names(const bytes *file, mulgreddi_answer checked)
{
    for (unsigned letter = 0; letter < checked.second / MULGREDDI_NAME_BYTES; letter++) {
        const char *name = mulgreddi_letter_name(file->at, checked, letter);
        if (!is_plain(name, name_length(name)))
            say("%s: the name \"%.*s\" cannot stand in a word; letter %u is written by its number", brief(file->path, PATH_SHOWN),
                (int)name_length(name), name, letter);
    }
}

static int check_file(const char *path)
{
    bytes file;
    int status = try_load_rule(path, &file);
    if (status != YES)
        return status;
    mulgreddi_answer a = mulgreddi_check(file.at, file.len);
    status = a.refusal ? refused(file.path, a.refusal, &file) : YES;
    if (status == YES && !option("quiet")) {
        print_text(stdout, file.path);
        printf(": states %u, letters %u, initial ", mulgreddi_states(file.at, file.len), mulgreddi_letters(file.at, file.len));
        print_state(stdout, names_of_states(&file), mulgreddi_initial_state(file.at, file.len));
        printf(", accepting ");
        print_set(stdout, names_of_states(&file), mulgreddi_accepting_mask(file.at, file.len));
        printf(", clauses %u, preface %llu, %s", mulgreddi_clauses(file.at, file.len), (number)a.first, a.second ? "names" : "no names");
        for (unsigned letter = 0; letter < a.second / MULGREDDI_NAME_BYTES; letter++) {
            const char *name = mulgreddi_letter_name(file.at, a, letter);
            printf(" %u=%.*s", letter, (int)name_length(name), name);
        }
        printf("\n");
        tell_names(&file, a);
    }
    free(file.at);
    return status;
}

static int check(int count, char **operand)
{
    int status = YES;
    for (int i = 0; i < count; i++)
        status = worse(status, check_file(operand[i]));
    return status;
}

const command command_check = {
    "check", "[--quiet] FILE..", "quiet",
    "Reads rule files and prints, a line each: states, letters, initial state, accepting states, number of\n"
    "clauses, length of the preface in bytes, names of the letters. 0 where all are accepted.\n"
    "  --quiet              prints nothing of files that are accepted\n",
    1, INT_MAX, check,
};

static int tidy(int count, char **operand)
{
    uint8_t out[MULGREDDI_RULE_MAX];
    const char *path = option("out");
    (void)count;
    distinct(operand[0], path);
    if (path && is_standard(path))
        path = NULL;
    if (!path && isatty(STDOUT_FILENO))
        usage("the tidied file is bytes: name a file with --out, or send standard output to one");
    bytes file = load_rule(operand[0]);
    mulgreddi_answer a = mulgreddi_tidy(file.at, file.len, out, sizeof out);
    if (a.refusal)
        return refused(file.path, a.refusal, &file);
    save(path, out, a.first);
    if (path) {
        print_text(stdout, file.path);
        printf(": %u of %u clauses kept, %llu bytes\n", mulgreddi_clauses(out, a.first), mulgreddi_clauses(file.at, file.len), (number)a.first);
    }
    return YES;
}

const command command_tidy = {
    "tidy", "[--out=FILE] FILE", "out=",
    "Writes the rule file without clauses that contain or repeat another of their entry to standard output.\n"
    "The rule stays the same on every word.\n"
    "  --out=FILE           writes it there and prints how many clauses were kept\n",
    1, 1, tidy,
};

static int loop(int count, char **operand)
{
    uint8_t out[MULGREDDI_LONGEST_LOOP];
    bytes file = load_rule(operand[0]);
    (void)count;
    mulgreddi_answer a = mulgreddi_mixed_loop(file.at, file.len, out, sizeof out);
    if (a.refusal)
        return refused(file.path, a.refusal, &file);
    layout l = layout_of(&file);
    if (a.first == 0)
        printf("none");
    print_loop(stdout, &l, out, a.first);
    printf("\n");
    return a.first == 0 ? YES : NO;
}

const command command_loop = {
    "loop", "FILE", "",
    "Prints the shortest loop of states through accepting and rejecting ones, which is where a rule that is\n"
    "refused by 11 is to be mended, or `none`. 0 where there is none, 1 where there is one.\n",
    1, 1, loop,
};

static int same(int count, char **operand)
{
    bytes a = load_rule(operand[0]), b = load_rule(operand[1]);
    (void)count;
    mulgreddi_answer answer = mulgreddi_same_rules(a.at, a.len, b.at, b.len);
    if (answer.refusal) {
        const bytes *file = mulgreddi_check(a.at, a.len).refusal ? &a : &b;
        return refused(file->path, answer.refusal, file);
    }
    printf("%s\n", answer.first ? "same" : "different");
    return answer.first ? YES : NO;
}

const command command_same = {
    "same", "FILE FILE", "",
    "Prints whether two files are the same rule: `same` (0) or `different` (1). It compares tables: states, entries and\n"
    "names. Two rules that accept the same words by other tables are different here; `equal` compares words.\n",
    2, 2, same,
};
