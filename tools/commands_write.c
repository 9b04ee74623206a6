/* The command write: a rule file from its text. */
#include "rule_text.h"

static int write_file(int count, char **operand)
{
    const char *out_path = out_of_bytes("a rule file");
    (void)count;
    distinct(operand[0], out_path);
    bytes file = file_of_text(read_rule_text(load(operand[0])));
    mulgreddi_answer a = mulgreddi_check(file.at, file.len);
    if (a.refusal)
        return refused(file.path, a.refusal, &file);
    save(out_path, file.at, file.len);
    if (out_path) {
        print_text(stdout, file.path);
        printf(": states %u, letters %u, clauses %u, %zu bytes\n", mulgreddi_states(file.at, file.len), mulgreddi_letters(file.at, file.len),
               mulgreddi_clauses(file.at, file.len), file.len);
    }
    return YES;
}

const command command_write = {
    "write", "[--out=FILE] TEXT", "out=",
    "Writes the file of a rule from a text as `show` prints it to standard output:\n"
    "    # some time GO\n"
    "    letters WAIT GO\n"
    "    state seek rejecting\n"
    "        WAIT: seek\n"
    "        GO: true\n"
    "    initial seek\n"
    "letters has names, or their number. Under a state each letter has one line with its clauses, as `a & b | c`,\n"
    "`true` or `false`; a line may have several letters, or * for all that have none. # begins a comment, and an\n"
    "odd name stands in \"\". What is wrong with the text is told with its line.\n"
    "  --out=FILE           writes it there and prints how much the rule has\n",
    1, 1, write_file,
};
