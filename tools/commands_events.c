/* The commands show-events and write-events: event tables as text. docs/FORMAT.md has the form. */
#include "spot.h"
#include "text.h"

static int show_events(int count, char **operand)
{
    uint8_t none[1] = {0};
    rule r = open_rule(operand[0]);
    bytes events = load_events(&r, operand[1]);
    (void)count;
    mulgreddi_answer a = mulgreddi_translate(r.file.at, r.file.len, events.at, events.len, none, 0, none, 0);
    printf("# kinds drives: letter\n");
    for (size_t at = 0; events.len - at >= 5; at += 5) {
        print_event_line(stdout, &r, events.at + at);
        printf("\n");
    }
    if (events.len % 5)
        printf("# bytes of an unfinished line, left out here: %zu\n", events.len % 5);
    return a.refusal ? events_refused(&r, &events, NULL, a.refusal) : YES;
}

const command command_show_events = {
    "show-events", "FILE EVENTS", "",
    "Prints an event table as text, a line each: kinds and drives as hexadecimal bytes, LOWEST-HIGHEST, or * for all,\n"
    "a colon, the letter by its name in the rule, or by its number. `write-events` reads it. A table that is refused\n"
    "is printed as well, to be mended.\n",
    2, 2, show_events,
};

static int write_events(int count, char **operand)
{
    const char *out_path = out_of_bytes("an event table");
    distinct(operand[0], out_path);
    distinct(operand[1], out_path);
    rule r = open_rule(operand[0]);
    bytes events = events_of_text(&r, load(operand[1]));
    (void)count;
    save(out_path, events.at, events.len);
    if (out_path) {
        print_text(stdout, events.path);
        printf(": lines %zu, %zu bytes\n", events.len / 5, events.len);
    }
    return YES;
}

const command command_write_events = {
    "write-events", "[--out=FILE] FILE TEXT", "out=",
    "Writes an event table from a text as `show-events` prints it to standard output; # begins a comment. What is\n"
    "wrong with the text is told with its line.\n"
    "  --out=FILE           writes it there and prints how many lines it has\n",
    2, 2, write_events,
};
