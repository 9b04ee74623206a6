/* Letters and words, as they are written on the command line and in lines of text. */
#include "spot.h"
#include "text.h"

#include <stdlib.h>
#include <string.h>

size_t name_length(const char *name)
{
    size_t length = MULGREDDI_NAME_BYTES;
    while (length > 0 && name[length - 1] == ' ')
        length--;
    return length;
}

int is_plain(const char *name, size_t length)
{
    size_t digits = 0;
    for (size_t i = 0; i < length; i++) {
        if (name[i] == ' ' || name[i] == ',' || name[i] == ':')
            return 0;
        digits += name[i] >= '0' && name[i] <= '9';
    }
    return length > 0 && name[0] != '-' && digits < length;
}

void print_letter(const rule *r, unsigned letter)
{
    const char *name = r && letter < r->letters ? mulgreddi_letter_name(r->file.at, r->checked, letter) : NULL;
    if (name && is_plain(name, name_length(name)))
        printf("%.*s", (int)name_length(name), name);
    else
        printf("%u", letter);
}

void print_letters(const rule *r, const uint8_t *letters, size_t length)
{
    for (size_t i = 0; i < length; i++) {
        if (i > 0)
            putchar(',');
        print_letter(r, letters[i]);
    }
}

void print_word(const rule *r, word w)
{
    print_letters(r, w.lead, w.lead_len);
    putchar(':');
    print_letters(r, w.cycle, w.cycle_len);
}

void print_masks(const uint8_t *masks, size_t lead_len, size_t places)
{
    for (size_t place = 0; place < places; place++)
        printf("%s%02x", place == lead_len ? ":" : place ? "," : "", masks[place]);
    printf("\n");
}

int letter_named(const rule *r, const char *name, size_t length)
{
    for (unsigned letter = 0; r && letter < r->letters; letter++) {
        const char *own = mulgreddi_letter_name(r->file.at, r->checked, letter);
        if (own && name_length(own) == length && memcmp(own, name, length) == 0)
            return (int)letter;
    }
    return -1;
}

/* Whether a text is a number, decimal digits alone; *value becomes what it is, at most 256. */
static int is_number(const char *text, size_t length, int *value)
{
    *value = 0;
    for (size_t i = 0; i < length; i++) {
        if (text[i] < '0' || text[i] > '9')
            return 0;
        *value = *value * 10 + (text[i] - '0');
        *value = *value > 256 ? 256 : *value;
    }
    return length > 0;
}

int letter_of(const rule *r, const char *text, size_t length)
{
    int value;
    if (is_number(text, length, &value))
        return value < 256 ? value : -1;
    return is_plain(text, length) ? letter_named(r, text, length) : -1;
}

int letter_of_line(const rule *r, const char *line)
{
    uint8_t name[MULGREDDI_NAME_BYTES];
    int value;
    if (line[0] == '"')
        return quoted_name(line, name) ? letter_named(r, (const char *)name, name_length((const char *)name)) : -1;
    if (is_number(line, strlen(line), &value))
        return value < 256 ? value : -1;
    return letter_named(r, line, strlen(line));
}

void tell_letters(const rule *r)
{
    static int told;
    char list[MULGREDDI_LETTERS_MAX * (MULGREDDI_NAME_BYTES + 2)], *at = list;
    if (told++)
        return;
    if (!r) {
        say("a letter is written by its number here, or by its name with --rule=FILE");
        return;
    }
    for (unsigned letter = 0; letter < r->letters; letter++) {
        const char *name = mulgreddi_letter_name(r->file.at, r->checked, letter), *before = letter ? ", " : "";
        if (name && is_plain(name, name_length(name)))
            at += sprintf(at, "%s%.*s", before, (int)name_length(name), name);
        else
            at += sprintf(at, "%s%u", before, letter);
    }
    say("the letters of %s are %s", brief(r->file.path, PATH_SHOWN), list);
}

/* Reads letters from text up to its end or a colon, with commas between them; answers where it stopped, NULL where a letter is misspelt. */
static const char *read_letters(const rule *r, const char *where, const char *whole, const char *text, uint8_t *letters, size_t *count)
{
    text += strspn(text, BLANKS);
    if (*text == 0 || *text == ':')
        return text;
    for (;; text++) {
        text += strspn(text, BLANKS);
        size_t span = strcspn(text, ",:"), length = span;
        while (length > 0 && strchr(BLANKS, text[length - 1]))
            length--;
        int letter = letter_of(r, text, length);
        if (letter < 0) {
            char shown[WORD_SHOWN + 1] = {0};
            memcpy(shown, text, length < WORD_SHOWN ? length : WORD_SHOWN);
            if (length == 0) {
                say("%sword %s: a letter is missing beside a comma", where, brief(whole, WORD_SHOWN));
                return NULL;
            }
            say("%sword %s: no letter is written so: %s%s", where, brief(whole, WORD_SHOWN), shown, length > WORD_SHOWN ? ".." : "");
            tell_letters(r);
            return NULL;
        }
        letters[(*count)++] = (uint8_t)letter;
        text += span;
        if (*text != ',')
            return text;
    }
}

int read_word(const rule *r, const char *where, const char *text, word *w)
{
    size_t size = strlen(text) + 1;
    *w = (word){0, 0, room(2 * size), NULL};
    w->cycle = w->lead + size;
    const char *rest = read_letters(r, where, text, text, w->lead, &w->lead_len);
    if (rest && *rest == ':')
        rest = read_letters(r, where, text, rest + 1, w->cycle, &w->cycle_len);
    else if (rest)
        rest = ":";
    if (rest && *rest)
        say("%sword %s: a word is a lead-in, one colon and a cycle, as 0,1:0 or :0,1", where, brief(text, WORD_SHOWN));
    if (rest && *rest == 0)
        return 1;
    free_word(w);
    return 0;
}

void free_word(word *w)
{
    free(w->lead);
    *w = (word){0, 0, NULL, NULL};
}

int word_refused(const rule *r, const char *where, const char *text, word w, uint64_t refusal)
{
    say("%sword %s: refused %llu: %s", where, brief(text, WORD_SHOWN), (number)refusal, mulgreddi_refusal_text(refusal));
    word_spot(r, where, w, refusal);
    return REFUSED;
}

const rule *rule_of_names(void)
{
    static rule r;
    if (!option("rule"))
        return NULL;
    r = open_rule(option("rule"));
    return &r;
}
