/* Translates a log by the archive's event table into letters of rule I, "letter 1 again and again", and judges the word whose cycle is the last
 * two letters and whose lead-in is what stands before them.
 * Run: events FOLDER */
#include <mulgreddi.h>
#include <stdio.h>

static size_t load(const char *folder, const char *name, uint8_t *bytes, size_t room)
{
    char path[4096];
    snprintf(path, sizeof path, "%s/%s", folder, name);
    FILE *f = fopen(path, "rb");
    if (!f) {
        perror(path);
        return 0;
    }
    size_t n = fread(bytes, 1, room, f);
    fclose(f);
    return n;
}

int main(int argc, char **argv)
{
    if (!mulgreddi_version_serves(mulgreddi_version())) {
        fprintf(stderr, "the library is version %u, too old or too new for the header, %u\n", (unsigned)mulgreddi_version(), (unsigned)MULGREDDI_VERSION_NUMBER);
        return 1;
    }
    const char *folder = argc > 1 ? argv[1] : ".";
    uint8_t file[4096], events[320], letters[32], masks[32];
    size_t file_len = load(folder, "I.rule", file, sizeof file);
    size_t events_len = load(folder, "site.events", events, sizeof events);

    /* kind, drive; the last byte is no event yet */
    const uint8_t log[] = {0x10, 1, 0x12, 7, 0x20, 1, 0x10, 2, 0x2f, 9, 0x10};
    mulgreddi_answer a = mulgreddi_translate(file, file_len, events, events_len, log, sizeof log, letters, sizeof letters);
    if (a.refusal) {
        printf("refused %llu\n", (unsigned long long)a.refusal);
        return 0;
    }
    size_t n = (size_t)a.first;
    printf("letters");
    for (size_t i = 0; i < n; i++)
        printf(" %u", letters[i]);
    a = mulgreddi_judge(file, file_len, letters, n - 2, letters + n - 2, 2, masks, sizeof masks);
    if (a.refusal)
        printf(": refused %llu\n", (unsigned long long)a.refusal);
    else
        printf(": %s\n", a.first ? "yes" : "no");

    /* an event of a kind that no line has */
    const uint8_t unknown[] = {0x10, 1, 0x30, 1};
    a = mulgreddi_translate(file, file_len, events, events_len, unknown, sizeof unknown, letters, sizeof letters);
    printf("kind 30: refused %llu\n", (unsigned long long)a.refusal);
    return 0;
}
