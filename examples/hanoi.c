/* Writes the automaton of rule D as a text that model checkers read, and reads the text back.
 * Run: hanoi FOLDER */
#include <mulgreddi.h>
#include <stdio.h>
#include <stdlib.h>
#include <string.h>

static uint64_t codes[65536], transitions[1048576], back[1048576];
static uint8_t flags[65536];

int main(int argc, char **argv)
{
    if (!mulgreddi_version_serves(mulgreddi_version())) {
        fprintf(stderr, "the library is version %u, too old or too new for the header, %u\n", (unsigned)mulgreddi_version(), (unsigned)MULGREDDI_VERSION_NUMBER);
        return 1;
    }
    const char *folder = argc > 1 ? argv[1] : ".";
    char path[4096];
    uint8_t file[4096];
    snprintf(path, sizeof path, "%s/D.rule", folder);
    FILE *f = fopen(path, "rb");
    if (!f)
        return 1;
    size_t n = fread(file, 1, sizeof file, f);
    fclose(f);
    mulgreddi_answer a = mulgreddi_build(file, n, codes, 65536, transitions, 1048576);
    if (a.refusal != 0)
        return 1;
    size_t room = MULGREDDI_HOA_BOUND(a.first, a.second);
    uint8_t *text = malloc(room);
    if (!text)
        return 1;
    mulgreddi_answer w = mulgreddi_write_hoa(file, n, (const uint8_t *)codes, 8 * a.first, (const uint8_t *)transitions, 8 * a.second, text, room);
    if (w.refusal != 0)
        return 1;
    fwrite(text, 1, w.first, stdout);
    mulgreddi_answer s = mulgreddi_write_hoa(file, n, (const uint8_t *)codes, 8 * a.first, (const uint8_t *)transitions, 8 * a.second, text, w.first - 1);
    printf("one byte less: refused %llu\n", (unsigned long long)s.refusal);
    mulgreddi_answer r = mulgreddi_read_hoa(text, w.first, flags, sizeof flags, back, 1048576);
    printf("read back: %llu macrostates, %llu transitions, %s; flags", (unsigned long long)r.first, (unsigned long long)r.second,
           memcmp(back, transitions, 8 * r.second) == 0 ? "the same" : "others");
    for (uint64_t m = 0; m < r.first; m++)
        printf(" %u", flags[m]);
    text[0] = 'h';
    r = mulgreddi_read_hoa(text, w.first, flags, sizeof flags, back, 1048576);
    printf("\nanother first byte: refused %llu\n", (unsigned long long)r.refusal);
    free(text);
    return 0;
}
