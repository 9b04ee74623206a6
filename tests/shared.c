/* shared LIBRARY NAME..: opens the shared library as a program does that was not linked with it, calls three entries, and finds none of the
 * names, which are of the library's inside. */
#include <mulgreddi.h>

#include <dlfcn.h>
#include <stdio.h>
#include <string.h>

typedef uint32_t (*version_entry)(void);
typedef mulgreddi_answer (*check_entry)(const uint8_t *, size_t);
typedef mulgreddi_answer (*judge_entry)(const uint8_t *, size_t, const uint8_t *, size_t, const uint8_t *, size_t, uint8_t *, size_t);

static int fails(const char *what)
{
    fprintf(stderr, "shared: %s\n", what);
    return 1;
}

int main(int argc, char **argv)
{
    /* F, "some time letter 1", and the word 0 1, then 0 for ever */
    static const uint8_t file[] = {1, 0, 1, 1, 1, 2, 0, 0, 2, 0, 'A', 'W'}, lead[] = {0, 1}, cycle[] = {0};
    uint8_t masks[MULGREDDI_PLACES_MAX];
    version_entry version;
    check_entry check;
    judge_entry judge;
    void *library = argc > 1 ? dlopen(argv[1], RTLD_NOW | RTLD_LOCAL) : NULL;
    if (!library)
        return fails(argc > 1 ? dlerror() : "no library is named");
    /* C has no cast from an object's address to a function's */
    void *at = dlsym(library, "mulgreddi_version");
    memcpy(&version, &at, sizeof version);
    at = dlsym(library, "mulgreddi_check");
    memcpy(&check, &at, sizeof check);
    at = dlsym(library, "mulgreddi_judge");
    memcpy(&judge, &at, sizeof judge);
    if (!version || !check || !judge)
        return fails("an entry is missing");
    if (version() != MULGREDDI_VERSION_NUMBER || !mulgreddi_version_serves(version()))
        return fails("mulgreddi_version is not the header's");
    if (mulgreddi_version_serves(MULGREDDI_VERSION_NUMBER - 1) || mulgreddi_version_serves(MULGREDDI_VERSION_NUMBER + 1000000))
        return fails("an older library, or one of another major number, seems to serve");
    if (check(file, sizeof file).refusal != 0 || check(file, sizeof file - 1).refusal != MULGREDDI_NO_TAG)
        return fails("mulgreddi_check answers otherwise than it should");
    mulgreddi_answer a = judge(file, sizeof file, lead, sizeof lead, cycle, sizeof cycle, masks, sizeof masks);
    if (a.refusal != 0 || a.first != 1 || masks[0] != 1 || masks[1] != 1 || masks[2] != 0)
        return fails("mulgreddi_judge answers otherwise than it should");
    for (int i = 2; i < argc; i++)
        if (dlsym(library, argv[i]))
            return fails(argv[i]);
    return dlclose(library) == 0 ? 0 : fails("the library cannot be closed");
}
