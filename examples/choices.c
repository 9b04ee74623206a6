/* Judges a word and shows which clause carries the verdict of each state, on a rule whose state 0 must leave its component: taking its first clause
 * for ever would look right at each step and accept nothing.
 * Run: choices */
#include <mulgreddi.h>
#include <stdio.h>

int main(void)
{
    if (!mulgreddi_version_serves(mulgreddi_version())) {
        fprintf(stderr, "the library is version %u, too old or too new for the header, %u\n", (unsigned)mulgreddi_version(), (unsigned)MULGREDDI_VERSION_NUMBER);
        return 1;
    }
    /* state 0 (rejecting): stay, or go on to state 1; state 1 (accepting): stay */
    const uint8_t file[] = {0x01, 0x02, 0x02, 0x02, 0x01, 0x02, 0x01, 0x00, 0x02, 0x03, 0x00, 0x41, 0x57};
    const uint8_t cycle[] = {0};
    uint8_t masks[1], choices[2];
    mulgreddi_answer a = mulgreddi_judge_choices(file, sizeof file, cycle, 0, cycle, 1, masks, sizeof masks, choices, sizeof choices);
    if (a.refusal) {
        printf("refused %llu\n", (unsigned long long)a.refusal);
        return 1;
    }
    printf("cycle 0: %s\n", a.first ? "yes" : "no");
    for (unsigned state = 0; state < 2; state++)
        if (choices[state] == 255)
            printf("state %u: does not accept\n", state);
        else
            printf("state %u: accepts by its clause %u\n", state, choices[state]);
    return 0;
}
