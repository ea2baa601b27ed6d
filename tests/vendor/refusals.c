/*
 * Every row of refusals in words, as barrier_help.h has them: call, number,
 * value, what is wrong and what can be done.  The code for Rust and Python is
 * compared with these lines.
 */
#include <barrier_help.h>
#include <inttypes.h>
#include <stdio.h>

int main(void)
{
    static const uint64_t values[] = {0, 1, 7, 13, 14, 15, 16};
    unsigned call;
    for (call = BARRIER_HELP_PLAN; call <= BARRIER_HELP_OPEN_REACH; call++) {
        uint64_t number;
        for (number = 0; number <= 18; number++) {
            size_t i;
            for (i = 0; i < sizeof values / sizeof values[0]; i++) {
                char words[BARRIER_HELP_TEXT_MAX], remedy[BARRIER_HELP_TEXT_MAX];
                const enum barrier_help_call of = (enum barrier_help_call)call;
                barrier_help_refusal(of, number, values[i], words, sizeof words);
                barrier_help_remedy(of, number, values[i], remedy, sizeof remedy);
                printf("%s %" PRIu64 " %" PRIu64 ": %s | %s\n", barrier_help_call_name(of), number,
                       values[i], words, remedy);
            }
        }
    }
    return 0;
}
