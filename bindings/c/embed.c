#include <stdio.h>
#include "mahrullis.h"
static struct mahrullis_tables tables; /* 430 KB of working memory, reused by each call */
int main(void) {
    static const char script[] = "[CONST fare int 190; ECHO (add fare 65)]";
    struct mahrullis_limits limits = MAHRULLIS_GREATEST_LIMITS;
    struct mahrullis_report end = mahrullis_run_text(script, sizeof script - 1, limits, &tables);
    for (uint64_t i = 0; i < end.numbers; i++) printf("%lld\n", (long long)tables.output[i]);
    printf("answer %llu at byte %llu\n", (unsigned long long)end.code, (unsigned long long)end.place);
}
