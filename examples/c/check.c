/* Checks two configuration texts and prints the number for each. */
#include <inttypes.h>
#include <stdio.h>
#include <string.h>

#include "dukhsare.h"

#define TEXT(rate)                   \
    "ticks backlog copies tsid\n"    \
    "2700000 4 1 7\n"                \
    "\n"                             \
    "parent rate\n"                  \
    "0 40000000\n"                   \
    "1 " rate "\n"                   \
    "\n"                             \
    "parent pid out kind service\n"  \
    "0 256 512 pass 0\n"             \
    "0 32 48 pmt 3\n"

static void check(const char *text)
{
    printf("%" PRIu32 "\n", dukhsare_check((const uint8_t *)text, strlen(text)));
}

int main(void)
{
    check(TEXT("20000000"));
    check(TEXT("50000"));
    return 0;
}
