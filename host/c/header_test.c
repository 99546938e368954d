/*
 * The header's own promises: its sizes, its constants, its version, and a
 * sentence for each number.
 */
#include "checks.h"

#include <stdio.h>
#include <string.h>

_Static_assert(MONITOR_STATE_BYTES == 65536 && MONITOR_FILE_BYTES == 63800 &&
                   MONITOR_CARD_BYTES == 64,
               "the sizes of document 01");
_Static_assert(MONITOR_LABELS == 32 && MONITOR_ROLES == 128 &&
                   MONITOR_USERS == 256 && MONITOR_CARDS == 512 &&
                   MONITOR_PLACES == 64,
               "the limits of document 01");
_Static_assert(MONITOR_READ == 1 && MONITOR_WRITE == 2,
               "the modes of document 01");
_Static_assert(MONITOR_LEVEL_FREE == 0 && MONITOR_LEVEL_UNDEFINED == 99,
               "the levels that document 01's program prints");
_Static_assert(sizeof(struct monitor_verdict) == 3 * 8 &&
                   sizeof(struct monitor_figure) == 2 * 8 &&
                   sizeof(struct monitor_counts) == 5 * 8 &&
                   sizeof(struct monitor_session) == 5 * 8 &&
                   sizeof(struct monitor_set) == 3 * 8,
               "answers without gaps");

/* Whether document 01 lists the number. */
static int listed(uint64_t number)
{
    return number <= 7 || (11 <= number && number <= 16) ||
           (21 <= number && number <= 31);
}

/* What can be asked of a sentence that stands after a colon. */
static int is_sentence(const char *words)
{
    size_t length = strlen(words);
    return 4 <= length && length <= 100 && 'a' <= words[0] && words[0] <= 'z' &&
           words[length - 1] != '.' && strchr(words, '\n') == NULL;
}

/* No two numbers of the list have the same words, and others have one more. */
static int told_apart(uint64_t number)
{
    const char *words = monitor_words(number);
    for (uint64_t other = 0; other < 256; other++) {
        int same = strcmp(words, monitor_words(other)) == 0;
        int alike = listed(number) ? other == number : !listed(other);
        if (same != alike) {
            return 0;
        }
    }
    return is_sentence(words);
}

static void words(void)
{
    int all = 1;
    about = "words";
    for (uint64_t number = 0; number < 256; number++) {
        all &= told_apart(number);
    }
    check(all, "a sentence of its own for each number, and one for others");
    check(told_apart(FARTHEST) && told_apart(((uint64_t)1 << 32) + 15),
          "numbers above 32 bits are others too");
    check(strstr(monitor_words(15), "does not dominate the r-level") != NULL,
          "15 speaks of the r-level");
    check(strstr(monitor_words(16), "no label dominated by the clearance") !=
              NULL,
          "16 speaks of no label");
    check(strstr(monitor_words(24), "no session") != NULL,
          "24 speaks of no session");
}

static void version(void)
{
    char numbers[64];
    about = "version";
    snprintf(numbers, sizeof numbers, "%d.%d.%d", MONITOR_VERSION_MAJOR,
             MONITOR_VERSION_MINOR, MONITOR_VERSION_PATCH);
    check(strcmp(numbers, MONITOR_VERSION) == 0,
          "the text is made of the three numbers");
}

void header_tests(void)
{
    words();
    version();
}
