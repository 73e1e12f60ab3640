/* Checks in groups: one line and one count for each group. */
#include "expect.h"

#include <stdarg.h>
#include <stdio.h>
#include <unistd.h>

enum { SHOWN = 5 }; /* failures of a group that are printed */

static unsigned long checks, failures;
static unsigned passed, failed;
static char group[256], call[256];

void begin_group(const char *name)
{
    if (group[0] != '\0') {
        bool good = failures == 0 && checks > 0;
        good ? passed++ : failed++;
        printf("%s: %s (%lu of %lu checks)\n", good ? "ok" : "FAILED", group, checks - failures, checks);
        fflush(stdout);
    }
    snprintf(group, sizeof group, "%s", name);
    checks = failures = 0;
}

int end_groups(void)
{
    begin_group("");
    printf("%u passed, %u failed\n", passed, failed);
    return failed == 0 && passed > 0 ? 0 : 1;
}

void describe(const char *format, ...)
{
    va_list values;
    va_start(values, format);
    vsnprintf(call, sizeof call, format, values);
    va_end(values);
}

void expect(bool holds, const char *expression)
{
    checks++;
    if (!holds && ++failures <= SHOWN)
        printf("FAILED: not so: %s, after %s\n", expression, call);
}

void stop(const char *why)
{
    printf("FAILED: %s, in %s\n", why, call);
    fflush(stdout);
    _exit(1);
}
