/* Checks in groups: one line and one count for each group. */
#ifndef EXPECT_H
#define EXPECT_H

#include <stdbool.h>

/* Ends the group before it, if there is one, and begins the next. */
void begin_group(const char *name);

/* Ends the last group and prints the line 'N passed, M failed'. Returns the exit status. */
int end_groups(void);

/* Counts a check. Where it fails, what is expected is printed, and the call that was described last. */
#define EXPECT(expression) expect(expression, #expression)
void expect(bool holds, const char *expression);
void describe(const char *format, ...);

/* Ends the program, with a line that names the call that was described last. */
void stop(const char *why);

#endif
