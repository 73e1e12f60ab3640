/* What is promised where C calls: the header's values, and the functions on buffers that show a stray access. Standard input has
 * the cases of tests/compare. */
#include "boundaries.h"
#include "expect.h"
#include "lent.h"

int main(void)
{
    watch();
    header_values();
    received_pieces();
    replayed_cases();
    return end_groups();
}
