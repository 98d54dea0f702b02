/* The archive as a C host sees it: every answer, and every byte of every lent table. */
#include "test.h"

int main(void)
{
    test_refusals();
    test_pages();
    test_books();
    test_lists();
    return report();
}
