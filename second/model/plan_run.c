/* Reads a plan from standard input and writes its listing to standard output. */
#include "model.h"

int main(void)
{
    /* One byte more than a plan may have is enough to see that it is too long. */
    static unsigned char text[MOST_TEXT + 1];
    size_t length = fread(text, 1, sizeof text, stdin);
    plan_listing(text, length, stdout);
    return 0;
}
