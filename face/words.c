/* Prints what the header says of each number of the table, and of one beyond it: whether it has an index, and its words. */
#include "uyavsker.h"

#include <stdio.h>

int main(void)
{
    for (uint8_t number = 0; number <= 15; number++)
        printf("%d%s: %s\n", number, uyavsker_has_index(number) ? ", index" : "", uyavsker_words(number));
    return 0;
}
