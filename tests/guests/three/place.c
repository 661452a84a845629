#include "words.h"
#include <string.h>

int place_of(const char *word, char *const *sorted, int count)
{
    int low = 0;
    while (low < count) {
        int middle = low + (count - low) / 2;
        if (strcmp(sorted[middle], word) < 0)
            low = middle + 1;
        else
            count = middle;
    }
    return low;
}
