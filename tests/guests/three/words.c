#include "words.h"
#include <stdlib.h>
#include <string.h>

enum { MOST = 100 };

static char *words[MOST];
static int counts[MOST], known;

void count_word(const char *word)
{
    int place = place_of(word, words, known);
    if (place == known || strcmp(words[place], word) != 0) {
        memmove(&words[place + 1], &words[place], (known - place) * sizeof words[0]);
        memmove(&counts[place + 1], &counts[place], (known - place) * sizeof counts[0]);
        words[place] = strdup(word);
        counts[place] = 0;
        known++;
    }
    counts[place]++;
}

int words_known(void)
{
    return known;
}

const char *word_at(int place)
{
    return words[place];
}

int count_at(int place)
{
    return counts[place];
}
