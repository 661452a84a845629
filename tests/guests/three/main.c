/* A program of three files, which reads words and says how often each came */
#include "words.h"
#include <stdio.h>

int main(void)
{
    char word[32];
    while (scanf("%31s", word) == 1)
        count_word(word);
    for (int i = 0; i < words_known(); i++)
        printf("%s %d\n", word_at(i), count_at(i));
    return 0;
}
