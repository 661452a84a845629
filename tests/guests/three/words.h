#ifndef WORDS_H
#define WORDS_H

void count_word(const char *word);
int words_known(void);
const char *word_at(int place);
int count_at(int place);

/* The place of the word among sorted ones, or where it belongs */
int place_of(const char *word, char *const *sorted, int count);

#endif
