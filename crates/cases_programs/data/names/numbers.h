/* Small functions that callers take in. */
static inline int square(int n)
{
    return n * n;
}

static inline int clamp(int n, int most)
{
    if (n > most)
        return most;
    return n;
}
