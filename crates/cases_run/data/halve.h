static inline int halve(int value) {
    while (value > 3)
        value /= 2;
    return value;
}
