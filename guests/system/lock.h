/* A lock that its owner may take again, all 0 at first: it is free when it was given as often as taken. The name is the
   C library's, whose own locks (<sys/lock.h>) are of this kind. */
#ifndef GUEST_LOCK_H
#define GUEST_LOCK_H

struct __lock {
    int word, depth;
    void *volatile owner;
};

#endif
