/* Keys that libraries compare as texts: the highest byte first, so that they are sorted as numbers are. */
#ifndef KEY_H
#define KEY_H

#include <stdint.h>

enum { KEY_LENGTH = 4 };

struct key {
    char bytes[KEY_LENGTH];
};

static inline struct key key_of(uint32_t number) {
    return (struct key){{(char)(number >> 24), (char)(number >> 16), (char)(number >> 8), (char)number}};
}

#endif
