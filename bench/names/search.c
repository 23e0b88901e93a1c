/* Prints texts of ten letters whose SipHash-1-3 with both keys 0, as a table of Rust's takes it of a byte string, ends with so many
   zero bits: search COUNT BITS. */
#include <stdint.h>
#include <stdio.h>
#include <stdlib.h>
#include <string.h>

enum { LENGTH = 10 };

#define TURN(x, by) (((x) << (by)) | ((x) >> (64 - (by))))

static uint64_t v0, v1, v2, v3;

static void round_once(void)
{
    v0 += v1; v1 = TURN(v1, 13); v1 ^= v0; v0 = TURN(v0, 32);
    v2 += v3; v3 = TURN(v3, 16); v3 ^= v2;
    v0 += v3; v3 = TURN(v3, 21); v3 ^= v0;
    v2 += v1; v1 = TURN(v1, 17); v1 ^= v2; v2 = TURN(v2, 32);
}

static void add(uint64_t word)
{
    v3 ^= word;
    round_once();
    v0 ^= word;
}

/* The hash of the length, in 8 bytes, and of the bytes. */
static uint64_t hash(const char *text)
{
    uint64_t word = 0, last = 0;
    v0 = 0x736f6d6570736575; v1 = 0x646f72616e646f6d; v2 = 0x6c7967656e657261; v3 = 0x7465646279746573;
    add(LENGTH);
    memcpy(&word, text, 8);
    add(word);
    memcpy(&last, text + 8, LENGTH - 8);
    add(last | (uint64_t)(8 + LENGTH) << 56);
    v2 ^= 0xff;
    round_once(); round_once(); round_once();
    return v0 ^ v1 ^ v2 ^ v3;
}

int main(int count_of_words, char **words)
{
    if (count_of_words != 3)
        return 2;
    uint64_t left = strtoull(words[1], NULL, 10), mask = (1ull << atoi(words[2])) - 1;
    for (uint64_t number = 0; left; number++) {
        char text[LENGTH + 1] = "";
        uint64_t rest = number;
        for (int at = 0; at < LENGTH; at++, rest /= 26)
            text[at] = 'a' + rest % 26;
        if (!(hash(text) & mask)) {
            puts(text);
            left--;
        }
    }
    return 0;
}
