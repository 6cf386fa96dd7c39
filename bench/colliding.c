/* colliding names|numbers COUNT: prints so many file names, or transaction numbers, whose hashes begin in one place of a table and have one tag, for
   bench/hostile. They are made for the hash maps of the kit (`indexmap` with its own hasher, whose seed is fixed) at this many entries. */
#include <stdint.h>
#include <stdio.h>
#include <stdlib.h>
#include <string.h>

typedef unsigned __int128 wide;

static const uint64_t SEED = 0x243f6a8885a308d3, MULTIPLIER = 0x9e3779b97f4a7c15 ^ 16;
static const char PREFIX[] = "names-that-meet-";
enum { LOAD = 9, WORD = 8 };

/* The bits of a hash that choose the place, in a table for this many entries, and the tag. */
static uint32_t chosen(long count)
{
    uint32_t groups = 1;
    while (LOAD * (long)groups < count)
        groups *= 2;
    return 0xff000000 | (groups - 1);
}

static uint64_t folded(uint64_t x)
{
    wide product = (wide)x * MULTIPLIER;
    return (uint64_t)product ^ (uint64_t)(product >> 64);
}

static uint32_t short_hash(uint64_t hash)
{
    return (uint32_t)(hash ^ (hash >> 32));
}

static uint64_t word_of(const char *bytes)
{
    uint64_t word = 0;
    for (int at = 0; at < WORD; at++)
        word = word << 8 | (unsigned char)bytes[at];
    return word;
}

/* The last words of a hash that all end alike: so many, counted up from the seed's first 28 bits. */
static uint64_t *words_that_meet(long count, uint32_t mask)
{
    uint64_t *found = malloc(count * sizeof *found), x = SEED >> 36 << 36;
    wide product = (wide)x * MULTIPLIER;
    for (long many = 0; many < count; x++, product += MULTIPLIER) {
        uint64_t hash = (uint64_t)product ^ (uint64_t)(product >> 64);
        if (!(short_hash(hash) & mask))
            found[many++] = x;
    }
    return found;
}

static int are_letters(uint64_t word)
{
    for (int at = 0; at < 64; at += 8) {
        unsigned byte = word >> at & 0xff;
        if (byte < 'a' || byte > 'z')
            return 0;
    }
    return 1;
}

/* The eight letters behind these, in order. */
static void step(char *letters)
{
    int at = WORD - 1;
    while (letters[at] == 'z')
        letters[at--] = 'a';
    letters[at]++;
}

/* A name is the prefix, eight letters, and eight more that make the last word of the hash one of the words: few of the former lead to letters. */
static void print_names(long count, uint32_t mask)
{
    long many = 1024 + count / 64;
    uint64_t *words = words_that_meet(many, mask), first = words[0] >> 40;
    uint64_t state = folded(folded(SEED ^ word_of(PREFIX)) ^ word_of(PREFIX + WORD));
    char letters[WORD + 1] = "aaaaaaaa", last[WORD + 1] = "";
    for (long made = 0; made < count; step(letters)) {
        uint64_t before = folded(state ^ word_of(letters));
        /* The first three bytes of all words are the same, so most are seen to be no letters here. */
        if (((before >> 40 ^ first) & 0xe0e0e0) != 0x606060)
            continue;
        for (long at = 0; at < many && made < count; at++) {
            uint64_t word = before ^ words[at];
            if ((word & 0xe0e0e0e0e0) != 0x6060606060 || !are_letters(word))
                continue;
            for (int byte = 0; byte < WORD; byte++)
                last[byte] = word >> (56 - 8 * byte);
            printf("%s%s%s\n", PREFIX, letters, last);
            made++;
        }
    }
    free(words);
}

int main(int count, char **words)
{
    if (count != 3)
        return 2;
    long many = atol(words[2]);
    uint32_t mask = chosen(many);
    if (!strcmp(words[1], "names")) {
        print_names(many, mask);
        return 0;
    }
    uint64_t *numbers = words_that_meet(many, mask);
    for (long at = 0; at < many; at++)
        printf("%llu\n", (unsigned long long)(numbers[at] ^ SEED));
    return 0;
}
