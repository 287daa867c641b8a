// What the programs over other stores share: the keys and values of lsm_timing, by index, the checksums of what is read, and a figure as lsm_timing
// prints it.
#pragma once
#include <time.h>

#include <cstdint>
#include <cstdio>
#include <cstdlib>
#include <cstring>
#include <string_view>

inline constexpr size_t PREFIX_LEN = 16, KEY_LEN = 16, VALUE_LEN = 100, WORD_LEN = 8;
inline constexpr char PREFIX[] = "user:profile:eu:";

inline uint64_t nanoseconds(clockid_t clock) {
    timespec time;
    clock_gettime(clock, &time);
    return time.tv_sec * 1000000000ull + time.tv_nsec;
}

// A permutation of the numbers that scatters them.
inline uint64_t mix(uint64_t number) {
    uint64_t start = number + 0x9e3779b97f4a7c15;
    uint64_t once = (start ^ (start >> 30)) * 0xbf58476d1ce4e5b9;
    uint64_t twice = (once ^ (once >> 27)) * 0x94d049bb133111eb;
    return twice ^ (twice >> 31);
}

// The random number below a limit that belongs to this one.
inline uint64_t random_below(uint64_t limit, uint64_t number) { return mix(~number) % limit; }

// Puts a number there, big-endian.
inline void put_word(char *there, uint64_t number) {
    number = __builtin_bswap64(number);
    memcpy(there, &number, WORD_LEN);
}

// What the keys of all entries look like: 16 bytes, or a prefix of 16 bytes before these.
enum class KeyShape { scattered, prefixed };

// A key of either shape. The bytes are those of the prefixed one.
struct Key {
    char bytes[PREFIX_LEN + KEY_LEN];
    size_t start;
    operator std::string_view() const { return {bytes + start, sizeof bytes - start}; }
};

inline Key key_of(uint64_t index, KeyShape shape = KeyShape::scattered) {
    Key key;
    memcpy(key.bytes, PREFIX, PREFIX_LEN);
    put_word(key.bytes + PREFIX_LEN, mix(index));
    put_word(key.bytes + PREFIX_LEN + WORD_LEN, index);
    key.start = shape == KeyShape::prefixed ? 0 : PREFIX_LEN;
    return key;
}

// A value, with room for the whole of its last word.
struct Value {
    char bytes[VALUE_LEN + WORD_LEN];
    operator std::string_view() const { return {bytes, VALUE_LEN}; }
};

inline Value value_of(uint64_t index) {
    const uint64_t words = VALUE_LEN / WORD_LEN;
    Value value;
    for (uint64_t word = 0; word < words; word++) put_word(value.bytes + WORD_LEN * word, mix(index * words + word));
    put_word(value.bytes + WORD_LEN * words, mix(index));
    return value;
}

// A checksum with one more number in it.
inline uint64_t with_number(uint64_t checksum, uint64_t number) { return checksum * 31 + number; }

// A checksum with some more bytes in it: their length and their ends.
inline uint64_t with_bytes(uint64_t checksum, std::string_view bytes) {
    uint64_t ends = 0;
    if (bytes.size() == 1) ends = (uint8_t)bytes.front();
    if (bytes.size() > 1) ends = (uint8_t)bytes.front() * 256ull + (uint8_t)bytes.back();
    return with_number(with_number(checksum, bytes.size()), ends);
}

// A figure's lines, as lsm_timing prints them.
inline void print_figure(const char *name, uint64_t count, uint64_t checksum, uint64_t took) {
    printf("%s %lu %lu\n", name, count, checksum);
    fprintf(stderr, "%s %lu %lu\n", name, count, took);
}

// The clock of figures: the processor's, of all threads of the process, if PEER_CLOCK=processor says so, or else the wall's.
inline clockid_t clock_of_figures() {
    const char *word = getenv("PEER_CLOCK");
    return word && strcmp(word, "processor") == 0 ? CLOCK_PROCESS_CPUTIME_ID : CLOCK_MONOTONIC;
}

// A figure that is being taken.
struct Figure {
    const char *name;
    clockid_t clock = clock_of_figures();
    uint64_t start = nanoseconds(clock);
    explicit Figure(const char *name) : name(name) {}
    void end(uint64_t count, uint64_t checksum) {
        uint64_t took = nanoseconds(clock) - start;
        print_figure(name, count, checksum, took);
    }
};
