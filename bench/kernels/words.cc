// Words counted in a hash table of C++'s standard library, whose load factor is a float.
#include <string>
#include <unordered_map>

#include "guest.h"

// The linker calls this behind each export. That of wasi-libc closes files, with calls that no other kernel has.
extern "C" void __wasm_call_dtors() {}

static std::string word_of(u32 number) {
    std::string word;
    do {
        word.push_back(static_cast<char>('a' + number % 26));
        number /= 26;
    } while (number != 0);
    return word;
}

u64 kernel(u32 turns) {
    std::unordered_map<std::string, u32> counts;
    u32 state = 1;
    for (u32 n = 0; n < turns; n++) {
        state = state * 1103515245 + 12345;
        counts[word_of(state >> 17)]++;
    }
    u64 sum = counts.bucket_count();
    for (const auto &[word, count] : counts) {
        sum += count * (word.size() + static_cast<u32>(word.back()));
    }
    return sum;
}
