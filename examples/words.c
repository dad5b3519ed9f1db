// Counts the words of a text, which begins with its length in a byte. examples/words.run runs it.
typedef unsigned char u8;
typedef unsigned long long u64;

u64 words(const u8 *context) {
    u64 count = 0;
    u8 before = ' ';
#pragma clang loop unroll(disable)
    for (u64 at = 1; at <= context[0]; at++) {
        if (before == ' ' && context[at] != ' ')
            count++;
        before = context[at];
    }
    return count;
}
