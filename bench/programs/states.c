// A machine of five states reads 4 million letters of a pseudo-random text: it counts words, numbers, quoted parts and comments.
typedef unsigned int u32;
typedef unsigned long long u64;

enum state { SPACE, WORD, NUMBER, QUOTED, COMMENT };

u64 program(void *context) {
    u64 words = 0, numbers = 0, quoted = 0, comments = 0;
    u64 seed = 88172645463325252;
    enum state state = SPACE;
    for (u32 at = 0; at < 4000000; at++) {
        seed ^= seed << 13;
        seed ^= seed >> 7;
        seed ^= seed << 17;
        u32 letter = seed & 127;
        switch (state) {
        case SPACE:
            if (letter >= 'a' && letter <= 'z') { state = WORD; words++; }
            else if (letter >= '0' && letter <= '9') { state = NUMBER; numbers++; }
            else if (letter == '"') { state = QUOTED; quoted++; }
            else if (letter == '#') { state = COMMENT; comments++; }
            break;
        case WORD:
            if (letter < 'a' || letter > 'z') state = SPACE;
            break;
        case NUMBER:
            if (letter < '0' || letter > '9') state = letter == 'x' ? WORD : SPACE;
            break;
        case QUOTED:
            if (letter == '"') state = SPACE;
            break;
        case COMMENT:
            if (letter == '\n') state = SPACE;
            break;
        }
    }
    return words + (numbers << 16) + (quoted << 32) + (comments << 48);
}
