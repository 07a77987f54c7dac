// A small filter: `u`, `l` or `r` at the start of the input chooses what is done to each byte after it.

static long upper(long c) {
    if (c >= 'a' && c <= 'z') return c - 32;
    return c;
}

static long lower(long c) {
    if (c >= 'A' && c <= 'Z') return c + 32;
    return c;
}

static long rotate(long c) {
    if (upper(c) < 'A' || upper(c) > 'Z') return c;
    if (upper(c) <= 'M') return c + 13;
    return c - 13;
}

// Nothing names this function, and no table points to it, so it is no part of the program in memory.
static long reverse_bits(long c) {
    long bits = 0;
    for (long i = 0; i < 8; i = i + 1) bits = bits * 2 + (c >> i & 1);
    return bits;
}

static fn1 filters[3] = {upper, lower, rotate};
static long letters[3] = {'u', 'l', 'r'};
static fn1 none;

static fn1 chosen(long letter) {
    for (long i = 0; i < 3; i = i + 1) {
        if (letters[i] == letter) return filters[i];
    }
    return none;
}

long main(void) {
    fn1 filter = chosen(__in());
    if (filter == none) return 1;
    long c = __in();
    while (c >= 0) {
        __out(filter(c));
        c = __in();
    }
    return 0;
}
