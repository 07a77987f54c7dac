// Counts the lines, words and bytes of the input, as `wc` does.

static void put_decimal(unsigned long n) {
    if (n > 9) put_decimal(n / 10);
    __out('0' + n % 10);
}

static long is_blank(long c) {
    return c == ' ' || c == '\n' || c == '\t' || c == '\r';
}

long main(void) {
    long lines = 0;
    long words = 0;
    long bytes = 0;
    long inside = 0;
    long c = __in();
    while (c >= 0) {
        bytes = bytes + 1;
        if (c == '\n') lines = lines + 1;
        if (is_blank(c)) {
            inside = 0;
        } else {
            if (!inside) words = words + 1;
            inside = 1;
        }
        c = __in();
    }
    put_decimal(lines);
    __out(' ');
    put_decimal(words);
    __out(' ');
    put_decimal(bytes);
    __out('\n');
    return 0;
}
