// Writes the powers of two from 2^60 to 2^63 in decimal, and the least and the greatest number of type long.

static void put_unsigned(unsigned long n) {
    if (n > 9) put_unsigned(n / 10);
    __out('0' + n % 10);
}

static void put_signed(long n) {
    if (n < 0) {
        __out('-');
        put_unsigned(-n);
    } else {
        put_unsigned(n);
    }
}

long main(void) {
    unsigned long power = 1ul << 60;
    for (long i = 60; i < 64; i = i + 1) {
        put_unsigned(power);
        __out('\n');
        power = power * 2;
    }
    put_signed(0x8000000000000000);
    __out('\n');
    put_signed(0x7fffffffffffffff);
    __out('\n');
    return 0;
}
