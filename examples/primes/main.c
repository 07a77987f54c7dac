// The primes below 100, by the sieve of Eratosthenes. The value is how many there are.

static long is_composite[100];

static void put_decimal(long n) {
    if (n > 9) put_decimal(n / 10);
    __out('0' + n % 10);
}

long main(void) {
    long count = 0;
    for (long n = 2; n < 100; n = n + 1) {
        if (is_composite[n]) continue;
        if (count > 0) __out(' ');
        put_decimal(n);
        count = count + 1;
        for (long multiple = n * n; multiple < 100; multiple = multiple + n)
            is_composite[multiple] = 1;
    }
    __out('\n');
    return count;
}
