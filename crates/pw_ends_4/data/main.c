// Adds up numbers and says each sum, by a stack that is too small for what it is given.

static long stack[4];
static long depth;

static void put_decimal(long n) {
    if (n > 9) put_decimal(n / 10);
    __out('0' + n % 10);
}

static void push(long n) {
    stack[depth] = n;
    depth = depth + 1;
}

static long pop(void) {
    depth = depth - 1;
    return stack[depth];
}

long main(void) {
    long c = __in();
    while (c >= 0) {
        if (c >= '0' && c <= '9') push(c - '0');
        if (c == '+') push(pop() + pop());
        if (c == '\n') {
            put_decimal(pop());
            __out('\n');
        }
        c = __in();
    }
    return depth;
}
