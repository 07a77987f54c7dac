// Copies its input to its output in capital letters. A byte takes two steps: the call, and the return to the start of the loop.

static long capital(long c) {
    return c >= 'a' && c <= 'z' ? c - 32 : c;
}

static fn1 change = capital;

long main(void) {
    for (long c = __in(); c >= 0; c = __in()) __out(change(c));
    return 0;
}
