// The towers of Hanoi: the moves that bring three discs from peg A to peg C.

static long moves = 0;

static void move(long discs, long from, long to, long by) {
    if (discs == 0) return;
    move(discs - 1, from, by, to);
    moves = moves + 1;
    __out(from);
    __out(to);
    __out('\n');
    move(discs - 1, by, to, from);
}

long main(void) {
    move(3, 'A', 'C', 'B');
    return moves;
}
