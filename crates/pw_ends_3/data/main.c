long main(void) { __out(79); return x; }
