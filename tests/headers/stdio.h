/* As much of C's header as the example host needs; the kit has none. */
int printf(const char *, ...);
