/* As much of C's header as the library's header needs; the kit has none. */
typedef __SIZE_TYPE__ size_t;
