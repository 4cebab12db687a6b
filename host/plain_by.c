/* The yardstick as one object with one name, PLAIN_BY, so that a program can hold what two compilers make of it. */
#define PLAIN_CALL static
#include "plain.c"
#include "plain_image.c"
#include "plain_search.c"

#define TEXT(x) #x
#define TEXT_OF(x) TEXT(x)
#ifdef __clang__
#define COMPILER "clang " TEXT_OF(__clang_major__)
#else
#define COMPILER "gcc " TEXT_OF(__GNUC__)
#endif

const struct plain_calls PLAIN_BY = { COMPILER,   plain_build, plain_check,       plain_radius,      plain_nearest,
                                      plain_write, plain_read,  plain_scan_radius, plain_scan_nearest };
