/*
 * What a compiler compiles for: system, processor and size of a pointer, with
 * CMake's names. It is read through the preprocessor only, by Makefile.vendor; a
 * part that it does not know is the word unknown.
 */
#if defined(__ANDROID__)
Android
#elif defined(__linux__)
Linux
#elif defined(__APPLE__)
Darwin
#elif defined(_WIN32)
Windows
#elif defined(__FreeBSD__)
FreeBSD
#else
unknown
#endif
#if defined(__x86_64__)
x86_64
#elif defined(__i386__)
i386
#elif defined(__aarch64__)
aarch64
#elif defined(__arm__)
arm
#elif defined(__s390x__)
s390x
#elif defined(__riscv) && __riscv_xlen == 64
riscv64
#elif defined(__powerpc64__) && defined(__LITTLE_ENDIAN__)
ppc64le
#else
unknown
#endif
#if defined(__SIZEOF_POINTER__)
__SIZEOF_POINTER__
#else
unknown
#endif
