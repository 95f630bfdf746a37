/* memcpy, memset and memmove, which compiled code calls to copy and to fill structures. This code is not proved; it is read and tested.
 *
 * tools/lib and tools/lib-for compile this file with the kit's compiler, without a red zone, and join it to the library's one object, in which all three are local
 * symbols. So the library asks a host for nothing, and calls no function of the host's, whose calling convention may be another one.
 * A host without a C library may compile it for itself too, in its own convention, as tools/link-test does.
 *
 * A compiler that takes such a loop for what it is makes it a call of the very function: -fno-builtin keeps Clang from it, -fno-tree-loop-distribute-patterns GCC.
 * Of memcpy source and target may be the same, as compilers ask; else they do not overlap.
 */
typedef __SIZE_TYPE__ size_t; /* the kit's compiler comes without stddef.h */

#ifdef __x86_64__
/* So many bytes, at any address and of any type. What is not a multiple of a width ends with one more of that width, over bytes that are there already. */
typedef unsigned long long sixteen __attribute__((vector_size(16), aligned(1), may_alias));
typedef unsigned long long eight __attribute__((aligned(1), may_alias));
typedef unsigned int four __attribute__((aligned(1), may_alias));

#define PUT(type, at, value) (*(type *)(target + (at)) = (value))
#define MOVE(type, at) PUT(type, at, *(const type *)(source + (at)))

void *memcpy(void *to, const void *from, size_t count)
{
    unsigned char *target = to;
    const unsigned char *source = from;
    if (count >= 16) {
        for (size_t i = 0; i < count - 16; i += 16) {
            MOVE(sixteen, i);
        }
        MOVE(sixteen, count - 16);
    } else if (count >= 8) {
        MOVE(eight, 0);
        MOVE(eight, count - 8);
    } else if (count >= 4) {
        MOVE(four, 0);
        MOVE(four, count - 4);
    } else {
        for (size_t i = 0; i < count; i++) {
            target[i] = source[i];
        }
    }
    return to;
}

void *memset(void *to, int value, size_t count)
{
    unsigned char *target = to;
    const unsigned long long bytes = (unsigned char)value * 0x0101010101010101ull;
    if (count >= 16) {
        const sixteen all = {bytes, bytes};
        for (size_t i = 0; i < count - 16; i += 16) {
            PUT(sixteen, i, all);
        }
        PUT(sixteen, count - 16, all);
    } else if (count >= 8) {
        PUT(eight, 0, bytes);
        PUT(eight, count - 8, bytes);
    } else if (count >= 4) {
        PUT(four, 0, (four)bytes);
        PUT(four, count - 4, (four)bytes);
    } else {
        for (size_t i = 0; i < count; i++) {
            target[i] = (unsigned char)value;
        }
    }
    return to;
}
#else
/* A machine that may want its accesses aligned: words if both are, and bytes. */
typedef unsigned long long word __attribute__((may_alias));

static int aligned(const void *one) { return (size_t)one % sizeof(word) == 0; }

void *memcpy(void *to, const void *from, size_t count)
{
    unsigned char *target = to;
    const unsigned char *source = from;
    size_t i = 0;
    if (aligned(to) && aligned(from)) {
        for (; count - i >= sizeof(word); i += sizeof(word)) {
            *(word *)(target + i) = *(const word *)(source + i);
        }
    }
    for (; i < count; i++) {
        target[i] = source[i];
    }
    return to;
}

void *memset(void *to, int value, size_t count)
{
    unsigned char *target = to;
    size_t i = 0;
    if (aligned(to)) {
        for (; count - i >= sizeof(word); i += sizeof(word)) {
            *(word *)(target + i) = (unsigned char)value * 0x0101010101010101ull;
        }
    }
    for (; i < count; i++) {
        target[i] = (unsigned char)value;
    }
    return to;
}
#endif

/* Source and target may overlap in any way: then bytes, from the end that the target does not overwrite. The library has no such copies, so it is small, not fast. */
__attribute__((cold)) void *memmove(void *to, const void *from, size_t count)
{
    unsigned char *target = to;
    const unsigned char *source = from;
    const size_t after = (size_t)target - (size_t)source; /* as a large number if it is before */
    if (after >= count && (size_t)0 - after >= count) {
        return memcpy(to, from, count);
    }
    if (after < count) {
        for (size_t i = count; i > 0; i--) {
            target[i - 1] = source[i - 1];
        }
    } else {
        for (size_t i = 0; i < count; i++) {
            target[i] = source[i];
        }
    }
    return to;
}
