/* What C++ asks for beside its library: new and delete, the end of objects that live as long as the guest, and what a call
 * of a pure virtual function comes to. */

#include <new>
#include "snow.h"

#ifdef SNOW_PICOLIBC
#include <stdlib.h>
#else
extern "C" {
SNOW_NORETURN void abort();
SNOW_NORETURN void exit(int status);
SNOW_NORETURN void _exit(int status);
extern char __heap_start[], __heap_end[];
extern void (*const __fini_array_start[])(), (*const __fini_array_end[])();
}
#endif

const std::nothrow_t std::nothrow;

namespace {

/* What each kind of object may be aligned to that asks for no more. */
constexpr size_t usual_alignment = 16;

#ifdef SNOW_PICOLIBC

void *allocate(size_t size, size_t alignment = usual_alignment)
{
    return alignment > usual_alignment ? aligned_alloc(alignment, size) : malloc(size ? size : 1);
}

void release(void *block)
{
    free(block);
}

#else

/* Without a C library memory is taken from the heap, one block behind another, and none is given back. */
void *allocate(size_t size, size_t alignment = usual_alignment)
{
    static uintptr_t next = reinterpret_cast<uintptr_t>(__heap_start);
    uintptr_t end = reinterpret_cast<uintptr_t>(__heap_end);
    uintptr_t block = (next + alignment - 1) & ~(alignment - 1);

    if (block < next || block > end || size > end - block)
        return nullptr;
    next = block + (size ? size : 1);
    return reinterpret_cast<void *>(block);
}

void release(void *)
{
}

#endif

/* Returns memory, or ends the machine: there are no exceptions, and no object has the address 0. */
void *allocate_or_end(size_t size, size_t alignment = usual_alignment)
{
    void *block = allocate(size, alignment);

    if (!block) {
        snow_print("no memory is left for a new object of ");
        snow_print_number(size);
        snow_print(" bytes\n");
        abort();
    }
    return block;
}

}

/* ---- new and delete ---- */

void *operator new(size_t size) { return allocate_or_end(size); }
void *operator new[](size_t size) { return allocate_or_end(size); }
void *operator new(size_t size, const std::nothrow_t &) noexcept { return allocate(size); }
void *operator new[](size_t size, const std::nothrow_t &) noexcept { return allocate(size); }

void operator delete(void *block) noexcept { release(block); }
void operator delete[](void *block) noexcept { release(block); }
void operator delete(void *block, size_t) noexcept { release(block); }
void operator delete[](void *block, size_t) noexcept { release(block); }
void operator delete(void *block, const std::nothrow_t &) noexcept { release(block); }
void operator delete[](void *block, const std::nothrow_t &) noexcept { release(block); }

#if __cpp_aligned_new
void *operator new(size_t size, std::align_val_t alignment) { return allocate_or_end(size, static_cast<size_t>(alignment)); }
void *operator new[](size_t size, std::align_val_t alignment) { return allocate_or_end(size, static_cast<size_t>(alignment)); }
void operator delete(void *block, std::align_val_t) noexcept { release(block); }
void operator delete[](void *block, std::align_val_t) noexcept { release(block); }
void operator delete(void *block, size_t, std::align_val_t) noexcept { release(block); }
void operator delete[](void *block, size_t, std::align_val_t) noexcept { release(block); }
#endif

/* ---- What the compiler calls, by the Itanium C++ ABI ---- */

extern "C" {

void *__dso_handle = nullptr; /* what is loaded is the image alone */

SNOW_NORETURN void __cxa_pure_virtual()
{
    snow_print("a pure virtual function was called\n");
    abort();
}

SNOW_NORETURN void __cxa_deleted_virtual()
{
    snow_print("a deleted virtual function was called\n");
    abort();
}

/* The guards of static objects in functions, where -fthreadsafe-statics asks for them: there is one thread. */
int __cxa_guard_acquire(char *guard) { return !*guard; }
void __cxa_guard_release(char *guard) { *guard = 1; }
void __cxa_guard_abort(char *) {}

#ifndef SNOW_PICOLIBC

/* What is to be called at the end, the last first. */
static struct ending {
    void (*call)(void *object);
    void *object;
    struct ending *before;
} *endings;

int __cxa_atexit(void (*call)(void *), void *object, void *)
{
    void *room = allocate(sizeof *endings);

    if (!room)
        return -1;
    endings = new (room) ending{call, object, endings};
    return 0;
}

/* A function of no arguments takes no harm from one. */
int atexit(void (*call)())
{
    return __cxa_atexit(reinterpret_cast<void (*)(void *)>(call), nullptr, nullptr);
}

void exit(int status)
{
    while (endings) {
        struct ending *last = endings;

        endings = last->before;
        last->call(last->object);
    }
    for (auto call = __fini_array_end; call != __fini_array_start;)
        (*--call)();
    _exit(status);
}

#endif

}
