/* What libzigrunk.so.2 needs of glibc after 2.28, for packages that run where glibc is older (library.sh, with OLDER_GLIBC).
 *
 * Rust's library and that of gcc call stat64, fstat64 (glibc 2.33), gettid (2.30) and _dl_find_object (2.35). The kernel's and glibc's records
 * of a file are the same on x86-64 and arm64, so the first three are the kernel's own calls. */
#define _GNU_SOURCE
#include <fcntl.h>
#include <link.h>
#include <stdint.h>
#include <sys/stat.h>
#include <sys/syscall.h>
#include <unistd.h>

#define HIDDEN __attribute__((visibility("hidden")))

HIDDEN int fstat64(int file, struct stat64 *status) {
    return (int)syscall(SYS_fstat, file, status);
}

HIDDEN int stat64(const char *path, struct stat64 *status) {
    return (int)syscall(SYS_newfstatat, AT_FDCWD, path, status, 0);
}

HIDDEN pid_t gettid(void) {
    return (pid_t)syscall(SYS_gettid);
}

#if __GLIBC_PREREQ(2, 35)
/* A look-up of the object that has an address: what is asked, and what is found. */
struct look_up {
    uintptr_t address;
    struct dl_find_object *found;
};

/* Notes an object in a look-up, and says 1, if it has the address. */
static int take(struct dl_phdr_info *object, size_t size, void *given) {
    struct look_up *look_up = given;
    struct dl_find_object found = {0};
    int has = 0;
    (void)size;
    for (int i = 0; i < object->dlpi_phnum; i++) {
        const ElfW(Phdr) *part = &object->dlpi_phdr[i];
        uintptr_t begin = object->dlpi_addr + part->p_vaddr, end = begin + part->p_memsz;
        if (part->p_type == PT_LOAD && begin <= look_up->address && look_up->address < end) {
            found.dlfo_map_start = (void *)begin;
            found.dlfo_map_end = (void *)end;
            has = 1;
        } else if (part->p_type == PT_GNU_EH_FRAME) {
            found.dlfo_eh_frame = (void *)begin;
        }
    }
    if (has)
        *look_up->found = found;
    return has;
}

/* The frames of the object that has an address, as glibc 2.35 finds them: 0, or -1 if no object has it. */
HIDDEN int _dl_find_object(void *address, struct dl_find_object *found) {
    struct look_up look_up = {(uintptr_t)address, found};
    return dl_iterate_phdr(take, &look_up) ? 0 : -1;
}
#endif
