/* Linked into shmrun (--wrap=ioctl): userfaultfd does not copy pages that begin with some words. So a test chooses the pages. */
#include <errno.h>
#include <linux/userfaultfd.h>
#include <stdint.h>
#include <string.h>
#include <sys/ioctl.h>

int __real_ioctl(int file, unsigned long request, void *argument);
int __wrap_ioctl(int file, unsigned long request, void *argument);

int __wrap_ioctl(int file, unsigned long request, void *argument) {
    static int count;  /* of copies for which there may be no memory */
    const struct uffdio_copy *copy = argument;
    const char *bytes = request == UFFDIO_COPY ? (const char *)(uintptr_t)copy->src : "";
    if (strcmp(bytes, "no memory") == 0 && count++ % 2 == 0) return errno = ENOMEM, -1;
    if (strcmp(bytes, "never") == 0) return errno = EAGAIN, -1;
    return __real_ioctl(file, request, argument);
}
