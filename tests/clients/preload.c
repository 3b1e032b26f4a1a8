/* A preload library that puts the board under real disk utilities: on a plain file that
   describes a drive it answers ioctl(SG_IO) as the Linux sg driver would, with the board
   and a simulated drive in the place of the hardware. Every other file is left alone.

   PIONGSEUT_DATA    the folder of the IDENTIFY blocks
   PIONGSEUT_LOG     a file that gets one line for each command that reached the board
   PIONGSEUT_ORDERS  a file that gets one line for each order that the board took
   PIONGSEUT_KEPT    a folder in which bays keep their records from one client to the next */
#define _GNU_SOURCE
#include <errno.h>
#include <linux/fs.h>
#include <stdarg.h>
#include <stdio.h>
#include <stdlib.h>
#include <string.h>
#include <sys/ioctl.h>
#include <sys/stat.h>
#include <sys/syscall.h>
#include <unistd.h>

#include "bridge.h"
#include "sg.h"

enum { NODES = 16 };

static const char heading[] = "piongseut drive\n";

/* One plain file, and the bay that it stands for. */
typedef struct {
    dev_t device;
    ino_t number;
    bay bay;
} node;

static node nodes[NODES];
static size_t nodes_used;

/* ---- which files are drives ---- */

static node *new_node(const struct stat *s, const char *text)
{
    char name[32];
    if (nodes_used == NODES) {
        fprintf(stderr, "piongseut preload: too many drives in one client\n");
        exit(120);
    }
    node *n = &nodes[nodes_used++];
    n->device = s->st_dev;
    n->number = s->st_ino;
    bay_fill(&n->bay, text);
    snprintf(name, sizeof name, "%ju", (uintmax_t)s->st_ino);
    bay_keep(&n->bay, name);
    return n;
}

/* The node behind a file descriptor, or NULL where the kernel must answer. */
static node *node_of(int fd)
{
    struct stat s;
    char text[1024];
    if (fstat(fd, &s) < 0 || !S_ISREG(s.st_mode))
        return NULL;
    for (size_t i = 0; i < nodes_used; i++)
        if (nodes[i].device == s.st_dev && nodes[i].number == s.st_ino)
            return &nodes[i];
    ssize_t size = pread(fd, text, sizeof text - 1, 0);
    if (size < 0 || (size_t)size == sizeof text - 1)
        return NULL;
    text[size] = 0;
    return strncmp(text, heading, strlen(heading)) ? NULL : new_node(&s, text);
}

static int answer_sg_io(node *n, sg_io_hdr_t *h)
{
    exchange x;
    if (sg_read(h, &x) < 0)
        return -1;
    bay_carry(&n->bay, &x, program_invocation_short_name);
    sg_report(h, &x);
    return 0;
}

/* ---- the entries that a client calls ---- */

/* The name by which skdump alone asks what a file is: it opens nothing but block devices. */
int __fxstat(int version, int fd, struct stat *s)
{
    (void)version;
    int result = fstat(fd, s);
    if (result == 0 && node_of(fd))
        s->st_mode = (s->st_mode & ~(mode_t)S_IFMT) | S_IFBLK;
    return result;
}

int ioctl(int fd, unsigned long request, ...)
{
    va_list rest;
    va_start(rest, request);
    void *argument = va_arg(rest, void *);
    va_end(rest);
    node *n = node_of(fd);
    if (!n)
        return (int)syscall(SYS_ioctl, fd, request, argument);
    if (request == SG_IO)
        return answer_sg_io(n, argument);
    if (request == SG_GET_VERSION_NUM) {
        *(int *)argument = SG_VERSION;
        return 0;
    }
    if (request == BLKGETSIZE64) { /* for skdump, to which any size is right that is not 0 */
        *(uint64_t *)argument = UINT64_C(1) << 30;
        return 0;
    }
    errno = ENOTTY; /* no client of these tests needs another request */
    return -1;
}
