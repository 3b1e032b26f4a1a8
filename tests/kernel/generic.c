/* A preload library for QEMU: the disks of a shelf, plain files, are to it devices of Linux's sg
   driver, so that a bay can be its `scsi-generic` disk. Their commands go where host.h says.

   PIONGSEUT_SHELF     the folder of the shelf
   PIONGSEUT_HOST_LOG  the file that gets one line for each command
   PIONGSEUT_BOARD     the board, as a command of the shell */
#define _GNU_SOURCE
#include <errno.h>
#include <fcntl.h>
#include <linux/fs.h>
#include <pthread.h>
#include <stdarg.h>
#include <stdio.h>
#include <stdlib.h>
#include <sys/ioctl.h>
#include <sys/stat.h>
#include <sys/syscall.h>
#include <sys/sysmacros.h>
#include <unistd.h>

#include "../clients/sg.h"
#include "host.h"

#define FOR_QEMU __attribute__((visibility("default")))

enum { SG_MAJOR = 21 };

__attribute__((constructor)) static void start(void)
{
    const char *shelf = getenv("PIONGSEUT_SHELF"), *log = getenv("PIONGSEUT_HOST_LOG");
    char *board[] = {"sh", "-c", getenv("PIONGSEUT_BOARD"), NULL};
    if (!shelf || !log || !board[2]) {
        fprintf(stderr, "generic: a variable is not set\n");
        _exit(1);
    }
    unsetenv("LD_PRELOAD"); /* the board is no QEMU */
    host_start(shelf, log, board);
}

/* ---- which files are disks ---- */

/* The bay whose disk a file is, or -1. */
static int bay_of(const struct stat64 *s)
{
    struct stat disk;
    for (uint32_t i = 0; i < host_bays(); i++)
        if (fstat(host_disk(i), &disk) == 0 && disk.st_dev == s->st_dev && disk.st_ino == s->st_ino)
            return (int)i;
    return -1;
}

static int shown(struct stat64 *s)
{
    int bay = bay_of(s);
    if (bay >= 0) {
        s->st_mode = S_IFCHR | (s->st_mode & ~(mode_t)S_IFMT);
        s->st_rdev = makedev(SG_MAJOR, (unsigned)bay);
    }
    return 0;
}

FOR_QEMU int stat64(const char *path, struct stat64 *s)
{
    return fstatat64(AT_FDCWD, path, s, 0) < 0 ? -1 : shown(s);
}

FOR_QEMU int fstat64(int fd, struct stat64 *s)
{
    return fstatat64(fd, "", s, AT_EMPTY_PATH) < 0 ? -1 : shown(s);
}

/* ---- what QEMU asks of them ---- */

/* QEMU asks from many threads, the host takes one command at a time. */
static int carry(uint32_t bay, sg_io_hdr_t *h)
{
    static pthread_mutex_t one = PTHREAD_MUTEX_INITIALIZER;
    exchange x;
    if (sg_read(h, &x) < 0)
        return -1;
    pthread_mutex_lock(&one);
    host_carry(bay, &x);
    pthread_mutex_unlock(&one);
    sg_report(h, &x);
    return 0;
}

static int answer(uint32_t bay, unsigned long asked, void *argument)
{
    switch (asked) {
    case SG_IO:
        return carry(bay, argument);
    case SG_GET_VERSION_NUM:
        *(int *)argument = SG_VERSION;
        return 0;
    case SG_GET_SCSI_ID: /* a disk, by type 0 */
        *(struct sg_scsi_id *)argument = (struct sg_scsi_id){.scsi_id = (int)bay};
        return 0;
    case BLKSECTGET: /* of this driver in bytes */
        *(int *)argument = MOST;
        return 0;
    default:
        errno = ENOTTY;
        return -1;
    }
}

FOR_QEMU int ioctl(int fd, unsigned long asked, ...)
{
    struct stat64 s;
    va_list rest;
    va_start(rest, asked);
    void *argument = va_arg(rest, void *);
    va_end(rest);
    int bay = fstatat64(fd, "", &s, AT_EMPTY_PATH) < 0 ? -1 : bay_of(&s);
    return bay < 0 ? (int)syscall(SYS_ioctl, fd, asked, argument)
                   : answer((uint32_t)bay, asked, argument);
}
