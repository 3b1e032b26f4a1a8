/* The device side of vhost-user, as much as virtio-scsi takes: QEMU hands over the machine's
   memory, its rings and their bells, and has no part in what goes through them. */
#ifndef VHOST_H
#define VHOST_H

#include <stddef.h>
#include <stdint.h>
#include <sys/uio.h>

enum { PIECES = 256 };

/* A request in a ring: what the machine wrote, and the room where it wants the answer. */
typedef struct {
    struct iovec written[PIECES], room[PIECES];
    size_t written_used, room_used;
} request;

/* Copies up to size bytes from the skip-th byte of the pieces on, or to there; how many. */
size_t pieces_read(const struct iovec *pieces, size_t used, size_t skip, void *to, size_t size);
size_t pieces_write(const struct iovec *pieces, size_t used, size_t skip, const void *from,
                    size_t size);
size_t pieces_size(const struct iovec *pieces, size_t used);

/* Waits for QEMU on a socket of this name and serves it until it goes. Every request goes to
   answer, with the number of its ring, in the order in which the machine made them. */
void vhost_serve(const char *path, void (*answer)(unsigned ring, request *r));

#endif
