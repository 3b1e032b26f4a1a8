/* Messages of vhost-user (QEMU's docs/interop/vhost-user.rst) and split rings of virtio. No
   feature of the rings is offered but version 1, so that each request has one bell and one list
   of pieces; and that there are features of the protocol, of which none is: QEMU 7.2 takes no
   device without. */
#define _GNU_SOURCE
#include "vhost.h"

#include <errno.h>
#include <poll.h>
#include <sched.h>
#include <stdio.h>
#include <stdlib.h>
#include <string.h>
#include <sys/mman.h>
#include <sys/socket.h>
#include <sys/un.h>
#include <unistd.h>

enum { GET_FEATURES = 1, SET_MEM_TABLE = 5, SET_VRING_NUM = 8, SET_VRING_ADDR = 9,
       SET_VRING_BASE = 10, GET_VRING_BASE = 11, SET_VRING_KICK = 12, SET_VRING_CALL = 13,
       GET_PROTOCOL_FEATURES = 15 };
enum { REGIONS = 8, RINGS = 8, REPLY = 5 /* version 1, and that it is one */, NO_BELL = 0x100 };
enum { MORE = 1, FOR_DEVICE_TO_WRITE = 2 };

typedef struct {
    uint64_t guest, size, user, offset;
} region;

typedef struct {
    uint32_t code, flags, size;
    union {
        uint64_t number;
        struct { uint32_t index, value; } state;
        struct { uint32_t index, flags; uint64_t table, used, available, log; } address;
        struct { uint32_t count, unused; region regions[REGIONS]; } memory;
    };
} __attribute__((packed)) message;

enum { HEAD = offsetof(message, number) };

typedef struct { uint64_t at; uint32_t size; uint16_t flags, next; } descriptor;
typedef struct { uint16_t flags, index, ring[]; } available_ring;
typedef struct { uint16_t flags, index; struct { uint32_t id, size; } ring[]; } used_ring;

typedef struct {
    uint32_t size;
    uint16_t next;
    const descriptor *table;
    available_ring *available;
    used_ring *used;
    int kick, call;
} ring;

static region regions[REGIONS];
static uint8_t *mapped[REGIONS];
static size_t regions_used;
static ring rings[RINGS];

static void die(const char *why)
{
    fprintf(stderr, "adapter: %s\n", why);
    exit(1);
}

/* ---- pieces ---- */

static size_t pieces_move(const struct iovec *pieces, size_t used, size_t skip, uint8_t *bytes,
                          size_t size, int to_pieces)
{
    size_t moved = 0;
    for (size_t i = 0; i < used && moved < size; i++) {
        size_t from = skip < pieces[i].iov_len ? skip : pieces[i].iov_len;
        size_t here = pieces[i].iov_len - from;
        skip -= from;
        if (here > size - moved)
            here = size - moved;
        if (to_pieces)
            memcpy((uint8_t *)pieces[i].iov_base + from, bytes + moved, here);
        else
            memcpy(bytes + moved, (const uint8_t *)pieces[i].iov_base + from, here);
        moved += here;
    }
    return moved;
}

size_t pieces_read(const struct iovec *pieces, size_t used, size_t skip, void *to, size_t size)
{
    return pieces_move(pieces, used, skip, to, size, 0);
}

size_t pieces_write(const struct iovec *pieces, size_t used, size_t skip, const void *from,
                    size_t size)
{
    return pieces_move(pieces, used, skip, (uint8_t *)from, size, 1);
}

size_t pieces_size(const struct iovec *pieces, size_t used)
{
    size_t size = 0;
    for (size_t i = 0; i < used; i++)
        size += pieces[i].iov_len;
    return size;
}

/* ---- the machine's memory ---- */

static void map_memory(const message *m, const int *files)
{
    if (m->memory.count > REGIONS)
        die("too many regions of memory");
    for (size_t i = 0; i < regions_used; i++)
        munmap(mapped[i], regions[i].size + regions[i].offset);
    regions_used = m->memory.count;
    for (size_t i = 0; i < regions_used; i++) {
        regions[i] = m->memory.regions[i];
        mapped[i] = mmap(NULL, regions[i].size + regions[i].offset, PROT_READ | PROT_WRITE,
                         MAP_SHARED, files[i], 0);
        if (mapped[i] == MAP_FAILED)
            die("the machine's memory cannot be mapped");
        close(files[i]);
    }
}

/* Where size bytes are that stand at an address of the machine, or of QEMU. */
static void *found(uint64_t at, size_t size, int of_qemu)
{
    for (size_t i = 0; i < regions_used; i++) {
        uint64_t start = of_qemu ? regions[i].user : regions[i].guest;
        if (at >= start && at - start <= regions[i].size && size <= regions[i].size - (at - start))
            return mapped[i] + regions[i].offset + (at - start);
    }
    die("an address outside the machine's memory");
    return NULL;
}

/* ---- rings ---- */

static void read_request(const ring *r, uint16_t first, request *q)
{
    uint16_t at = first;
    q->written_used = q->room_used = 0;
    for (uint32_t count = 0; count < r->size && at < r->size; count++) {
        const descriptor *d = &r->table[at];
        int for_device = d->flags & FOR_DEVICE_TO_WRITE;
        size_t *used = for_device ? &q->room_used : &q->written_used;
        if (*used == PIECES)
            die("a request in too many pieces");
        struct iovec *pieces = for_device ? q->room : q->written;
        pieces[(*used)++] = (struct iovec){found(d->at, d->size, 0), d->size};
        if (!(d->flags & MORE))
            return;
        at = d->next;
    }
    die("a request without an end");
}

static void ring_bell(const ring *r)
{
    const uint64_t once = 1;
    if (r->call >= 0 && write(r->call, &once, sizeof once) < 0)
        die("a bell cannot be rung");
}

/* The bell of a request orders what the machine stored before it. A request that is found before its
   bell has no such order where the emulator makes none between the machine's stores: its index may
   be seen before its entry. The entry is there well before the host comes back from a call. */
static void settle(void)
{
    sched_yield();
}

static void serve_ring(unsigned number, void (*answer)(unsigned, request *))
{
    static request q;
    ring *r = &rings[number];
    uint64_t rung;
    if (read(r->kick, &rung, sizeof rung) < 0 && errno != EAGAIN)
        die("a bell cannot be heard");
    while (r->used && r->next != __atomic_load_n(&r->available->index, __ATOMIC_ACQUIRE)) {
        settle();
        uint16_t first = r->available->ring[r->next++ % r->size], at = r->used->index;
        read_request(r, first, &q);
        answer(number, &q);
        r->used->ring[at % r->size].id = first;
        r->used->ring[at % r->size].size = (uint32_t)pieces_size(q.room, q.room_used);
        __atomic_store_n(&r->used->index, (uint16_t)(at + 1), __ATOMIC_RELEASE);
        ring_bell(r);
    }
}

/* ---- messages ---- */

static void set_bell(int *bell, const message *m, const int *files)
{
    if (*bell >= 0)
        close(*bell);
    *bell = m->number & NO_BELL ? -1 : files[0];
}

static void place_ring(ring *r, const message *m)
{
    r->table = found(m->address.table, r->size * sizeof *r->table, 1);
    r->available = found(m->address.available,
                         sizeof *r->available + r->size * sizeof r->available->ring[0], 1);
    r->used = found(m->address.used, sizeof *r->used + r->size * sizeof r->used->ring[0], 1);
}

static void reply(int qemu, message *m, uint32_t size)
{
    m->flags = REPLY;
    m->size = size;
    if (write(qemu, m, HEAD + size) != (ssize_t)(HEAD + size))
        die("QEMU cannot be answered");
}

static ring *ring_of(const message *m)
{
    int bell = m->code == SET_VRING_KICK || m->code == SET_VRING_CALL;
    uint32_t number = bell ? m->number & 0xFF : m->state.index;
    if (number >= RINGS)
        die("too many rings");
    return &rings[number];
}

static void obey_of_ring(int qemu, ring *r, message *m, const int *files)
{
    switch (m->code) {
    case SET_VRING_NUM:
        r->size = m->state.value;
        return;
    case SET_VRING_BASE:
        r->next = (uint16_t)m->state.value;
        return;
    case SET_VRING_ADDR:
        place_ring(r, m);
        return;
    case SET_VRING_KICK:
        set_bell(&r->kick, m, files);
        return;
    case SET_VRING_CALL:
        set_bell(&r->call, m, files);
        ring_bell(r); /* for what was answered before this bell came, by one that nobody hears */
        return;
    default: /* GET_VRING_BASE, which also stops the ring */
        r->used = NULL;
        m->state.value = r->next;
        reply(qemu, m, sizeof m->state);
    }
}

static void obey(int qemu, message *m, const int *files)
{
    switch (m->code) {
    case GET_FEATURES:
        m->number = 1ull << 32 | 1ull << 30;
        reply(qemu, m, sizeof m->number);
        return;
    case GET_PROTOCOL_FEATURES:
        m->number = 0;
        reply(qemu, m, sizeof m->number);
        return;
    case SET_MEM_TABLE:
        map_memory(m, files);
        return;
    case SET_VRING_NUM:
    case SET_VRING_ADDR:
    case SET_VRING_BASE:
    case GET_VRING_BASE:
    case SET_VRING_KICK:
    case SET_VRING_CALL:
        obey_of_ring(qemu, ring_of(m), m, files);
        return;
    default: /* owners, features that are taken, and errors' bells: nothing to do */
        return;
    }
}

/* A message, with the files that came along; 0 where QEMU has gone. */
static int hear(int qemu, message *m, int *files)
{
    union { struct cmsghdr head; char room[CMSG_SPACE(REGIONS * sizeof(int))]; } along;
    struct iovec piece = {m, HEAD};
    struct msghdr h = {.msg_iov = &piece, .msg_iovlen = 1,
                       .msg_control = &along, .msg_controllen = sizeof along};
    ssize_t size = recvmsg(qemu, &h, MSG_WAITALL | MSG_CMSG_CLOEXEC);
    if (size <= 0)
        return 0;
    for (struct cmsghdr *c = CMSG_FIRSTHDR(&h); c; c = CMSG_NXTHDR(&h, c))
        if (c->cmsg_level == SOL_SOCKET && c->cmsg_type == SCM_RIGHTS)
            memcpy(files, CMSG_DATA(c), c->cmsg_len - CMSG_LEN(0));
    if (size != HEAD || m->size > sizeof *m - HEAD)
        die("a message that is not of vhost-user");
    return !m->size || recv(qemu, (char *)m + HEAD, m->size, MSG_WAITALL) == (ssize_t)m->size;
}

static int qemu_on(const char *path)
{
    struct sockaddr_un address = {.sun_family = AF_UNIX};
    int listener = socket(AF_UNIX, SOCK_STREAM | SOCK_CLOEXEC, 0);
    if (strlen(path) >= sizeof address.sun_path)
        die("the socket's name is too long");
    strcpy(address.sun_path, path);
    if (bind(listener, (struct sockaddr *)&address, sizeof address) < 0 || listen(listener, 1) < 0)
        die("no socket can be made");
    return accept4(listener, NULL, NULL, SOCK_CLOEXEC);
}

void vhost_serve(const char *path, void (*answer)(unsigned ring, request *r))
{
    struct pollfd waits[1 + RINGS];
    int files[REGIONS], qemu = qemu_on(path);
    message m;
    for (unsigned i = 0; i < RINGS; i++)
        rings[i].kick = rings[i].call = -1;
    for (;;) {
        waits[0] = (struct pollfd){.fd = qemu, .events = POLLIN};
        for (unsigned i = 0; i < RINGS; i++)
            waits[1 + i] = (struct pollfd){.fd = rings[i].used ? rings[i].kick : -1,
                                           .events = POLLIN};
        if (poll(waits, 1 + RINGS, -1) < 0)
            die("nothing can be waited for");
        for (unsigned i = 0; i < RINGS; i++)
            if (waits[1 + i].revents & POLLIN)
                serve_ring(i, answer);
        if (waits[0].revents) {
            if (!hear(qemu, &m, files))
                return;
            obey(qemu, &m, files);
        }
    }
}
