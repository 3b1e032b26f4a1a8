/* A header of SG_IO to an exchange and back, as the Linux sg driver has it. */
#include "sg.h"

#include <errno.h>
#include <string.h>

enum { DID_TIME_OUT = 3, DID_ERROR = 7, DRIVER_SENSE = 8 }; /* the kernel's numbers, in no public header */

static int host_direction(const sg_io_hdr_t *h)
{
    switch (h->dxfer_direction) {
    case SG_DXFER_FROM_DEV:
    case SG_DXFER_TO_FROM_DEV:
        return PIONGSEUT_DIRECTION_FROM_DRIVE;
    case SG_DXFER_TO_DEV:
        return PIONGSEUT_DIRECTION_TO_DRIVE;
    default:
        return PIONGSEUT_DIRECTION_NONE;
    }
}

int sg_read(const sg_io_hdr_t *h, exchange *x)
{
    *x = (exchange){.command = h->cmdp, .command_size = h->cmd_len, .data = h->dxferp,
                    .direction = host_direction(h), .status = PIONGSEUT_NONE};
    /* a header of version 4 has 'Q' here; kernels that know only version 3 refuse it so */
    if (h->interface_id != 'S' || h->iovec_count || h->dxfer_len > MOST || !h->cmd_len ||
        (h->dxfer_len && !h->dxferp)) {
        errno = EINVAL;
        return -1;
    }
    x->declared = x->direction == PIONGSEUT_DIRECTION_NONE ? 0 : h->dxfer_len;
    return 0;
}

void sg_report(sg_io_hdr_t *h, const exchange *x)
{
    size_t sense = sense_size(x);
    h->status = x->status;
    h->host_status = 0;
    h->driver_status = 0;
    h->sb_len_wr = 0;
    if (x->status == PIONGSEUT_NONE) { /* no status came back: the adapter reports an error, or waits in vain */
        h->status = PIONGSEUT_GOOD;
        h->host_status = x->hung ? DID_TIME_OUT : DID_ERROR;
    }
    if (h->status == PIONGSEUT_CHECK_CONDITION) {
        h->driver_status = DRIVER_SENSE;
        if (h->sbp) {
            h->sb_len_wr = (unsigned char)(sense < h->mx_sb_len ? sense : h->mx_sb_len);
            memcpy(h->sbp, x->sense, h->sb_len_wr);
        }
    }
    h->masked_status = (h->status >> 1) & 0x1F;
    h->msg_status = 0;
    h->resid = (int)(x->declared - x->moved);
    h->duration = 1;
    h->info = h->status || h->host_status || h->driver_status ? SG_INFO_CHECK : SG_INFO_OK;
}
