/* What the Linux sg driver does with a header of SG_IO, version 3. */
#ifndef SG_H
#define SG_H

#include <scsi/sg.h>

#include "exchange.h"

enum { SG_VERSION = 30536 /* 3.5.36, the driver of the years of version 3 */ };

/* The command that a header asks for; 0, or -1 with errno where the driver refuses it. */
int sg_read(const sg_io_hdr_t *h, exchange *x);

/* Tells the host in the header what came of it. */
void sg_report(sg_io_hdr_t *h, const exchange *x);

#endif
