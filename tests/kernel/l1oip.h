/*
 * l1oip.h: devices of the kernel's l1oip, whose layer 1 is packets of UDP. Each has a port on the loopback device. Its other end is
 * a socket of the test's, or another device.
 */
#ifndef L1OIP_H
#define L1OIP_H

#include <stdbool.h>

enum { L1OIP_MOST = 16, L1OIP_DEVICE_PORT = 9310, L1OIP_TEST_PORT = 9410, L1OIP_ID = 77 };

/* Loads it with so many devices, of basic or of primary rate access. If they are joined, devices 0 and 1 are each other's end, 2
 * and 3, and so on; otherwise the end of device N is the port L1OIP_TEST_PORT + N. */
bool l1oip_load(unsigned devices, bool is_primary, bool are_joined);

/* Takes it off. First it waits until the timer of mISDN's TEI management has expired, which outlives what it works on: it runs 10 s
 * after the last link of a network went down. */
bool l1oip_unload(void);

#endif
