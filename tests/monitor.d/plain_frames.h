/* plain_frames.h: the frames that a plain end makes. They wait among its control frames; one that finds no room is lost. */
#ifndef PLAIN_FRAMES_H
#define PLAIN_FRAMES_H

#include "plain.h"

enum { SABME = 0x6F, DISC = 0x43, UA = 0x63, DM = 0x0F, FRMR = 0x87, UI = 0x03, XID = 0xAF, RR = 0x01, RNR = 0x05, REJ = 0x09 };

void unnumbered(plain *it, bool is_command, uint8_t control, bool pf);
void supervisory(plain *it, bool is_command, uint8_t control, bool pf);
void answer(plain *it);
void enquiry(plain *it);
void ua(plain *it, bool f);

#endif
