/* standby_form.h: what the active process says to its standby: packets of a length (4 octets), and items of these kinds. */
#ifndef STANDBY_FORM_H
#define STANDBY_FORM_H

enum {
    ITEM_STATE = 1,     /* the first item: the time's origin, and the state as it is saved */
    ITEM_CALL,          /* a call on a card: the identifier of its first line, kind, moment, line, request, service, TEI, octets */
    ITEM_LINE,          /* a line as it is now */
    ITEM_ADDED,         /* a message waits for a server: number, identifier, octets */
    ITEM_GONE,          /* .. and does no more: number */
    ITEM_DESCRIPTOR,    /* the descriptor of a line comes with this packet */
    ITEM_NO_DESCRIPTOR, /* it has none any more */
    ITEM_ANEW           /* the standby begins anew */
};

#endif
