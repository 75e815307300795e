/*
 * frames.c: a D-channel of one's own hardware joins lapd-gateway, by the protocol of lapd-gateway(8). The hardware is a UDP port
 * here, of which a packet is a frame: put your controller's calls in place of the four functions below.
 *
 *     cc -O2 -o frames frames.c
 *     frames LINES LINE OWN-PORT OTHER-PORT
 *
 * LINES is the gateway's socket of lines, and LINE an interface identifier. It ends as the gateway ends the connection.
 */
#define _GNU_SOURCE

#include <arpa/inet.h>
#include <poll.h>
#include <stdio.h>
#include <stdlib.h>
#include <string.h>
#include <sys/socket.h>
#include <sys/un.h>
#include <unistd.h>

/* ---- The hardware: a descriptor to wait at, a frame that came, one that goes, and the activation of layer 1 --------------- */

static int hardware_open(char **word) {
    struct sockaddr_in at = {.sin_family = AF_INET, .sin_addr.s_addr = htonl(INADDR_LOOPBACK)};
    at.sin_port = htons((unsigned short)atoi(word[0]));
    int own = socket(AF_INET, SOCK_DGRAM, 0);
    if (own < 0 || bind(own, (struct sockaddr *)&at, sizeof at) != 0)
        return -1;
    at.sin_port = htons((unsigned short)atoi(word[1]));
    return connect(own, (struct sockaddr *)&at, sizeof at) == 0 ? own : -1;
}

static ssize_t hardware_receive(int own, unsigned char *frame, size_t room) { return recv(own, frame, room, 0); }
static void hardware_send(int own, const unsigned char *frame, size_t length) { (void)!send(own, frame, length, 0); }
static void hardware_activate(int own) { (void)own; } /* this one is always active */

/* ---- The gateway ----------------------------------------------------------------------------------------------------------- */

static int gateway_join(const char *path, unsigned long line) {
    struct sockaddr_un to = {.sun_family = AF_UNIX};
    unsigned char name[4] = {line >> 24 & 255, line >> 16 & 255, line >> 8 & 255, line & 255};
    int gateway = socket(AF_UNIX, SOCK_SEQPACKET, 0); /* a packet stays whole */
    strncpy(to.sun_path, path, sizeof to.sun_path - 1);
    if (connect(gateway, (struct sockaddr *)&to, sizeof to) != 0)
        return -1;
    return send(gateway, name, sizeof name, 0) == sizeof name ? gateway : -1;
}

int main(int words, char **word) {
    unsigned char packet[512]; /* a frame has 264 octets at most */
    ssize_t length = 1;
    if (words != 5)
        return fputs("usage: frames LINES LINE OWN-PORT OTHER-PORT\n", stderr), 2;
    int hardware = hardware_open(word + 3), gateway = hardware < 0 ? -1 : gateway_join(word[1], strtoul(word[2], NULL, 10));
    if (gateway < 0)
        return perror("frames"), 1;
    struct pollfd at[2] = {{.fd = hardware, .events = POLLIN}, {.fd = gateway, .events = POLLIN}};
    while (length > 0 && poll(at, 2, -1) > 0) {
        if (at[0].revents != 0 && (length = hardware_receive(hardware, packet, sizeof packet)) > 1)
            length = send(gateway, packet, (size_t)length, MSG_NOSIGNAL);
        else if (at[0].revents != 0)
            length = 1; /* no frame: a fault of the hardware, which the gateway may be told by a signal */
        if (at[1].revents != 0 && (length = recv(gateway, packet, sizeof packet, 0)) > 1)
            hardware_send(hardware, packet, (size_t)length); /* the controller has room: only then is a packet read */
        else if (at[1].revents != 0 && length == 1 && packet[0] == 'W')
            hardware_activate(hardware);
    }
    return 0;
}
