#define _GNU_SOURCE
#include "interface.h"

#include <arpa/inet.h>
#include <errno.h>
#include <linux/if_ether.h>
#include <linux/if_packet.h>
#include <net/if.h>
#include <net/if_arp.h>
#include <poll.h>
#include <string.h>
#include <sys/ioctl.h>
#include <sys/socket.h>
#include <time.h>
#include <unistd.h>

#include "link.h"
#include "message.h"

#define TAG_AT 12
#define TAG_BYTES 4
/* Room for the frames of a pause of the program: some 80,000 short ones. Without CAP_NET_ADMIN the system's own limit holds. */
#define BUFFER_BYTES (64 * 1024 * 1024)

/* What comes beside a frame: the tag that was taken out of it, and its time. */
union beside {
    size_t alignment;
    char bytes[CMSG_SPACE(sizeof(struct tpacket_auxdata)) + CMSG_SPACE(sizeof(struct timespec))];
};

static int failed(const char *name)
{
    return bad_data("interface %s: %s", name, strerror(errno));
}

/* Only Ethernet has the frames that the library reads. */
static int check_kind(int file, const char *name)
{
    struct ifreq request;
    memset(&request, 0, sizeof request);
    strncpy(request.ifr_name, name, sizeof request.ifr_name - 1);
    if (ioctl(file, SIOCGIFHWADDR, &request) != 0)
        return failed(name);
    unsigned kind = request.ifr_hwaddr.sa_family;
    if (kind == ARPHRD_ETHER)
        return 0;
    return bad_data("interface %s is not Ethernet: its hardware type is %u (%s)", name, kind, hardware_name(kind));
}

/* For ETH_P_ALL the socket gets every frame, for 0 none. */
static int open_interface(const char *name, int protocol)
{
    struct sockaddr_ll address;
    unsigned index = if_nametoindex(name);
    if (index == 0)
        return failed(name), -1;
    /* Protocol 0 until it is bound: no frame of another interface gets in. */
    int file = socket(AF_PACKET, SOCK_RAW | SOCK_CLOEXEC, 0);
    if (file < 0)
        return bad_data("interface %s: no raw socket: %s (root or CAP_NET_RAW is needed)", name, strerror(errno)), -1;
    memset(&address, 0, sizeof address);
    address.sll_family = AF_PACKET;
    address.sll_ifindex = (int)index;
    address.sll_protocol = htons((uint16_t)protocol);
    if (check_kind(file, name) == 0 && (bind(file, (struct sockaddr *)&address, sizeof address) == 0 || failed(name) == 0))
        return file;
    close(file);
    return -1;
}

/* Promiscuous, since Compact frames carry inner addresses in front; with the tags that the kernel takes out told apart, and times. */
static int listen_to_all(int file, const char *name)
{
    struct packet_mreq all;
    int on = 1, room = BUFFER_BYTES;
    memset(&all, 0, sizeof all);
    all.mr_ifindex = (int)if_nametoindex(name);
    all.mr_type = PACKET_MR_PROMISC;
    if (setsockopt(file, SOL_SOCKET, SO_RCVBUFFORCE, &room, sizeof room) != 0)
        setsockopt(file, SOL_SOCKET, SO_RCVBUF, &room, sizeof room);
    if (setsockopt(file, SOL_PACKET, PACKET_ADD_MEMBERSHIP, &all, sizeof all) == 0
        && setsockopt(file, SOL_PACKET, PACKET_AUXDATA, &on, sizeof on) == 0
        && setsockopt(file, SOL_SOCKET, SO_TIMESTAMPNS, &on, sizeof on) == 0)
        return 0;
    return failed(name);
}

/* Puts back the tag behind the addresses that the kernel took out of a frame: a Compact frame's label, or an outer tag. */
static void restore_tag(const struct tpacket_auxdata *more, struct captured *frame)
{
    if (!(more->tp_status & TP_STATUS_VLAN_VALID) || frame->length < TAG_AT)
        return;
    unsigned type = more->tp_status & TP_STATUS_VLAN_TPID_VALID ? more->tp_vlan_tpid : ETH_P_8021Q;
    uint8_t tag[TAG_BYTES] = {(uint8_t)(type >> 8), (uint8_t)type, (uint8_t)(more->tp_vlan_tci >> 8),
                              (uint8_t)more->tp_vlan_tci};
    memmove(frame->bytes + TAG_AT + TAG_BYTES, frame->bytes + TAG_AT, frame->length - TAG_AT);
    memcpy(frame->bytes + TAG_AT, tag, TAG_BYTES);
    frame->length += TAG_BYTES;
}

static void take_beside(struct msghdr *message, struct captured *frame)
{
    struct tpacket_auxdata more;
    struct timespec time;
    clock_gettime(CLOCK_REALTIME, &time);
    memset(&more, 0, sizeof more);
    for (struct cmsghdr *part = CMSG_FIRSTHDR(message); part != NULL; part = CMSG_NXTHDR(message, part)) {
        if (part->cmsg_level == SOL_PACKET && part->cmsg_type == PACKET_AUXDATA)
            memcpy(&more, CMSG_DATA(part), sizeof more);
        if (part->cmsg_level == SOL_SOCKET && part->cmsg_type == SO_TIMESTAMPNS)
            memcpy(&time, CMSG_DATA(part), sizeof time);
    }
    frame->seconds = (uint32_t)time.tv_sec;
    frame->fraction = (uint32_t)time.tv_nsec;
    frame->digits = 9;
    frame->timed = 1;
    restore_tag(&more, frame);
}

static int batch(int file, unsigned most, struct captured *frames, struct mmsghdr *messages)
{
    static struct sockaddr_ll from[INTERFACE_BATCH];
    static union beside beside[INTERFACE_BATCH];
    static struct iovec area[INTERFACE_BATCH];
    memset(messages, 0, INTERFACE_BATCH * sizeof *messages);
    for (unsigned i = 0; i < most; i++) {
        struct msghdr *message = &messages[i].msg_hdr;
        area[i].iov_base = frames[i].bytes;
        area[i].iov_len = sizeof frames[i].bytes - TAG_BYTES;
        message->msg_name = &from[i];
        message->msg_namelen = sizeof from[i];
        message->msg_iov = &area[i];
        message->msg_iovlen = 1;
        message->msg_control = &beside[i];
        message->msg_controllen = sizeof beside[i];
    }
    return recvmmsg(file, messages, most, MSG_DONTWAIT, NULL);
}

enum interface_step interface_read(struct interface *interface, unsigned most)
{
    static struct captured frames[INTERFACE_BATCH];
    static struct mmsghdr messages[INTERFACE_BATCH];
    interface->count = 0;
    int got = batch(interface->file, most < INTERFACE_BATCH ? most : INTERFACE_BATCH, frames, messages);
    if (got < 0 && (errno == EAGAIN || errno == EINTR))
        return INTERFACE_READ;
    if (got < 0 && errno == ENETDOWN) {
        interface_close(interface);
        return INTERFACE_DOWN;
    }
    if (got < 0)
        return failed(interface->name), INTERFACE_FAILED;
    for (int i = 0; i < got; i++) {
        struct msghdr *message = &messages[i].msg_hdr;
        if (((struct sockaddr_ll *)message->msg_name)->sll_pkttype == PACKET_OUTGOING)
            continue;
        if (message->msg_flags & MSG_TRUNC) {
            bad_data("interface %s: a frame over %zu bytes is left out", interface->name, message->msg_iov->iov_len);
            continue;
        }
        frames[i].length = messages[i].msg_len;
        take_beside(message, &frames[i]);
        interface->frames[interface->count++] = &frames[i];
    }
    return INTERFACE_READ;
}

int interface_to_send(const char *name)
{
    return open_interface(name, 0);
}

int interface_open(struct interface *interface, const char *name)
{
    interface->name = name;
    interface->file = open_interface(name, ETH_P_ALL);
    if (interface->file >= 0 && listen_to_all(interface->file, name) == 0)
        return 0;
    interface_close(interface);
    return 1;
}

void interface_wait(const struct interface *interface, int milliseconds)
{
    struct pollfd ready = {interface->file, POLLIN, 0};
    poll(&ready, 1, milliseconds);
}

int interface_again(struct interface *interface)
{
    struct ifreq request;
    memset(&request, 0, sizeof request);
    strncpy(request.ifr_name, interface->name, sizeof request.ifr_name - 1);
    int file = socket(AF_PACKET, SOCK_RAW | SOCK_CLOEXEC, 0);
    if (file < 0)
        return 0;
    int up = ioctl(file, SIOCGIFFLAGS, &request) == 0 && request.ifr_flags & IFF_UP;
    close(file);
    return up && interface_open(interface, interface->name) == 0;
}

void interface_count_lost(struct interface *interface)
{
    struct tpacket_stats stats;
    socklen_t length = sizeof stats;
    /* The kernel counts from 0 again after each question. */
    if (interface->file >= 0 && getsockopt(interface->file, SOL_PACKET, PACKET_STATISTICS, &stats, &length) == 0)
        interface->lost += stats.tp_drops;
}

void interface_close(struct interface *interface)
{
    interface_count_lost(interface);
    if (interface->file >= 0)
        close(interface->file);
    interface->file = -1;
}
