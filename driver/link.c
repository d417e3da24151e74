#include "link.h"

#include <stddef.h>

#define TYPE_BITS 16

struct kind {
    unsigned number;
    const char *name;
};

static const char *find(const struct kind *kinds, size_t count, unsigned number)
{
    for (size_t i = 0; i < count; i++)
        if (kinds[i].number == number)
            return kinds[i].name;
    return "a name that is not known here";
}

const char *link_name(uint32_t type)
{
    static const struct kind KINDS[] = {
        {0, "BSD loopback"},       {1, "Ethernet without FCS"}, {6, "Token Ring"},          {9, "PPP"},
        {10, "FDDI"},              {12, "raw IP"},              {50, "PPP over HDLC"},      {51, "PPPoE"},
        {101, "raw IP"},           {104, "Cisco HDLC"},         {105, "IEEE 802.11"},       {108, "OpenBSD loopback"},
        {113, "Linux cooked"},     {117, "OpenBSD pflog"},      {127, "802.11 radiotap"},   {187, "Bluetooth HCI"},
        {189, "Linux USB"},        {192, "PPI"},                {195, "IEEE 802.15.4"},     {220, "Linux USB"},
        {227, "SocketCAN"},        {228, "raw IPv4"},           {229, "raw IPv6"},          {239, "NFLOG"},
        {249, "USBPcap"},          {253, "Linux netlink"},      {276, "Linux cooked v2"},
    };
    if (type >> TYPE_BITS != 0 && (type & ((1u << TYPE_BITS) - 1)) == LINK_ETHERNET)
        return "Ethernet with an FCS";
    return find(KINDS, sizeof KINDS / sizeof KINDS[0], type & ((1u << TYPE_BITS) - 1));
}

const char *hardware_name(unsigned type)
{
    static const struct kind KINDS[] = {
        {1, "Ethernet"},          {24, "FireWire"},     {32, "InfiniBand"}, {280, "CAN"},      {512, "PPP"},
        {768, "IPv4 tunnel"},     {769, "IPv6 tunnel"}, {772, "loopback"},  {776, "sit tunnel"}, {778, "GRE tunnel"},
        {801, "IEEE 802.11"},     {803, "802.11 radiotap"}, {804, "IEEE 802.15.4"}, {823, "GRE tunnel over IPv6"},
        {824, "netlink"},         {826, "vsock monitor"}, {65534, "no link layer"},
    };
    return find(KINDS, sizeof KINDS / sizeof KINDS[0], type);
}
