/*
 * Shinglebar: a TRILL edge-switch receiver.
 *
 * Rules for every call:
 *
 * - Addresses are numbers below 2^48, the first byte on the wire most significant. 2^48 or more in a
 *   setting is refusal 1.
 * - `seconds` of shinglebar_age is 16 bits wide, 0 to 65,535: a larger number given to it loses its
 *   high bits in the conversion, so a caller with more seconds ages by 65,535.
 * - A refusal changes nothing.
 *
 * Areas. An area is a pointer and a length, lent for the call: nothing of it is kept afterwards.
 *
 * - The areas of one call (map, frame or payload, table, output or working area) may not overlap; in
 *   particular a native frame cannot be delivered in place, into the frame it came from.
 * - A length may not exceed the memory behind its pointer. No alignment is needed.
 * - A pointer given to a call of the archive is never NULL, also at length 0. The inline calls, whose names
 *   end in _any, take NULL with length 0 and pass the address of a static byte instead. They take the
 *   settings, and a port's map with them, as a struct.
 * - An area that is lent as const is not written. An output or working area keeps its bytes behind
 *   what is written.
 *
 * Threads. The archive has no state of its own, takes no lock and never waits: any number of threads
 * may call it at once.
 *
 * - An area that a call writes (output, working area, and the table of receive, receive_port, age and every
 *   flush) may not be used by another thread until the call has returned. A table that threads share needs
 *   a lock of theirs: shared for lookup, spoilt, free slot, widen, why and report, exclusive for receive,
 *   receive_port, age and every flush.
 * - A thread needs SHINGLEBAR_STACK_MAX bytes of stack for a call, beside its own. There is no heap.
 *
 * Bridge messages. A frame with 01-80-C2-00-00-00 to 0F or 21 in front answers 5 in receive, with Compact
 * on too, and in compact, send and expand. A driver whose port watches for a shared link may report such a
 * frame to the watch (shinglebar_watch_event). To these inner destinations send answers the received frame itself.
 *
 * Maps. A port's map pairs its own VLANs with fine-grained labels of the campus: two numberings. A pair is
 * SHINGLEBAR_PAIR_LENGTH bytes, VLAN (2 bytes) and label (4), most significant byte first, in any order of
 * pairs; shinglebar_pack_pair writes one. No VLAN and no label is in it twice. A map of no bytes is none. It
 * is judged at every call that takes it, receive_port and ingress; no other call does.
 *
 * docs/FORMATS.md has the layouts of records, frames and flush payloads, and the order of refusals.
 * SHINGLEBAR_VERSION is the one version of archive, header, driver, pkg-config file and Rust package.
 *
 * Usable from C99 and from C++.
 */
#ifndef SHINGLEBAR_H
#define SHINGLEBAR_H
#define SHINGLEBAR_VERSION "0.1.0"

#include <stddef.h>
#include <stdint.h>

/* The bytes of a record of the address table, and of the longest table; and those of the older tables that
 * shinglebar_widen reads. */
#define SHINGLEBAR_RECORD_LENGTH 15
#define SHINGLEBAR_TABLE_LENGTH_MAX 61440
#define SHINGLEBAR_OLD_RECORD_LENGTH 14
#define SHINGLEBAR_OLD_TABLE_LENGTH_MAX 57344

/* The bytes of the longest frame, and of a working area in which every compaction has room: send wants
 * so many. */
#define SHINGLEBAR_FRAME_LENGTH_MAX 9216
#define SHINGLEBAR_COMPACT_LENGTH_MAX 9204
/* The longest payload that is written: an output area in which every one has room. */
#define SHINGLEBAR_WRITTEN_LENGTH_MAX 6172

/* The longest report: an output area in which every one has room. */
#define SHINGLEBAR_REPORT_LENGTH_MAX 36880

/* The highest place of a TLV that shinglebar_why shows: only payloads of over 8 MB have a higher one. */
#define SHINGLEBAR_PLACE_MAX 4194303u

/* The bytes of a pair of a map, and of the longest map that is good: a pair for each VLAN. */
#define SHINGLEBAR_PAIR_LENGTH 6
#define SHINGLEBAR_MAP_LENGTH_MAX 24564

/* The bytes of stack that a call takes at most: any call (a map of more than 128 pairs takes most, and a long
 * flush nearly as much, so a frame that brings one does), and a call with no such map that carries out no
 * flush and writes no report, which is every call but receive, receive_port, flush, flush_vlan_only,
 * flush_portion and report.
 * Measured on x86-64: tests/c/stack.c paints the stack of a thread, makes the calls that take most, and
 * fails where one takes more. What the dynamic loader takes when it binds memcpy, memmove and memset, about
 * 3,000 bytes, is counted. */
#define SHINGLEBAR_STACK_MAX 98304
#define SHINGLEBAR_STACK_MAX_WITHOUT_FLUSH 8192

/* The refusal numbers. shinglebar_refusal_string has the words. */
enum shinglebar_refusal_number {
    /* settings outside their ranges */
    SHINGLEBAR_REFUSAL_SETTINGS = 1,
    /* table length 0, not a multiple of 15, or over 61,440 */
    SHINGLEBAR_REFUSAL_TABLE_LENGTH = 2,
    /* frame (or expanded result) outside 14 to 9,216 bytes */
    SHINGLEBAR_REFUSAL_FRAME_LENGTH = 3,
    /* 22F3 not at its place */
    SHINGLEBAR_REFUSAL_NOT_TRILL = 4,
    /* destination in front not for this port */
    SHINGLEBAR_REFUSAL_NOT_FOR_THIS_PORT = 5,
    /* the frame ends inside a field it needs, or content under 2 bytes */
    SHINGLEBAR_REFUSAL_CUT = 6,
    /* V is not 0 */
    SHINGLEBAR_REFUSAL_VERSION = 7,
    /* Hop Count 0 */
    SHINGLEBAR_REFUSAL_HOP_COUNT = 8,
    /* a nickname outside 0001 to FFBF, or ingress nickname our own */
    SHINGLEBAR_REFUSAL_NICKNAME = 9,
    /* label Ethertype or VLAN number not allowed */
    SHINGLEBAR_REFUSAL_LABEL = 10,
    /* inner source is a group address */
    SHINGLEBAR_REFUSAL_GROUP_SOURCE = 11,
    /* M and the General destination disagree */
    SHINGLEBAR_REFUSAL_MULTICAST = 12,
    /* inner destination :40 to :4F, content not 8946 */
    SHINGLEBAR_REFUSAL_RESERVED_DESTINATION = 13,
    /* channel: version or ERR not 0, or destination neither own inner address nor 01-80-C2-00-00-42 */
    SHINGLEBAR_REFUSAL_CHANNEL = 14,
    /* flush payload corrupt */
    SHINGLEBAR_REFUSAL_PAYLOAD = 15,
    /* output area shorter than the result */
    SHINGLEBAR_REFUSAL_OUTPUT_LENGTH = 16,
    /* frame may not be compacted */
    SHINGLEBAR_REFUSAL_NOT_COMPACTABLE = 17,
    /* a General frame given where Compact is required */
    SHINGLEBAR_REFUSAL_GENERAL = 18,
    /* map: a VLAN or label twice, a VLAN outside 1 to FFE, a label over FFFFFF, or a length that is no multiple of 6 */
    SHINGLEBAR_REFUSAL_MAP = 21,
    /* no pair found in the map */
    SHINGLEBAR_REFUSAL_NO_PAIR = 22,
    /* lists that cannot be written as a flush */
    SHINGLEBAR_REFUSAL_LISTS = 23,
    /* k is 0, or the slot number is n or more */
    SHINGLEBAR_REFUSAL_PORTION = 24,
    /* Smart-Hello or its contents corrupt, or a number or list that cannot be written */
    SHINGLEBAR_REFUSAL_HELLO = 25,
    /* Smart-Parameters missing */
    SHINGLEBAR_REFUSAL_PARAMETERS_MISSING = 26
};

/* The kinds of results that are no refusals, by call; those of receive are those of receive_port too. */
enum shinglebar_receive_kind {
    SHINGLEBAR_RECEIVE_ONWARD = 64,
    /* shinglebar_native_length, _learning, _label_kind, _label */
    SHINGLEBAR_RECEIVE_DELIVERED = 65,
    SHINGLEBAR_RECEIVE_OTHER_CHANNEL = 66,
    /* shinglebar_count */
    SHINGLEBAR_RECEIVE_FLUSHED = 67
};

enum shinglebar_flush_kind {
    /* shinglebar_count */
    SHINGLEBAR_FLUSH_FLUSHED = 67
};

enum shinglebar_flush_portion_kind {
    /* shinglebar_count, _next_slot, _examined */
    SHINGLEBAR_FLUSH_PORTION_DONE = 64
};

/* The first reason that applies, in this order. */
enum shinglebar_why_kind {
    SHINGLEBAR_WHY_FREE = 64,
    SHINGLEBAR_WHY_SPOILT = 65,
    SHINGLEBAR_WHY_CONFIGURED = 66,
    SHINGLEBAR_WHY_NICKNAME_NOT_MEANT = 67,
    SHINGLEBAR_WHY_LABEL_NOT_MEANT = 68,
    SHINGLEBAR_WHY_MAC_NOT_MEANT = 69,
    /* shinglebar_is_sender, _nickname_place, _label_is_by_tlv, _label_place, _is_every_mac, _mac_place */
    SHINGLEBAR_WHY_CLEARED = 70
};

enum shinglebar_compact_kind {
    /* shinglebar_written_length */
    SHINGLEBAR_COMPACT_WRITTEN = 64
};

enum shinglebar_expand_kind {
    /* shinglebar_written_length */
    SHINGLEBAR_EXPAND_WRITTEN = 64
};

enum shinglebar_hello_read_kind {
    /* shinglebar_hello_length */
    SHINGLEBAR_HELLO_READ_WRITTEN = 64
};

enum shinglebar_hello_write_kind {
    /* shinglebar_hello_length */
    SHINGLEBAR_HELLO_WRITE_WRITTEN = 64
};

enum shinglebar_write_flush_kind {
    /* shinglebar_written_length */
    SHINGLEBAR_WRITE_FLUSH_WRITTEN = 64
};

enum shinglebar_ingress_kind {
    /* shinglebar_written_length */
    SHINGLEBAR_INGRESS_WRITTEN = 64
};

enum shinglebar_send_kind {
    /* from the start of the working area; shinglebar_written_length */
    SHINGLEBAR_SEND_COMPACTED = 64,
    /* the received frame itself */
    SHINGLEBAR_SEND_ITSELF = 65
};

enum shinglebar_watch_kind {
    /* shinglebar_seconds_left */
    SHINGLEBAR_WATCH_LEFT = 64
};

/* What says that a link is shared, and for how long compaction stops; never under ten seconds. */
enum shinglebar_watch_event_kind {
    /* a frame of no RBridge and no bridge: ten seconds, its time is not read */
    SHINGLEBAR_EVENT_NATIVE_FRAME = 0,
    /* a TRILL Hello other than the neighbour's: twice its holding time in seconds */
    SHINGLEBAR_EVENT_UNEXPECTED_HELLO = 1,
    /* a bridge BPDU: four times its Hello Time in 1/256 second, rounded up */
    SHINGLEBAR_EVENT_BRIDGE_BPDU = 2,
    /* an LLDP message of a bridge, router or station: twice its TTL in seconds */
    SHINGLEBAR_EVENT_LLDP_NOTICE = 3
};

enum shinglebar_lookup_kind {
    /* shinglebar_nickname */
    SHINGLEBAR_LOOKUP_FOUND = 64,
    SHINGLEBAR_LOOKUP_NONE = 65
};

enum shinglebar_age_kind {
    SHINGLEBAR_AGE_DONE = 64
};

enum shinglebar_spoilt_kind {
    /* shinglebar_slot */
    SHINGLEBAR_SPOILT_SLOT = 64,
    SHINGLEBAR_SPOILT_NONE = 65
};

enum shinglebar_free_slot_kind {
    /* shinglebar_slot, shinglebar_unpacked */
    SHINGLEBAR_FREE_SLOT_SLOT = 64,
    /* shinglebar_unpacked */
    SHINGLEBAR_FREE_SLOT_NONE = 65
};

enum shinglebar_widen_kind {
    /* shinglebar_written_length */
    SHINGLEBAR_WIDEN_WRITTEN = 64
};

enum shinglebar_report_kind {
    /* shinglebar_written_length */
    SHINGLEBAR_REPORT_WRITTEN = 64
};

/* What learning did with the inner source of a frame delivered. */
enum shinglebar_learning_outcome {
    SHINGLEBAR_LEARNING_LEARNED = 0,
    SHINGLEBAR_LEARNING_REFRESHED = 1,
    SHINGLEBAR_LEARNING_KEPT = 2,
    SHINGLEBAR_LEARNING_FULL = 3
};

/* Of a frame delivered and of a record, and the first argument of a lookup. */
enum shinglebar_label_kind_number {
    SHINGLEBAR_LABEL_VLAN = 0,
    SHINGLEBAR_LABEL_FINE_GRAINED = 1
};

/*
 * A record of the address table is 120 bits, the most significant first; bit 0 is the high bit of byte 0:
 *
 *   bits      width  field
 *   0..1      2      state: 0 free, 1 learned, 2 configured
 *   2         1      label kind: 0 VLAN, 1 fine-grained
 *   3..26     24     label
 *   27..74    48     MAC
 *   75..90    16     nickname
 *   91..98    8      confidence
 *   99..111   13     seconds
 *   112       1      multihomed: 1 in a record that a marked frame taught
 *   113..119  7      0
 *
 * Free is 15 zero bytes. Any other record is spoilt that has state 0 or 3, a VLAN label outside 1 to FFE
 * (all 24 bits count), a group MAC, a nickname outside 0001 to FFBF, or one of the last 7 bits set. A
 * spoilt record matches nothing and is never changed.
 */
enum shinglebar_record_state {
    SHINGLEBAR_RECORD_FREE = 0,
    SHINGLEBAR_RECORD_LEARNED = 1,
    SHINGLEBAR_RECORD_CONFIGURED = 2,
    /* no state of its own: state bits 3, or another rule broken */
    SHINGLEBAR_RECORD_SPOILT = 3
};

/* What a record holds; shinglebar_unpack_record, shinglebar_pack_record. */
struct shinglebar_record {
    unsigned state;      /* one of enum shinglebar_record_state */
    unsigned label_kind; /* one of enum shinglebar_label_kind_number */
    uint32_t label;      /* VLAN 1 to FFE, or fine-grained 0 to FFFFFF */
    uint64_t mac;        /* an individual address */
    unsigned nickname;   /* 0001 to FFBF */
    unsigned confidence; /* 0 to 255 */
    unsigned seconds;    /* 0 to 8191 */
    unsigned multihomed; /* 0 or 1 */
};

/*
 * The watch of a sending port: the seconds for which compaction is still stopped, and the reading of the
 * clock at which that was so. Any two numbers are a watch; { 0, reading } is a fresh one. Each call brings
 * the clock's reading in seconds, 32 bits that start again at zero after the top value, and first takes off
 * the time passed; a difference of 2^31 or more is a clock gone back, with no time passed and the new
 * reading kept. A call that refuses leaves the watch as it was. A watch is aligned as a uint32_t is, and
 * threads that share one need a lock of theirs.
 */
struct shinglebar_watch {
    uint32_t left;
    uint32_t reading;
};

/*
 * The settings of a port and its map, for the inline calls. Fields that an initialiser leaves out are 0 and
 * NULL: no map. A call that has no use for a field does not read it.
 */
struct shinglebar_settings {
    uint64_t port;
    uint64_t inner;
    uint32_t nickname;
    uint32_t compact;
    uint32_t confidence;
    uint32_t seconds;
    uint32_t multihomed; /* receive_port; 0, 1 or 2, another number is refusal 1 */
    uint32_t smart;      /* receive_port; 0 or 1, another number is refusal 1 */
    const uint8_t *map;  /* receive_port, ingress */
    size_t map_len;
};

/* What ingress puts around a native frame. */
struct shinglebar_encapsulation {
    uint64_t outer_destination; /* an individual address, or 01-80-C2-00-00-40 where m is 1 */
    uint64_t outer_source;      /* an individual address */
    uint32_t m;                 /* 0 or 1 */
    uint32_t hop_count;         /* 1 to 63 */
    uint32_t egress;            /* a nickname, 0001 to FFBF */
    uint32_t ingress;           /* a nickname, 0001 to FFBF; the own one too */
};

#ifdef __cplusplus
extern "C" {
#endif

/*
 * The settings of a port are six parameters:
 *   port        the port's address, an individual address
 *   inner       the own inner address, an individual address other than the port's
 *   nickname    the own nickname, 0001 to FFBF
 *   compact     1 Compact on, 0 off
 *   confidence  learning confidence, 0 to 255
 *   seconds     learning seconds, 10 to 8191, or 0 for the default 1200
 */

/* The nickname in the lowest slot with the label and address, or none. `kind` 0 is VLAN, 1 is
 * fine-grained; any other kind, and labels and addresses out of range, find none. */
uint64_t shinglebar_lookup(uint32_t kind, uint32_t label, uint64_t mac, const uint8_t *table,
                           size_t table_len);

/* Learned records with at most so many seconds become free, other learned ones lose them. */
uint64_t shinglebar_age(uint16_t seconds, uint8_t *table, size_t table_len);

/* The lowest spoilt slot, counted from 0, or none. */
uint64_t shinglebar_spoilt(const uint8_t *table, size_t table_len);

/* The lowest free slot, counted from 0, or none; and how many records were unpacked to find it: those of
 * state 0 up to the slot found, that one included, or all of them. */
uint64_t shinglebar_free_slot(const uint8_t *table, size_t table_len);

/* Writes an older table, of records of 14 bytes, to the output area as one of records of 15: each record
 * with a zero byte after it. Answers 2 where the older table's length is 0, not a multiple of 14, or over
 * 57,344, then 16. A length alone does not tell the two widths apart: a multiple of 210 may be either. */
uint64_t shinglebar_widen(const uint8_t *old, size_t old_len, uint8_t *out, size_t out_len);

/* Writes the morning report of a table to the output area: a line for each nickname with learned or
 * configured records, rising, of four capital hexadecimal digits and the two counts; then `free N` and
 * `spoilt N`. Every line ends with a line feed, and no zero byte follows. A table length that other calls
 * refuse with 2 is no refusal here: it writes the single line `refused 2`. Answers 16 where the area is too
 * short; SHINGLEBAR_REPORT_LENGTH_MAX bytes are always enough. */
uint64_t shinglebar_report(const uint8_t *table, size_t table_len, uint8_t *out, size_t out_len);

#ifndef SHINGLEBAR_TABLE_ONLY

/* Carries out the payload of an Address Flush. `ingress` is any number; one outside 0001 to FFBF
 * matches no record. Zero bytes after a good payload, with which links pad frames, mean nothing. */
uint64_t shinglebar_flush(uint32_t ingress, const uint8_t *payload, size_t payload_len,
                          uint8_t *table, size_t table_len);

/* Carries out the payload as the VLAN-only model does, which knows the types 1, 2 and 6 and skips all
 * others by their length, so that every MAC is meant (docs/MODELS.md). What flush accepts it accepts. The
 * answers are those of flush. */
uint64_t shinglebar_flush_vlan_only(uint32_t ingress, const uint8_t *payload, size_t payload_len,
                                    uint8_t *table, size_t table_len);

/* Carries out a portion of such a flush: examines the slots from `slot` on, the smaller of k and those
 * left, clears those that the whole flush would clear in this table, and answers the slot to go on from,
 * which is the number of slots where the flush is done. k may differ from call to call. The payload is
 * judged whole each time. From slot 0 to the end, with nothing else touching the table, the portions are
 * the whole flush; frames may be received in between: a passed slot stays, a later one is judged when
 * reached. */
uint64_t shinglebar_flush_portion(uint32_t ingress, const uint8_t *payload, size_t payload_len,
                                  uint64_t slot, uint64_t k, uint8_t *table, size_t table_len);

/* Why that flush clears the record of a slot, or leaves it: the first reason of enum shinglebar_why_kind that
 * applies, and of a record that is cleared what brings it: the first listed nickname that matches, or the
 * sender; the first VLAN block or TLV that brings the label (type 6 brings every label); the first TLV that
 * brings the MAC, or every MAC where none was gathered. Places count from 0 among the nicknames, the VLAN
 * blocks or all TLVs, skipped ones too; a padding byte has none. Nothing is changed. */
uint64_t shinglebar_why(uint32_t ingress, const uint8_t *payload, size_t payload_len, uint64_t slot,
                        const uint8_t *table, size_t table_len);

/* Reads one Ethernet frame without FCS: delivers a native frame and learns its source, or carries out
 * a flush. */
uint64_t shinglebar_receive(uint64_t port, uint64_t inner, uint32_t nickname, uint32_t compact,
                            uint32_t confidence, uint32_t seconds, const uint8_t *frame,
                            size_t frame_len, uint8_t *table, size_t table_len, uint8_t *out,
                            size_t out_len);

/* The same at a port with a map: a fine-grained frame is delivered with the VLAN that its label has here, as
 * an 8100 tag after the two addresses, with the priority of the label's second part and DEI 0; with no pair
 * for it the answer is 22. The result names the label of the campus, by which the source is learned, and the
 * length with the tag. Frames with a VLAN label are delivered as by shinglebar_receive, and with an empty map
 * and multihomed and smart 0 it is that call. `multihomed` names the TRILL header's R bit that marks frames of
 * stations on two switches: 0 none, 1 the first, 2 the second. A marked frame's record is multihomed, and an
 * address has such a record for each home. `smart` is 1 at a port with Smart Endnodes: a frame with our own
 * ingress nickname is not refused with 9 there, and teaches nothing (answer kept); at other ports it is 0. */
uint64_t shinglebar_receive_port(uint64_t port, uint64_t inner, uint32_t nickname, uint32_t compact,
                                 uint32_t confidence, uint32_t seconds, uint32_t multihomed,
                                 uint32_t smart, const uint8_t *map, size_t map_len,
                                 const uint8_t *frame, size_t frame_len, uint8_t *table,
                                 size_t table_len, uint8_t *out, size_t out_len);

/* Makes a General frame without outer tag of a native frame that came in at a port with a map: its 8100 tag
 * becomes the fine-grained label that its VLAN has on the campus, with the tag's priority in both parts and
 * DEI 0. The other numbers are those of struct shinglebar_encapsulation. The result is 24 bytes longer. */
uint64_t shinglebar_ingress(uint64_t port, uint64_t inner, uint32_t nickname, uint32_t compact,
                            uint32_t confidence, uint32_t seconds, const uint8_t *map,
                            size_t map_len, uint64_t outer_destination, uint64_t outer_source,
                            uint32_t m, uint32_t hop_count, uint32_t egress, uint32_t ingress,
                            const uint8_t *frame, size_t frame_len, uint8_t *out, size_t out_len);

/* Compacts a General frame for a far port with these settings. */
uint64_t shinglebar_compact(uint64_t port, uint64_t inner, uint32_t nickname, uint32_t compact,
                            uint32_t confidence, uint32_t seconds, const uint8_t *frame,
                            size_t frame_len, uint8_t *out, size_t out_len);

/* Expands a Compact frame for a far port with these settings. `tagged` 0 writes no outer tag (`tag` is
 * not read), 1 the number in `tag`, 1 to FFE. */
uint64_t shinglebar_expand(uint64_t port, uint64_t inner, uint32_t nickname, uint32_t compact,
                           uint32_t confidence, uint32_t seconds, uint64_t outer_source,
                           uint32_t tagged, uint32_t tag, const uint8_t *frame, size_t frame_len,
                           uint8_t *out, size_t out_len);

/* Chooses what to send to a far port with these settings: the compacted frame, or the frame itself. The
 * working area has SHINGLEBAR_COMPACT_LENGTH_MAX bytes or more, with Compact off too: a shorter one
 * answers 16 (after 1, before the frame is read), a longer one never does. */
uint64_t shinglebar_send(uint64_t port, uint64_t inner, uint32_t nickname, uint32_t compact,
                         uint32_t confidence, uint32_t seconds, const uint8_t *frame,
                         size_t frame_len, uint8_t *work, size_t work_len);

/* Reads the payload of a Smart-Hello (RFC 8384) and writes its contents to an area, as numbers of 8 bytes, most
 * significant byte first: the number of Smart-Parameters, 1, their holding time and flags; the number of Nickname
 * sub-TLVs, for each the number of its records, and for each record priority, tree root priority and nickname; the
 * number of Tree Identifiers sub-TLVs, for each starting number, number of nicknames, nicknames; the number of
 * Smart-MACs, for each F, M, label, number of MACs, MACs. What it does not know is skipped. Answers 25, then 26
 * without Smart-Parameters, then 16. struct shinglebar_contents goes through such an area. */
uint64_t shinglebar_hello_read(const uint8_t *payload, size_t payload_len, uint8_t *contents, size_t contents_len);

/* Writes the payload of a Smart-Hello from such contents: Smart-Parameters, nicknames, trees, Smart-MACs, as many
 * in a TLV as it holds. Answers 25 for contents of another form, a number over its field (with F 0 a label of more
 * than 12 bits), over 49 records, 123 nicknames of trees or 41 MACs in one; then 26, then 16. What is written may be
 * longer than the payload that was read: sorted by kind, sub-TLVs can fill their TLVs less well. */
uint64_t shinglebar_hello_write(const uint8_t *contents, size_t contents_len, uint8_t *out, size_t out_len);

/* Writes the payload of an Address Flush from four lists, each number most significant byte first:
 * nicknames of 2 bytes (none: the sender), blocks of VLANs (start 2, end 2), of fine-grained labels (4, 4)
 * and of MACs (8, 8; none: every MAC). At most 255 in a list, at least one block of labels. Lists that
 * cannot be written answer 23, before 16; SHINGLEBAR_WRITTEN_LENGTH_MAX bytes are always enough. */
uint64_t shinglebar_write_flush(const uint8_t *nicknames, size_t nicknames_len, const uint8_t *vlans,
                                size_t vlans_len, const uint8_t *fine, size_t fine_len,
                                const uint8_t *macs, size_t macs_len, uint8_t *out, size_t out_len);

/* No stop, and the reading brought. */
uint64_t shinglebar_watch_reset(struct shinglebar_watch *watch, uint32_t now);

/* Takes off the time passed. */
uint64_t shinglebar_watch_tick(struct shinglebar_watch *watch, uint32_t now);

/* Reports an event with its 16-bit time: the larger of what is left and the event's stop. `kind` is one of
 * enum shinglebar_watch_event_kind; another is refusal 1. */
uint64_t shinglebar_watch_event(struct shinglebar_watch *watch, uint32_t now, uint32_t kind,
                                uint16_t time);

/* shinglebar_send at a port with a watch: while seconds are left it answers as with the far port's Compact
 * off. Settings are judged as they arrive. */
uint64_t shinglebar_send_watched(uint64_t port, uint64_t inner, uint32_t nickname, uint32_t compact,
                                 uint32_t confidence, uint32_t seconds,
                                 struct shinglebar_watch *watch, uint32_t now, const uint8_t *frame,
                                 size_t frame_len, uint8_t *work, size_t work_len);

#endif /* SHINGLEBAR_TABLE_ONLY */

#ifdef __cplusplus
}
#endif

/* Decoders of results. */

/* 1 if the result is a refusal, else 0. */
static inline int shinglebar_is_refusal(uint64_t result)
{
    return result < 64;
}

/* The refusal number, or 0 if the result is no refusal. */
static inline unsigned shinglebar_refusal(uint64_t result)
{
    return result < 64 ? (unsigned)result : 0u;
}

/* The kind, or 0 if the result is a refusal. */
static inline unsigned shinglebar_kind(uint64_t result)
{
    return result < 64 ? 0u : (unsigned)(result & 0xFFu);
}

/* Of SHINGLEBAR_RECEIVE_DELIVERED: the bytes written to the output area. */
static inline size_t shinglebar_native_length(uint64_t result)
{
    return (size_t)((result >> 8) & 0xFFFFu);
}

/* Of SHINGLEBAR_RECEIVE_DELIVERED: one of enum shinglebar_learning_outcome. */
static inline unsigned shinglebar_learning(uint64_t result)
{
    return (unsigned)((result >> 24) & 0x3u);
}

/* Of SHINGLEBAR_RECEIVE_DELIVERED: one of enum shinglebar_label_kind_number. */
static inline unsigned shinglebar_label_kind(uint64_t result)
{
    return (unsigned)((result >> 32) & 0x1u);
}

/* Of SHINGLEBAR_RECEIVE_DELIVERED: the VLAN or fine-grained label of the frame. */
static inline uint32_t shinglebar_label(uint64_t result)
{
    return (uint32_t)((result >> 40) & 0xFFFFFFu);
}

/* Of SHINGLEBAR_RECEIVE_FLUSHED, SHINGLEBAR_FLUSH_FLUSHED and SHINGLEBAR_FLUSH_PORTION_DONE: the records
 * cleared. */
static inline unsigned shinglebar_count(uint64_t result)
{
    return (unsigned)((result >> 8) & 0xFFFFu);
}

/* Of SHINGLEBAR_FLUSH_PORTION_DONE: the slot to go on from. */
static inline unsigned shinglebar_next_slot(uint64_t result)
{
    return (unsigned)((result >> 24) & 0xFFFFu);
}

/* Of SHINGLEBAR_FLUSH_PORTION_DONE: the slots examined. */
static inline unsigned shinglebar_examined(uint64_t result)
{
    return (unsigned)((result >> 40) & 0xFFFFu);
}

/* Of SHINGLEBAR_WHY_CLEARED: 1 if K-nicks is 0 and the sender's nickname matched, 0 if a listed one did. */
static inline int shinglebar_is_sender(uint64_t result)
{
    return (int)((result >> 16) & 0x1u);
}

/* Of SHINGLEBAR_WHY_CLEARED: the place of the nickname in the list, or 0 with the sender. */
static inline unsigned shinglebar_nickname_place(uint64_t result)
{
    return (unsigned)((result >> 8) & 0xFFu);
}

/* Of SHINGLEBAR_WHY_CLEARED: 1 if a TLV brings the label, 0 if a VLAN block behind K-VLBs does. */
static inline int shinglebar_label_is_by_tlv(uint64_t result)
{
    return (int)((result >> 17) & 0x1u);
}

/* Of SHINGLEBAR_WHY_CLEARED: the place of that TLV or block. One over 4,194,303 shows as that. */
static inline uint32_t shinglebar_label_place(uint64_t result)
{
    return (uint32_t)((result >> 18) & SHINGLEBAR_PLACE_MAX);
}

/* Of SHINGLEBAR_WHY_CLEARED: 1 if no MAC was gathered, so that every MAC is meant, else 0. */
static inline int shinglebar_is_every_mac(uint64_t result)
{
    return (int)(result >> 63);
}

/* Of SHINGLEBAR_WHY_CLEARED: the place of the TLV that brings the MAC, or 0 with every MAC. One over
 * 4,194,303 shows as that. */
static inline uint32_t shinglebar_mac_place(uint64_t result)
{
    return (uint32_t)((result >> 40) & SHINGLEBAR_PLACE_MAX);
}

/* Of SHINGLEBAR_COMPACT_WRITTEN, SHINGLEBAR_EXPAND_WRITTEN, SHINGLEBAR_INGRESS_WRITTEN,
 * SHINGLEBAR_WIDEN_WRITTEN, SHINGLEBAR_WRITE_FLUSH_WRITTEN, SHINGLEBAR_REPORT_WRITTEN and
 * SHINGLEBAR_SEND_COMPACTED: the bytes written to the output or working area. */
static inline size_t shinglebar_written_length(uint64_t result)
{
    return (size_t)((result >> 8) & 0xFFFFu);
}

/* Of SHINGLEBAR_HELLO_READ_WRITTEN and SHINGLEBAR_HELLO_WRITE_WRITTEN: the bytes written to the area. */
static inline size_t shinglebar_hello_length(uint64_t result)
{
    return (size_t)(result >> 8);
}

/* Of SHINGLEBAR_WATCH_LEFT: the seconds left. */
static inline uint32_t shinglebar_seconds_left(uint64_t result)
{
    return (uint32_t)((result >> 8) & 0xFFFFFFFFu);
}

/* Of SHINGLEBAR_LOOKUP_FOUND: the nickname. */
static inline uint16_t shinglebar_nickname(uint64_t result)
{
    return (uint16_t)((result >> 8) & 0xFFFFu);
}

/* Of SHINGLEBAR_SPOILT_SLOT and SHINGLEBAR_FREE_SLOT_SLOT: the slot, counted from 0. */
static inline unsigned shinglebar_slot(uint64_t result)
{
    return (unsigned)((result >> 8) & 0xFFFFu);
}

/* Of SHINGLEBAR_FREE_SLOT_SLOT and SHINGLEBAR_FREE_SLOT_NONE: the number of records unpacked. */
static inline unsigned shinglebar_unpacked(uint64_t result)
{
    return (unsigned)((result >> 32) & 0xFFFFu);
}

/* What a refusal means, in words, or "no refusal". Takes a result or a refusal number. */
static inline const char *shinglebar_refusal_string(uint64_t result)
{
    static const char *const words[] = {
        "no refusal",
        "settings outside their ranges",
        "table length 0, not a multiple of 15, or over 61,440",
        "frame (or expanded result) outside 14 to 9,216 bytes",
        "22F3 not at its place",
        "destination in front not for this port",
        "the frame ends inside a field it needs, or content under 2 bytes",
        "V is not 0",
        "Hop Count 0",
        "a nickname outside 0001 to FFBF, or ingress nickname our own",
        "label Ethertype or VLAN number not allowed",
        "inner source is a group address",
        "M and the General destination disagree",
        "inner destination :40 to :4F, content not 8946",
        "channel: version or ERR not 0, or destination neither own inner address nor 01-80-C2-00-00-42",
        "flush payload corrupt",
        "output area shorter than the result",
        "frame may not be compacted",
        "a General frame given where Compact is required",
        NULL, /* 19 and 20 are no refusals */
        NULL,
        "map: a VLAN or label twice, a VLAN outside 1 to FFE, a label over FFFFFF, or a length that is no multiple of 6",
        "no pair found in the map",
        "lists that cannot be written as a flush",
        "k is 0, or the slot number is n or more",
        "Smart-Hello or its contents corrupt, or a number or list that cannot be written",
        "Smart-Parameters missing"
    };
    size_t number = result < sizeof words / sizeof words[0] ? (size_t)result : 0;
    return words[number] == NULL ? words[0] : words[number];
}

/* Records. These three do not call the archive. */

/* 1 if label, MAC and nickname are those of a good record, and every number fits its field; else 0. */
static inline int shinglebar_is_good_entry(const struct shinglebar_record *record)
{
    int vlan = record->label_kind == SHINGLEBAR_LABEL_VLAN && record->label >= 1 && record->label <= 0xFFE;
    int fine = record->label_kind == SHINGLEBAR_LABEL_FINE_GRAINED && record->label <= 0xFFFFFF;
    int individual = record->mac >> 48 == 0 && (record->mac >> 40 & 1) == 0;
    int nickname = record->nickname >= 1 && record->nickname <= 0xFFBF;
    return (vlan || fine) && individual && nickname && record->confidence <= 255
           && record->seconds <= 8191 && record->multihomed <= 1;
}

/* What the SHINGLEBAR_RECORD_LENGTH bytes of a slot hold. Of a spoilt record the fields are as they lie
 * in their bits. */
static inline struct shinglebar_record shinglebar_unpack_record(const uint8_t *slot)
{
    struct shinglebar_record record;
    uint64_t high = 0; /* bits 0..63 */
    uint64_t low = 0;  /* bits 64..119 */
    int at;
    for (at = 0; at < 8; at++)
        high = high << 8 | slot[at];
    for (at = 8; at < SHINGLEBAR_RECORD_LENGTH; at++)
        low = low << 8 | slot[at];
    record.state = (unsigned)(high >> 62);
    record.label_kind = (unsigned)(high >> 61 & 0x1);
    record.label = (uint32_t)(high >> 37 & 0xFFFFFF);
    record.mac = (high << 11 | low >> 45) & (((uint64_t)1 << 48) - 1);
    record.nickname = (unsigned)(low >> 29 & 0xFFFF);
    record.confidence = (unsigned)(low >> 21 & 0xFF);
    record.seconds = (unsigned)(low >> 8 & 0x1FFF);
    record.multihomed = (unsigned)(low >> 7 & 0x1);
    if (record.state == SHINGLEBAR_RECORD_FREE ? (high | low) != 0
                                               : !shinglebar_is_good_entry(&record) || (low & 0x7F) != 0)
        record.state = SHINGLEBAR_RECORD_SPOILT;
    return record;
}

/* Writes a record to the SHINGLEBAR_RECORD_LENGTH bytes of a slot: 1. A free one is written as zeros,
 * its other fields not read. Nothing is written for a record that would be spoilt or whose numbers do
 * not fit: 0. */
static inline int shinglebar_pack_record(const struct shinglebar_record *record, uint8_t *slot)
{
    uint64_t high = 0;
    uint64_t low = 0;
    int at;
    if (record->state != SHINGLEBAR_RECORD_FREE) {
        if (record->state >= SHINGLEBAR_RECORD_SPOILT || !shinglebar_is_good_entry(record))
            return 0;
        high = (uint64_t)record->state << 62 | (uint64_t)record->label_kind << 61
               | (uint64_t)record->label << 37 | record->mac >> 11;
        low = (record->mac & 0x7FF) << 45 | (uint64_t)record->nickname << 29
              | (uint64_t)record->confidence << 21 | (uint64_t)record->seconds << 8
              | (uint64_t)record->multihomed << 7;
    }
    for (at = 0; at < 8; at++)
        slot[at] = (uint8_t)(high >> (56 - 8 * at) & 0xFF);
    for (at = 8; at < SHINGLEBAR_RECORD_LENGTH; at++)
        slot[at] = (uint8_t)(low >> (8 * (SHINGLEBAR_RECORD_LENGTH - 1 - at)) & 0xFF);
    return 1;
}

/* Writes a pair to SHINGLEBAR_PAIR_LENGTH bytes of a map. Whether the map is good is the archive's to say. */
static inline void shinglebar_pack_pair(uint16_t vlan, uint32_t label, uint8_t *pair)
{
    pair[0] = (uint8_t)(vlan >> 8);
    pair[1] = (uint8_t)(vlan & 0xFF);
    pair[2] = (uint8_t)(label >> 24);
    pair[3] = (uint8_t)(label >> 16 & 0xFF);
    pair[4] = (uint8_t)(label >> 8 & 0xFF);
    pair[5] = (uint8_t)(label & 0xFF);
}

/*
 * Inline calls: settings (and map) as a struct, and NULL with length 0 for any area.
 *
 * One that a program does not use is not emitted and asks nothing of the archive. Where the compiler is
 * told to emit unused inline functions (-fkeep-inline-functions), a program that uses only lookup, age,
 * spoilt, free slot, widen and report can define SHINGLEBAR_TABLE_ONLY to leave the other calls out.
 */

static inline uint8_t *shinglebar_area(uint8_t *area, size_t length)
{
    static uint8_t none = 0;
    return area == NULL && length == 0 ? &none : area;
}

static inline const uint8_t *shinglebar_const_area(const uint8_t *area, size_t length)
{
    static const uint8_t none = 0;
    return area == NULL && length == 0 ? &none : area;
}

static inline uint64_t shinglebar_lookup_any(uint32_t kind, uint32_t label, uint64_t mac,
                                             const uint8_t *table, size_t table_len)
{
    return shinglebar_lookup(kind, label, mac, shinglebar_const_area(table, table_len), table_len);
}

static inline uint64_t shinglebar_age_any(uint16_t seconds, uint8_t *table, size_t table_len)
{
    return shinglebar_age(seconds, shinglebar_area(table, table_len), table_len);
}

static inline uint64_t shinglebar_spoilt_any(const uint8_t *table, size_t table_len)
{
    return shinglebar_spoilt(shinglebar_const_area(table, table_len), table_len);
}

static inline uint64_t shinglebar_free_slot_any(const uint8_t *table, size_t table_len)
{
    return shinglebar_free_slot(shinglebar_const_area(table, table_len), table_len);
}

static inline uint64_t shinglebar_widen_any(const uint8_t *old, size_t old_len, uint8_t *out, size_t out_len)
{
    return shinglebar_widen(shinglebar_const_area(old, old_len), old_len, shinglebar_area(out, out_len), out_len);
}

static inline uint64_t shinglebar_report_any(const uint8_t *table, size_t table_len, uint8_t *out, size_t out_len)
{
    return shinglebar_report(shinglebar_const_area(table, table_len), table_len, shinglebar_area(out, out_len), out_len);
}

#ifndef SHINGLEBAR_TABLE_ONLY

static inline uint64_t shinglebar_flush_any(uint32_t ingress, const uint8_t *payload,
                                            size_t payload_len, uint8_t *table, size_t table_len)
{
    return shinglebar_flush(ingress, shinglebar_const_area(payload, payload_len), payload_len,
                            shinglebar_area(table, table_len), table_len);
}

static inline uint64_t shinglebar_flush_vlan_only_any(uint32_t ingress, const uint8_t *payload,
                                                      size_t payload_len, uint8_t *table,
                                                      size_t table_len)
{
    return shinglebar_flush_vlan_only(ingress, shinglebar_const_area(payload, payload_len), payload_len,
                                      shinglebar_area(table, table_len), table_len);
}

static inline uint64_t shinglebar_flush_portion_any(uint32_t ingress, const uint8_t *payload,
                                                    size_t payload_len, uint64_t slot, uint64_t k,
                                                    uint8_t *table, size_t table_len)
{
    return shinglebar_flush_portion(ingress, shinglebar_const_area(payload, payload_len), payload_len,
                                    slot, k, shinglebar_area(table, table_len), table_len);
}

static inline uint64_t shinglebar_why_any(uint32_t ingress, const uint8_t *payload, size_t payload_len,
                                          uint64_t slot, const uint8_t *table, size_t table_len)
{
    return shinglebar_why(ingress, shinglebar_const_area(payload, payload_len), payload_len, slot,
                          shinglebar_const_area(table, table_len), table_len);
}

/* By shinglebar_receive_port. */
static inline uint64_t shinglebar_receive_any(const struct shinglebar_settings *settings,
                                              const uint8_t *frame, size_t frame_len,
                                              uint8_t *table, size_t table_len, uint8_t *out,
                                              size_t out_len)
{
    return shinglebar_receive_port(settings->port, settings->inner, settings->nickname,
                                   settings->compact, settings->confidence, settings->seconds,
                                   settings->multihomed, settings->smart,
                                   shinglebar_const_area(settings->map, settings->map_len),
                                   settings->map_len, shinglebar_const_area(frame, frame_len),
                                   frame_len, shinglebar_area(table, table_len), table_len,
                                   shinglebar_area(out, out_len), out_len);
}

static inline uint64_t shinglebar_ingress_any(const struct shinglebar_settings *settings,
                                              const struct shinglebar_encapsulation *given,
                                              const uint8_t *frame, size_t frame_len, uint8_t *out,
                                              size_t out_len)
{
    return shinglebar_ingress(settings->port, settings->inner, settings->nickname,
                              settings->compact, settings->confidence, settings->seconds,
                              shinglebar_const_area(settings->map, settings->map_len),
                              settings->map_len, given->outer_destination, given->outer_source,
                              given->m, given->hop_count, given->egress, given->ingress,
                              shinglebar_const_area(frame, frame_len), frame_len,
                              shinglebar_area(out, out_len), out_len);
}

static inline uint64_t shinglebar_compact_any(const struct shinglebar_settings *far,
                                              const uint8_t *frame, size_t frame_len, uint8_t *out,
                                              size_t out_len)
{
    return shinglebar_compact(far->port, far->inner, far->nickname, far->compact, far->confidence,
                              far->seconds, shinglebar_const_area(frame, frame_len), frame_len,
                              shinglebar_area(out, out_len), out_len);
}

static inline uint64_t shinglebar_expand_any(const struct shinglebar_settings *far,
                                             uint64_t outer_source, uint32_t tagged, uint32_t tag,
                                             const uint8_t *frame, size_t frame_len, uint8_t *out,
                                             size_t out_len)
{
    return shinglebar_expand(far->port, far->inner, far->nickname, far->compact, far->confidence,
                             far->seconds, outer_source, tagged, tag,
                             shinglebar_const_area(frame, frame_len), frame_len,
                             shinglebar_area(out, out_len), out_len);
}

static inline uint64_t shinglebar_send_any(const struct shinglebar_settings *far,
                                           const uint8_t *frame, size_t frame_len, uint8_t *work,
                                           size_t work_len)
{
    return shinglebar_send(far->port, far->inner, far->nickname, far->compact, far->confidence,
                           far->seconds, shinglebar_const_area(frame, frame_len), frame_len,
                           shinglebar_area(work, work_len), work_len);
}

static inline uint64_t shinglebar_hello_read_any(const uint8_t *payload, size_t payload_len, uint8_t *contents,
                                                 size_t contents_len)
{
    return shinglebar_hello_read(shinglebar_const_area(payload, payload_len), payload_len,
                                 shinglebar_area(contents, contents_len), contents_len);
}

static inline uint64_t shinglebar_hello_write_any(const uint8_t *contents, size_t contents_len, uint8_t *out,
                                                  size_t out_len)
{
    return shinglebar_hello_write(shinglebar_const_area(contents, contents_len), contents_len,
                                  shinglebar_area(out, out_len), out_len);
}

/* The numbers of a contents area that are left, and whether one was asked for that is not there. */
struct shinglebar_contents {
    const uint8_t *at;
    size_t left; /* bytes */
    int missing;
};

static inline struct shinglebar_contents shinglebar_contents_of(const uint8_t *contents, size_t contents_len)
{
    struct shinglebar_contents it;
    it.at = contents;
    it.left = contents_len;
    it.missing = 0;
    return it;
}

/* The next number, or 0 where there is none. */
static inline uint64_t shinglebar_contents_next(struct shinglebar_contents *it)
{
    uint64_t number = 0;
    int at;
    if (it->left < 8) {
        it->missing = 1;
        return 0;
    }
    for (at = 0; at < 8; at++)
        number = number << 8 | it->at[at];
    it->at += 8;
    it->left -= 8;
    return number;
}

static inline uint64_t shinglebar_write_flush_any(const uint8_t *nicknames, size_t nicknames_len,
                                                  const uint8_t *vlans, size_t vlans_len,
                                                  const uint8_t *fine, size_t fine_len,
                                                  const uint8_t *macs, size_t macs_len, uint8_t *out,
                                                  size_t out_len)
{
    return shinglebar_write_flush(shinglebar_const_area(nicknames, nicknames_len), nicknames_len,
                                  shinglebar_const_area(vlans, vlans_len), vlans_len,
                                  shinglebar_const_area(fine, fine_len), fine_len,
                                  shinglebar_const_area(macs, macs_len), macs_len,
                                  shinglebar_area(out, out_len), out_len);
}

static inline uint64_t shinglebar_send_watched_any(const struct shinglebar_settings *far,
                                                   struct shinglebar_watch *watch, uint32_t now,
                                                   const uint8_t *frame, size_t frame_len,
                                                   uint8_t *work, size_t work_len)
{
    return shinglebar_send_watched(far->port, far->inner, far->nickname, far->compact,
                                   far->confidence, far->seconds, watch, now,
                                   shinglebar_const_area(frame, frame_len), frame_len,
                                   shinglebar_area(work, work_len), work_len);
}

#endif /* SHINGLEBAR_TABLE_ONLY */

#endif /* SHINGLEBAR_H */
