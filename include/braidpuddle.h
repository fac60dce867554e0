/*
 * braidpuddle: a network flow meter. Packets go in, flow records come out, one record for each conversation.
 *
 * The rules are document 01's ("Description of the build and its rules"): byte forms, the plain rules, calls and refusals. Words such
 * as packet form, key form, record form, sound record, sound state, Short mean here what they mean there. docs/RULES.md has the rules and
 * the forms in short, and says what these words mean; what a probe maker needs of them stands below.
 *
 * Link with libbraidpuddle.a (cc -I include probe.c -L build/lib -lbraidpuddle); of other libraries it needs memcpy and memset alone.
 *
 * How to call
 * -----------
 * - Every function takes numbers and memory of the caller's. A run of bytes is a pointer and a length. Where the length is 0, the
 *   pointer may be null.
 * - The library keeps nothing of its own: no globals, no allocation, no files, no clock. A state is the caller's memory, and so is the
 *   output. One call on a state at a time; different states may be used from different threads at once.
 * - The pieces of memory given to one call must not overlap one another, and each must stay valid for that call. Bytes need no
 *   alignment; numbers (uint64_t) need the one of their type.
 * - Any bytes may be given as state, batch, key or form, and any numbers: nothing is undefined as long as pointers and lengths are true.
 *   What does not fit is refused.
 * - A refused packet, sweep or drain changes nothing that the state means: its settings, its clock, its open flows. Refused with 3
 *   Damaged, a call leaves every byte of the state as it was; with another number, due times in its queue may have been brought up to date.
 * - Unless said otherwise, the result is the refusal's number, 0 for none (enum braidpuddle_refusal).
 * - A call takes up to about 90 kilobytes of stack.
 * - Each call on a state first checks all of it, about a tenth of a microsecond for each open flow: feed large batches.
 * - For 64-bit machines: size_t has 64 bits.
 *
 * A probe in short
 * ----------------
 *     uint8_t *state = malloc(BRAIDPUDDLE_STATE_BYTES(capacity));
 *     braidpuddle_open(state, BRAIDPUDDLE_STATE_BYTES(capacity), capacity, 60000, 1);
 *     for each packet:      write its key form, then braidpuddle_write_packet behind the packets already in the batch
 *     for each full batch:  braidpuddle_feed, then read the records from the filled part of the output
 *     now and then:         braidpuddle_sweep, so that silent flows are handed out too
 *     at the end:           braidpuddle_drain
 *
 * What becomes of packets
 * -----------------------
 * - A record's key is that of the packet which opened the flow; forward is that packet's direction. A packet under the reversed key counts
 *   as reverse, except that with an SPI each direction is a flow of its own. A key that is its own reverse counts forward only.
 * - The whole key names the flow. Where one direction alone has a VLAN tag, or a MAC address changes on the way, one conversation is two
 *   flows: write what both directions have, or forget the MAC addresses (braidpuddle_forget_link_addresses).
 * - A packet with RST is counted and ends its flow, as Rst, whether FIN was seen or not. Any other packet behind FIN both ways is counted and
 *   ends its flow, as Fin; but one with SYN, with RST or not, ends it uncounted, as Fin, and opens another, and ends nothing more. A SYN on
 *   a flow that has not seen FIN both ways is counted on it. FIN, SYN and RST are obeyed for any protocol.
 * - What comes behind the end is a flow of its own: a second ACK behind both FINs, or data behind RST, opens a record, mostly of one packet and
 *   MidStream, whose forward is that packet's direction. Nothing is remembered of a flow that has ended.
 * - Each packet first sweeps at its own time. A flow is due once the latest time seen, of packets and sweeps, has reached its latest packet +
 *   timeout + the lesser of one second and half the timeout. The packet, of any flow, or the sweep whose time reaches that hands it out
 *   before anything is counted, as Fin if FIN was seen both ways, else as IdleTimeout. A packet a nanosecond earlier still counts on it.
 * - A late packet counts on its open flow and may move the record's start back; if it opens a flow that is already due, that one leaves with
 *   the next packet or sweep: late packets fed behind a sweep come out as records of one packet each.
 *
 * The key form has no writer and no reader of its own here, but its numbers have (braidpuddle_write_number, braidpuddle_read_number). It is,
 * in this order:
 *     protocol        number, at most 255
 *     ethertype       optional number, 16 bits
 *     endpoints       0 for none; 1, source port, destination port; 2, SPI (32 bits); 3, GRE protocol (16 bits)
 *     source          4 and 4 raw bytes, or 6 and 16 raw bytes
 *     destination     4 and 4 raw bytes, or 6 and 16 raw bytes
 *     source MAC      6 raw bytes
 *     destination MAC 6 raw bytes
 *     VLAN tags       0; 1 and a tag; 2 and two tags, the outer first (16 bits each: the id without priority bits)
 *     encapsulation   optional kind (8 bits: 0 VXLAN, 1 Geneve, 2 GRE, 3 MPLS, 4 PPPoE, 5 IP in IP, 6 other) and, only where it is
 *                     present, an optional id (32 bits)
 * What is not IP has an ethertype, protocol 0, no endpoints, and addresses 0.0.0.0 or those inside an ARP packet; IP has no ethertype. That
 * is how to write a key so that a conversation has one: it is not checked, and any numbers within their bounds are a key.
 * A number has groups of seven bits, low group first, the top bit set while more follow, in the shortest form. An optional is 0 for
 * absent, else its value plus 1: this holds for the byte forms and for every optional number of the arrays below.
 */
#ifndef BRAIDPUDDLE_H
#define BRAIDPUDDLE_H

#include <stddef.h>
#include <stdint.h>

#ifdef __cplusplus
extern "C" {
#endif

/* ---- sizes ---------------------------------------------------------------------------------------------------------------------- */

/* The greatest number of flows that a state can hold open. */
#define BRAIDPUDDLE_CAPACITY_MOST 4096

/* The bytes of state memory for a capacity of 1 to BRAIDPUDDLE_CAPACITY_MOST: 256 + 640 x capacity. A constant for a constant. */
#define BRAIDPUDDLE_STATE_BYTES(capacity) ((size_t)256 + (size_t)640 * (size_t)(capacity))

/* The most bytes that a form takes. */
#define BRAIDPUDDLE_NUMBER_MOST 10
#define BRAIDPUDDLE_KEY_MOST 72
#define BRAIDPUDDLE_PACKET_MOST 103
#define BRAIDPUDDLE_RECORD_MOST 358

/* Output that always suffices for one packet, and so for any sweep or drain: (capacity + 1) x 358 bytes. With it, feeding again from
 * where Room stopped it always takes at least one more packet. */
#define BRAIDPUDDLE_ROOM_FOR_ONE(capacity) (((size_t)(capacity) + 1) * (size_t)BRAIDPUDDLE_RECORD_MOST)

/* What a function that does not answer with a refusal answers where there is no answer: 2^64 - 1. */
#define BRAIDPUDDLE_NO_ANSWER UINT64_MAX

/* ---- refusals ------------------------------------------------------------------------------------------------------------------- */

/* Document 01's numbers and names. The comment is the document's "exactly when". */
enum braidpuddle_refusal {
    /* Not refused. */
    BRAIDPUDDLE_REFUSAL_NONE = 0,
    /* Capacity: opening with 0 or above 4096. */
    BRAIDPUDDLE_REFUSAL_CAPACITY = 1,
    /* Memory: opening with too few bytes. */
    BRAIDPUDDLE_REFUSAL_MEMORY = 2,
    /* Damaged: the state, or a host's own record, is not sound. */
    BRAIDPUDDLE_REFUSAL_DAMAGED = 3,
    /* Packet: what remains is neither begun by a packet form (or the lone number read), nor Short, nor the empty end of a batch; or a
     * packet or number given for writing or counting has a field out of range. */
    BRAIDPUDDLE_REFUSAL_PACKET = 4,
    /* Full: after this packet's sweep and step 1 it would open a flow, and capacity flows are open. (Step 1: its SYN ends the flow of its
     * key that has seen FIN both ways.) */
    BRAIDPUDDLE_REFUSAL_FULL = 5,
    /* Spent: the record that takes the packet would pass 2^64 - 1 in packets or octets of both directions together, or in captured
     * octets. */
    BRAIDPUDDLE_REFUSAL_SPENT = 6,
    /* Room: the records this packet, sweep or drain finishes, or the form written alone, need more bytes than output has left. */
    BRAIDPUDDLE_REFUSAL_ROOM = 7,
    /* Record: reading bytes that neither begin with a record form nor are Short. */
    BRAIDPUDDLE_REFUSAL_RECORD = 8,
    /* Short: what remains is a proper, non-empty beginning of some form of the kind read, each field judged by its own bound and "sound
     * record" aside. */
    BRAIDPUDDLE_REFUSAL_SHORT = 9
};

/* The names, for an array of 10 strings: static const char *const names[] = BRAIDPUDDLE_REFUSAL_NAMES; */
#define BRAIDPUDDLE_REFUSAL_NAMES \
    { "", "Capacity", "Memory", "Damaged", "Packet", "Full", "Spent", "Room", "Record", "Short" }

/* ---- numbers with a meaning ----------------------------------------------------------------------------------------------------- */

/* The resolution of a record's times. Where a function takes a resolution, any number but 0 is finer. */
enum braidpuddle_resolution {
    BRAIDPUDDLE_RESOLUTION_MICROSECONDS = 0,
    BRAIDPUDDLE_RESOLUTION_FINER = 1
};

/* Why a flow ended. */
enum braidpuddle_reason {
    BRAIDPUDDLE_REASON_IDLE_TIMEOUT = 0,
    BRAIDPUDDLE_REASON_FIN = 1,
    BRAIDPUDDLE_REASON_RST = 2,
    BRAIDPUDDLE_REASON_CAPTURE_END = 3
};

/* The reasons' names, for an array of 4 strings. */
#define BRAIDPUDDLE_REASON_NAMES { "IdleTimeout", "Fin", "Rst", "CaptureEnd" }

/* How a flow's beginning was met. NotApplicable unless the protocol is 6 (TCP); else SynObserved if the first packet, or one that is not
 * later than the earliest so far, had SYN, with ACK or without; else MidStream. */
enum braidpuddle_start_state {
    BRAIDPUDDLE_START_SYN_OBSERVED = 0,
    BRAIDPUDDLE_START_MID_STREAM = 1,
    BRAIDPUDDLE_START_NOT_APPLICABLE = 2
};

/* A direction, where a host names one. Any number but 0 is reverse. */
enum braidpuddle_direction {
    BRAIDPUDDLE_FORWARD = 0,
    BRAIDPUDDLE_REVERSE = 1
};

/* The bits of the TCP flags' mask. */
enum braidpuddle_flag {
    BRAIDPUDDLE_FLAG_FIN = 0x001,
    BRAIDPUDDLE_FLAG_SYN = 0x002,
    BRAIDPUDDLE_FLAG_RST = 0x004,
    BRAIDPUDDLE_FLAG_PSH = 0x008,
    BRAIDPUDDLE_FLAG_ACK = 0x010,
    BRAIDPUDDLE_FLAG_URG = 0x020,
    BRAIDPUDDLE_FLAG_ECE = 0x040,
    BRAIDPUDDLE_FLAG_CWR = 0x080,
    BRAIDPUDDLE_FLAG_NS = 0x100
};

/* The protocol names that braidpuddle_protocol_name tells apart. ARP is told by the ethertype 0x0806, the others by the protocol. */
enum braidpuddle_name {
    BRAIDPUDDLE_NAME_NONE = 0,
    BRAIDPUDDLE_NAME_ARP = 1,
    BRAIDPUDDLE_NAME_ICMP = 2,
    BRAIDPUDDLE_NAME_IGMP = 3,
    BRAIDPUDDLE_NAME_TCP = 4,
    BRAIDPUDDLE_NAME_UDP = 5,
    BRAIDPUDDLE_NAME_IPV6 = 6,
    BRAIDPUDDLE_NAME_GRE = 7,
    BRAIDPUDDLE_NAME_ESP = 8,
    BRAIDPUDDLE_NAME_AH = 9,
    BRAIDPUDDLE_NAME_ICMPV6 = 10,
    BRAIDPUDDLE_NAME_OSPF = 11,
    BRAIDPUDDLE_NAME_VRRP = 12,
    BRAIDPUDDLE_NAME_SCTP = 13
};

/* The names themselves, for an array of 14 strings; number 0 has the empty one. */
#define BRAIDPUDDLE_PROTOCOL_NAMES \
    { "", "arp", "icmp", "igmp", "tcp", "udp", "ipv6", "gre", "esp", "ah", "icmpv6", "ospf", "vrrp", "sctp" }

/* ---- the arrays of numbers ------------------------------------------------------------------------------------------------------ */

/* What feed, sweep and drain answer. Sweep and drain answer 0 for packets, bytes used and flows opened. */
enum braidpuddle_answer {
    BRAIDPUDDLE_ANSWER_REFUSAL = 0, /* the result again */
    BRAIDPUDDLE_ANSWER_PACKETS = 1, /* packets taken */
    BRAIDPUDDLE_ANSWER_USED = 2,    /* bytes of the batch that they took */
    BRAIDPUDDLE_ANSWER_OPENED = 3,  /* flows opened */
    BRAIDPUDDLE_ANSWER_RECORDS = 4, /* records written */
    BRAIDPUDDLE_ANSWER_FILLED = 5,  /* bytes of the output that they fill */
    BRAIDPUDDLE_ANSWER_NUMBERS = 6
};

/* A packet without its key. The last five are optional: 0 for absent, else the value plus 1. */
enum braidpuddle_packet {
    BRAIDPUDDLE_PACKET_TIME = 0,            /* nanoseconds, 64 bits */
    BRAIDPUDDLE_PACKET_FRAME_OCTETS = 1,    /* 32 bits */
    BRAIDPUDDLE_PACKET_CAPTURED_OCTETS = 2, /* 32 bits */
    BRAIDPUDDLE_PACKET_TTL = 3,             /* optional, 8 bits */
    BRAIDPUDDLE_PACKET_TCP_FLAGS = 4,       /* optional, 9 bits: enum braidpuddle_flag */
    BRAIDPUDDLE_PACKET_ICMP = 5,            /* optional, 16 bits: 256 x type + code */
    BRAIDPUDDLE_PACKET_DSCP = 6,            /* optional, 8 bits */
    BRAIDPUDDLE_PACKET_ECN = 7,             /* optional, 8 bits */
    BRAIDPUDDLE_PACKET_NUMBERS = 8
};

/* Where a packet form's parts are, in the bytes that it was read from: its key form is bytes[KEY] to bytes[END - 1]. */
enum braidpuddle_packet_place {
    BRAIDPUDDLE_PACKET_PLACE_KEY = 0, /* where its key form begins */
    BRAIDPUDDLE_PACKET_PLACE_END = 1, /* where it ends: the bytes it took */
    BRAIDPUDDLE_PACKET_PLACES = 2
};

/* A record without its key and its end reason: 11 numbers of its own, then 13 for each direction. Those marked optional are 0 for
 * absent, else the value plus 1. */
enum braidpuddle_record {
    BRAIDPUDDLE_RECORD_START = 0,           /* nanoseconds: the earliest packet's time */
    BRAIDPUDDLE_RECORD_END = 1,             /* nanoseconds: the latest packet's time */
    BRAIDPUDDLE_RECORD_START_STATE = 2,     /* enum braidpuddle_start_state */
    BRAIDPUDDLE_RECORD_RESOLUTION = 3,      /* enum braidpuddle_resolution */
    BRAIDPUDDLE_RECORD_TTL_LEAST = 4,       /* optional, 8 bits */
    BRAIDPUDDLE_RECORD_TTL_GREATEST = 5,    /* optional, 8 bits */
    BRAIDPUDDLE_RECORD_DSCP = 6,            /* optional, 8 bits: the first packet's */
    BRAIDPUDDLE_RECORD_ECN = 7,             /* optional, 8 bits: the first packet's */
    BRAIDPUDDLE_RECORD_ICMP = 8,            /* optional, 16 bits: the first one present */
    BRAIDPUDDLE_RECORD_CAPTURED_OCTETS = 9, /* of both directions */
    BRAIDPUDDLE_RECORD_TRUNCATED = 10,      /* 1 if some packet's captured octets were below its frame octets, else 0 */

    BRAIDPUDDLE_RECORD_FORWARD_PACKETS = 11,
    BRAIDPUDDLE_RECORD_FORWARD_FRAME_OCTETS = 12,
    BRAIDPUDDLE_RECORD_FORWARD_LENGTH_LEAST = 13,    /* optional, 32 bits */
    BRAIDPUDDLE_RECORD_FORWARD_LENGTH_GREATEST = 14, /* optional, 32 bits */
    BRAIDPUDDLE_RECORD_FORWARD_FIN = 15,             /* packets with that flag, and so on */
    BRAIDPUDDLE_RECORD_FORWARD_SYN = 16,
    BRAIDPUDDLE_RECORD_FORWARD_RST = 17,
    BRAIDPUDDLE_RECORD_FORWARD_PSH = 18,
    BRAIDPUDDLE_RECORD_FORWARD_ACK = 19,
    BRAIDPUDDLE_RECORD_FORWARD_URG = 20,
    BRAIDPUDDLE_RECORD_FORWARD_ECE = 21,
    BRAIDPUDDLE_RECORD_FORWARD_CWR = 22,
    BRAIDPUDDLE_RECORD_FORWARD_NS = 23,

    BRAIDPUDDLE_RECORD_REVERSE_PACKETS = 24,
    BRAIDPUDDLE_RECORD_REVERSE_FRAME_OCTETS = 25,
    BRAIDPUDDLE_RECORD_REVERSE_LENGTH_LEAST = 26,    /* optional, 32 bits */
    BRAIDPUDDLE_RECORD_REVERSE_LENGTH_GREATEST = 27, /* optional, 32 bits */
    BRAIDPUDDLE_RECORD_REVERSE_FIN = 28,             /* packets with that flag, and so on */
    BRAIDPUDDLE_RECORD_REVERSE_SYN = 29,
    BRAIDPUDDLE_RECORD_REVERSE_RST = 30,
    BRAIDPUDDLE_RECORD_REVERSE_PSH = 31,
    BRAIDPUDDLE_RECORD_REVERSE_ACK = 32,
    BRAIDPUDDLE_RECORD_REVERSE_URG = 33,
    BRAIDPUDDLE_RECORD_REVERSE_ECE = 34,
    BRAIDPUDDLE_RECORD_REVERSE_CWR = 35,
    BRAIDPUDDLE_RECORD_REVERSE_NS = 36,

    BRAIDPUDDLE_RECORD_NUMBERS = 37
};

/* Where a record form's parts are, in the bytes that it was read from, and its end reason: its key form is bytes[KEY] to bytes[END - 1]. */
enum braidpuddle_record_place {
    BRAIDPUDDLE_RECORD_PLACE_KEY = 0,    /* where its key form begins */
    BRAIDPUDDLE_RECORD_PLACE_END = 1,    /* where it ends: the bytes it took */
    BRAIDPUDDLE_RECORD_PLACE_REASON = 2, /* enum braidpuddle_reason */
    BRAIDPUDDLE_RECORD_PLACES = 3
};

/* A lone number read. */
enum braidpuddle_number {
    BRAIDPUDDLE_NUMBER_VALUE = 0, /* the number */
    BRAIDPUDDLE_NUMBER_USED = 1,  /* the bytes that it took */
    BRAIDPUDDLE_NUMBER_NUMBERS = 2
};

/* ---- the engine's calls --------------------------------------------------------------------------------------------------------- */

/*
 * How many bytes of memory a state takes.
 *
 * capacity  the most flows that it is to hold open
 *
 * Answers 256 + 640 x capacity; 0 where capacity is 0 or above 4096, which opening refuses.
 */
uint64_t braidpuddle_state_bytes(uint64_t capacity);

/*
 * Opens a state in the caller's memory: sound, with these settings, its clock 0 and no flow open. What the memory held before does not
 * matter.
 *
 * state, state_length  the memory. Bytes beyond braidpuddle_state_bytes(capacity) are never read or written, by this call or a later one
 * capacity             the most flows that are open at once, 1 to 4096
 * timeout_ms           in milliseconds: a flow is due this long after its latest packet, and the lesser of one second and half of it more
 *                      ("What becomes of packets" above). With 0 nothing is swept
 * resolution           0 microseconds, any other number finer; it is noted in each record and changes nothing else
 *
 * Refusals, in this order; the memory stays as it was:
 *   1 Capacity  capacity is 0 or above 4096
 *   2 Memory    state_length is below braidpuddle_state_bytes(capacity)
 */
uint64_t braidpuddle_open(uint8_t *state, size_t state_length, uint64_t capacity, uint64_t timeout_ms, uint64_t resolution);

/*
 * Feeds a batch: takes its packets in order, to the batch's end or to the first that is refused. Each packet begins with a sweep at its
 * own time. The records of the flows that end are written one behind another from the output's front.
 *
 * state, state_length  a state
 * batch, batch_length  packet forms, one behind another. An empty batch answers 0 where the state is sound
 * out, out_length      the output. The bytes behind the filled ones stay as they were
 * answer               all six numbers are set, whatever the result: enum braidpuddle_answer
 *
 * Refusals. Before any packet; state and output stay as they were, and the answer's other five numbers are 0:
 *   3 Damaged   the state is not sound
 * Then packet by packet, in this order. The packets before are taken, and their records are written; the refused packet changes
 * nothing, neither a flow nor the clock. It begins at batch + answer[BRAIDPUDDLE_ANSWER_USED]:
 *   4 Packet    what remains of the batch is neither begun by a packet form nor Short: there is no telling where the next packet begins, so
 *               drop the batch from there on
 *   9 Short     what remains is a proper beginning of a packet form: feed it again with the bytes that follow
 *   5 Full      the packet would open a flow, and capacity flows are open: skip it (braidpuddle_read_packet gives its length), or drain
 *   6 Spent     the record that takes the packet would pass 2^64 - 1 in packets, octets or captured octets: drain, and feed it again
 *   7 Room      the records that the packet finishes need more bytes than the output has left: take the records away and feed the rest
 *               again. BRAIDPUDDLE_ROOM_FOR_ONE(capacity) bytes always suffice for one packet
 */
uint64_t braidpuddle_feed(uint8_t *state, size_t state_length, const uint8_t *batch, size_t batch_length, uint8_t *out,
                          size_t out_length, uint64_t answer[BRAIDPUDDLE_ANSWER_NUMBERS]);

/*
 * Sweeps: the clock becomes the greater of itself and the time, and every flow that is due by it leaves with a record, in order of end,
 * then of key bytes.
 *
 * state, state_length  a state
 * time_ns              the time, in nanoseconds, on the same scale as the packets' times
 * out, out_length      the output, as in braidpuddle_feed
 * answer               all six numbers are set; packets, bytes used and flows opened are 0, and where it is refused all but the refusal are
 *
 * Refusals, in this order; nothing has left, clock and output stay as they were:
 *   3 Damaged   the state is not sound
 *   7 Room      the records need more than out_length bytes. BRAIDPUDDLE_ROOM_FOR_ONE(capacity) bytes always suffice
 */
uint64_t braidpuddle_sweep(uint8_t *state, size_t state_length, uint64_t time_ns, uint8_t *out, size_t out_length,
                           uint64_t answer[BRAIDPUDDLE_ANSWER_NUMBERS]);

/*
 * Drains: every open flow leaves with a record, in order of key bytes, Fin if both FINs were seen, else CaptureEnd. The clock stays, and
 * the state may be fed again.
 *
 * Arguments and refusals are those of braidpuddle_sweep, without the time.
 */
uint64_t braidpuddle_drain(uint8_t *state, size_t state_length, uint8_t *out, size_t out_length,
                           uint64_t answer[BRAIDPUDDLE_ANSWER_NUMBERS]);

/*
 * How many flows are open. It changes nothing, so it also tells whether the bytes are a sound state, for instance one that was saved. Sound
 * is not the same as unchanged: another count may be as sound as the true one. Keep a checksum of your own with a state that you save.
 *
 * state, state_length  a state
 *
 * Answers the number of open flows, 0 to 4096; BRAIDPUDDLE_NO_ANSWER where the state is not sound (Damaged).
 */
uint64_t braidpuddle_open_flows(const uint8_t *state, size_t state_length);

/* ---- forms alone ---------------------------------------------------------------------------------------------------------------- */

/*
 * Reads the number that the bytes begin with.
 *
 * bytes, length  the bytes; what lies behind the number does not matter
 * most           the bound of the field that is read: a number above it is none. For an optional the field's plus 1: 65536 for 16 bits
 * answer         set to the value and to the bytes that it took
 *
 * Refusals; answer stays as it was:
 *   4 Packet    the bytes are empty, or do not begin with a number of at most `most` in its shortest form, nor are Short
 *   9 Short     the bytes are a proper beginning of such a number
 */
uint64_t braidpuddle_read_number(const uint8_t *bytes, size_t length, uint64_t most, uint64_t answer[BRAIDPUDDLE_NUMBER_NUMBERS]);

/*
 * Writes a number at the front of the output. For an optional, give its value plus 1, or 0 for absent.
 *
 * out, out_length  the output; BRAIDPUDDLE_NUMBER_MOST bytes always suffice. Bytes behind the number stay as they were
 * value            the number
 * most             the bound of its field; for an optional that plus 1
 * written          set to the bytes that it took
 *
 * Refusals, in this order; out and written stay as they were:
 *   4 Packet    value is above most
 *   7 Room      out_length is too small
 */
uint64_t braidpuddle_write_number(uint8_t *out, size_t out_length, uint64_t value, uint64_t most, uint64_t *written);

/*
 * Reads the packet that the bytes begin with.
 *
 * bytes, length  the bytes; what lies behind the packet form does not matter
 * packet         set to the packet's eight numbers: enum braidpuddle_packet
 * place          set to where its key form begins and where the packet form ends: enum braidpuddle_packet_place
 *
 * Refusals; packet and place stay as they were:
 *   4 Packet    the bytes are empty, or neither begin with a packet form nor are Short
 *   9 Short     the bytes are a proper beginning of a packet form
 */
uint64_t braidpuddle_read_packet(const uint8_t *bytes, size_t length, uint64_t packet[BRAIDPUDDLE_PACKET_NUMBERS],
                                 uint64_t place[BRAIDPUDDLE_PACKET_PLACES]);

/*
 * Writes a packet form at the front of the output.
 *
 * out, out_length  the output; BRAIDPUDDLE_PACKET_MOST bytes always suffice. Bytes behind the form stay as they were
 * packet           the packet's eight numbers: enum braidpuddle_packet
 * key, key_length  exactly one key form
 * written          set to the bytes that the form took
 *
 * Refusals, in this order; out and written stay as they were:
 *   4 Packet    a number is out of its field's range, or the key is not exactly one key form
 *   7 Room      out_length is too small
 */
uint64_t braidpuddle_write_packet(uint8_t *out, size_t out_length, const uint64_t packet[BRAIDPUDDLE_PACKET_NUMBERS], const uint8_t *key,
                                  size_t key_length, uint64_t *written);

/*
 * Reads the record that the bytes begin with: what feed, sweep and drain have written is read with it, record by record.
 *
 * bytes, length  the bytes; what lies behind the record form does not matter
 * record         set to the record's 37 numbers: enum braidpuddle_record
 * place          set to where its key form begins, where the record form ends, and its end reason: enum braidpuddle_record_place
 *
 * Refusals; record and place stay as they were:
 *   8 Record    the bytes are empty, or neither begin with a record form (a sound record) nor are Short
 *   9 Short     the bytes are a proper beginning of a record form
 */
uint64_t braidpuddle_read_record(const uint8_t *bytes, size_t length, uint64_t record[BRAIDPUDDLE_RECORD_NUMBERS],
                                 uint64_t place[BRAIDPUDDLE_RECORD_PLACES]);

/*
 * Writes a record form at the front of the output.
 *
 * out, out_length  the output; BRAIDPUDDLE_RECORD_MOST bytes always suffice. Bytes behind the form stay as they were
 * record           the record's 37 numbers: enum braidpuddle_record
 * reason           its end reason, 0 to 3: enum braidpuddle_reason
 * key, key_length  exactly one key form
 * written          set to the bytes that the form took
 *
 * Refusals, in this order; out and written stay as they were:
 *   3 Damaged   a number is out of its field's range, the reason is above 3, the key is not exactly one key form, or the record is not
 *               sound
 *   7 Room      out_length is too small
 */
uint64_t braidpuddle_write_record(uint8_t *out, size_t out_length, const uint64_t record[BRAIDPUDDLE_RECORD_NUMBERS], uint64_t reason,
                                  const uint8_t *key, size_t key_length, uint64_t *written);

/* ---- keys: the bytes of exactly one key form ------------------------------------------------------------------------------------ */

/*
 * Which of so many workers a key's flow belongs to. A key and its reverse have the same one.
 *
 * key, key_length  exactly one key form
 * shards           the number of workers
 *
 * Answers 0 to shards - 1, and 0 where shards is 0; BRAIDPUDDLE_NO_ANSWER where the bytes are not exactly one key form.
 */
uint64_t braidpuddle_shard(const uint8_t *key, size_t key_length, uint64_t shards);

/*
 * The name of a key's protocol.
 *
 * key, key_length  exactly one key form
 *
 * Answers a number of enum braidpuddle_name, 0 for a protocol without a name; BRAIDPUDDLE_NO_ANSWER where the bytes are not exactly one
 * key form.
 */
uint64_t braidpuddle_protocol_name(const uint8_t *key, size_t key_length);

/*
 * The IP version of a key.
 *
 * key, key_length  exactly one key form
 *
 * Answers 4 or 6 by the source address, or 0 where there is an ethertype, which is traffic that is not IP; BRAIDPUDDLE_NO_ANSWER where the
 * bytes are not exactly one key form.
 */
uint64_t braidpuddle_ip_version(const uint8_t *key, size_t key_length);

/*
 * Writes the key of the same conversation seen from the other side: addresses, ports and MACs change over, all else stays.
 *
 * key, key_length  exactly one key form
 * out, out_length  the output; BRAIDPUDDLE_KEY_MOST bytes always suffice. Bytes behind the form stay as they were
 * written          set to the bytes that the form took
 *
 * Refusals, in this order; out and written stay as they were:
 *   4 Packet    the key is not exactly one key form
 *   7 Room      out_length is too small
 */
uint64_t braidpuddle_reversed(const uint8_t *key, size_t key_length, uint8_t *out, size_t out_length, uint64_t *written);

/*
 * Writes the key with both MACs zero, for those who do not tell flows apart by link addresses.
 *
 * Arguments and refusals are those of braidpuddle_reversed.
 */
uint64_t braidpuddle_forget_link_addresses(const uint8_t *key, size_t key_length, uint8_t *out, size_t out_length, uint64_t *written);

/* ---- a host's own record -------------------------------------------------------------------------------------------------------- */

/*
 * Begins a record that the host itself holds, with its first packet counted forward.
 *
 * packet      the packet's eight numbers: enum braidpuddle_packet
 * protocol    the key's protocol, at most 255: with 6 (TCP) the start state is SynObserved or MidStream, else NotApplicable
 * resolution  0 microseconds, any other number finer
 * record      set to the record's 37 numbers: enum braidpuddle_record
 *
 * Refusals; record stays as it was:
 *   4 Packet    a number is out of its field's range, or protocol is above 255
 */
uint64_t braidpuddle_begin(const uint64_t packet[BRAIDPUDDLE_PACKET_NUMBERS], uint64_t protocol, uint64_t resolution,
                           uint64_t record[BRAIDPUDDLE_RECORD_NUMBERS]);

/*
 * Counts a packet on such a record, where it stands. It needs no key: that the packet belongs there is the host's to know.
 *
 * record     the record's 37 numbers, changed in place
 * direction  0 forward, any other number reverse: enum braidpuddle_direction
 * packet     the packet's eight numbers: enum braidpuddle_packet
 *
 * Refusals, in this order; record stays as it was:
 *   3 Damaged   a number of the record is out of its field's range, or the record is not sound, end reason aside
 *   4 Packet    a number of the packet is out of its field's range
 *   6 Spent     the record would pass 2^64 - 1 in packets or octets of both directions together, or in captured octets
 */
uint64_t braidpuddle_count(uint64_t record[BRAIDPUDDLE_RECORD_NUMBERS], uint64_t direction,
                           const uint64_t packet[BRAIDPUDDLE_PACKET_NUMBERS]);

#ifdef __cplusplus
}
#endif

#endif
