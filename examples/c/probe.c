/*
 * A small probe: it makes the packets of a few conversations, feeds them to the flow meter in batches, sweeps at the end of each second
 * of the packets' time, and drains at the end. It prints a line for each record (reason, start, end, forward and reverse packets, forward
 * and reverse octets) and a total (packets, records, clean closes).
 */
#include <inttypes.h>
#include <stdio.h>
#include <stdlib.h>
#include <string.h>

#include "braidpuddle.h"

enum { CAPACITY = 16, TIMEOUT_MS = 2000, BATCH_PACKETS = 8 };
enum { PROTOCOL_ICMP = 1, PROTOCOL_TCP = 6, PROTOCOL_UDP = 17 };
enum { ENDPOINTS_NONE = 0, ENDPOINTS_PORTS = 1 };

#define SECOND_NS UINT64_C(1000000000)

#define FIN BRAIDPUDDLE_FLAG_FIN
#define SYN BRAIDPUDDLE_FLAG_SYN
#define RST BRAIDPUDDLE_FLAG_RST
#define PSH BRAIDPUDDLE_FLAG_PSH
#define ACK BRAIDPUDDLE_FLAG_ACK

/* ---- the traffic ---------------------------------------------------------------------------------------------------------------- */

/* A conversation, from the side that opens it: IPv4 addresses, and ports unless it is ICMP. */
struct conversation {
    uint8_t protocol;
    uint8_t source[4];
    uint8_t destination[4];
    uint16_t source_port;
    uint16_t destination_port;
};

enum { WEB, NAMES, CLOSED_PORT, PING, MAIL, BACKUP };

static const struct conversation conversations[] = {
    [WEB] = { PROTOCOL_TCP, { 10, 0, 0, 1 }, { 192, 0, 2, 10 }, 40000, 443 },
    [NAMES] = { PROTOCOL_UDP, { 10, 0, 0, 1 }, { 192, 0, 2, 53 }, 53000, 53 },
    [CLOSED_PORT] = { PROTOCOL_TCP, { 10, 0, 0, 2 }, { 192, 0, 2, 10 }, 40001, 8080 },
    [PING] = { PROTOCOL_ICMP, { 10, 0, 0, 3 }, { 192, 0, 2, 1 }, 0, 0 },
    [MAIL] = { PROTOCOL_TCP, { 10, 0, 0, 2 }, { 192, 0, 2, 25 }, 40002, 25 },
    [BACKUP] = { PROTOCOL_TCP, { 10, 0, 0, 9 }, { 192, 0, 2, 99 }, 40003, 873 },
};

enum side { OPENER, ANSWERER };

struct sighting {
    uint64_t time_us;
    int conversation;
    enum side sender;
    unsigned flags; /* of TCP */
    uint32_t octets;
};

static const struct sighting sightings[] = {
    { 100000, WEB, OPENER, SYN, 74 },
    { 130000, WEB, ANSWERER, SYN | ACK, 74 },
    { 130500, WEB, OPENER, ACK, 66 },
    { 131000, WEB, OPENER, PSH | ACK, 583 },
    { 165000, WEB, ANSWERER, ACK, 1514 },
    { 165200, WEB, ANSWERER, PSH | ACK, 1200 },
    { 165900, WEB, OPENER, ACK, 66 },
    { 200000, NAMES, OPENER, 0, 74 },
    { 215000, NAMES, ANSWERER, 0, 130 },
    { 400000, CLOSED_PORT, OPENER, SYN, 74 },
    { 400900, CLOSED_PORT, ANSWERER, RST | ACK, 54 },
    { 500000, PING, OPENER, 0, 98 },
    { 512000, PING, ANSWERER, 0, 98 },
    { 1300000, WEB, OPENER, FIN | ACK, 66 },
    { 1330000, WEB, ANSWERER, FIN | ACK, 66 },
    { 1330400, WEB, OPENER, ACK, 66 },
    { 1500000, PING, OPENER, 0, 98 },
    { 1512000, PING, ANSWERER, 0, 98 },
    { 2050000, MAIL, OPENER, SYN, 74 },
    { 2060000, MAIL, ANSWERER, SYN | ACK, 74 },
    { 2060300, MAIL, OPENER, ACK, 66 },
    { 2100000, MAIL, OPENER, FIN | ACK, 66 },
    { 2110000, MAIL, ANSWERER, FIN | ACK, 66 },
    { 2500000, PING, OPENER, 0, 98 },
    { 2512000, PING, ANSWERER, 0, 98 },
    { 6200000, BACKUP, OPENER, PSH | ACK, 1514 },
    { 6200400, BACKUP, OPENER, PSH | ACK, 1514 },
    { 6201000, BACKUP, ANSWERER, ACK, 66 },
    { 6500000, PING, OPENER, 0, 98 },
    { 6512000, PING, ANSWERER, 0, 98 },
};

enum { SIGHTINGS = sizeof sightings / sizeof sightings[0] };

/* ---- the probe ------------------------------------------------------------------------------------------------------------------ */

/* All of the probe's memory: the library has none of its own. */
static uint8_t state[BRAIDPUDDLE_STATE_BYTES(CAPACITY)];
static uint8_t batch[BATCH_PACKETS * BRAIDPUDDLE_PACKET_MOST];
static size_t batch_length;
static uint8_t out[BRAIDPUDDLE_ROOM_FOR_ONE(CAPACITY)];
static uint64_t packets, records, clean_closes;

/* Ends the probe where a call is refused that is not to be. */
static void expect_taken(uint64_t refusal, const char *what)
{
    static const char *const names[] = BRAIDPUDDLE_REFUSAL_NAMES;

    if (refusal == BRAIDPUDDLE_REFUSAL_NONE)
        return;
    fprintf(stderr, "%s: refused %" PRIu64 ", %s\n", what, refusal, names[refusal]);
    exit(1);
}

/* A key form as it is written. */
struct key_form {
    uint8_t bytes[BRAIDPUDDLE_KEY_MOST];
    size_t length;
};

static void put_number(struct key_form *key, uint64_t value, uint64_t most)
{
    uint64_t written = 0;

    expect_taken(braidpuddle_write_number(key->bytes + key->length, sizeof key->bytes - key->length, value, most, &written), "number");
    key->length += (size_t)written;
}

static void put_address(struct key_form *key, const uint8_t address[4])
{
    put_number(key, 4, 255);
    memcpy(key->bytes + key->length, address, 4);
    key->length += 4;
}

static void put_endpoints(struct key_form *key, const struct conversation *c)
{
    if (c->protocol == PROTOCOL_ICMP) {
        put_number(key, ENDPOINTS_NONE, 3);
        return;
    }
    put_number(key, ENDPOINTS_PORTS, 3);
    put_number(key, c->source_port, 65535);
    put_number(key, c->destination_port, 65535);
}

/* The conversation's key as its opener sees it: no ethertype, no link addresses, no VLAN tag, no tunnel. */
static struct key_form opener_key(const struct conversation *c)
{
    struct key_form key = { { 0 }, 0 };

    put_number(&key, c->protocol, 255);
    put_number(&key, 0, 65536);
    put_endpoints(&key, c);
    put_address(&key, c->source);
    put_address(&key, c->destination);
    memset(key.bytes + key.length, 0, 12);
    key.length += 12;
    put_number(&key, 0, 2);
    put_number(&key, 0, 256);
    return key;
}

/* The key as the packet's sender sees it. */
static struct key_form key_of(const struct sighting *seen)
{
    struct key_form key = opener_key(&conversations[seen->conversation]);
    struct key_form other = { { 0 }, 0 };
    uint64_t written = 0;

    if (seen->sender == OPENER)
        return key;
    expect_taken(braidpuddle_reversed(key.bytes, key.length, other.bytes, sizeof other.bytes, &written), "reversed key");
    other.length = (size_t)written;
    return other;
}

static void add_to_batch(const struct sighting *seen)
{
    struct key_form key = key_of(seen);
    uint64_t packet[BRAIDPUDDLE_PACKET_NUMBERS] = { 0 };
    uint64_t written = 0;

    packet[BRAIDPUDDLE_PACKET_TIME] = seen->time_us * 1000;
    packet[BRAIDPUDDLE_PACKET_FRAME_OCTETS] = seen->octets;
    packet[BRAIDPUDDLE_PACKET_CAPTURED_OCTETS] = seen->octets;
    if (conversations[seen->conversation].protocol == PROTOCOL_TCP)
        packet[BRAIDPUDDLE_PACKET_TCP_FLAGS] = (uint64_t)seen->flags + 1;
    expect_taken(braidpuddle_write_packet(batch + batch_length, sizeof batch - batch_length, packet, key.bytes, key.length, &written),
                 "packet");
    batch_length += (size_t)written;
}

static void print_record(const uint64_t record[BRAIDPUDDLE_RECORD_NUMBERS], uint64_t reason)
{
    static const char *const reasons[] = BRAIDPUDDLE_REASON_NAMES;

    printf("%s %" PRIu64 " %" PRIu64 " %" PRIu64 " %" PRIu64 " %" PRIu64 " %" PRIu64 "\n", reasons[reason],
           record[BRAIDPUDDLE_RECORD_START], record[BRAIDPUDDLE_RECORD_END], record[BRAIDPUDDLE_RECORD_FORWARD_PACKETS],
           record[BRAIDPUDDLE_RECORD_REVERSE_PACKETS], record[BRAIDPUDDLE_RECORD_FORWARD_FRAME_OCTETS],
           record[BRAIDPUDDLE_RECORD_REVERSE_FRAME_OCTETS]);
}

/* Prints what a call has written. */
static void print_records(const uint64_t answer[BRAIDPUDDLE_ANSWER_NUMBERS])
{
    const uint8_t *rest = out;
    size_t length = (size_t)answer[BRAIDPUDDLE_ANSWER_FILLED];

    while (length > 0) {
        uint64_t record[BRAIDPUDDLE_RECORD_NUMBERS], place[BRAIDPUDDLE_RECORD_PLACES];

        expect_taken(braidpuddle_read_record(rest, length, record, place), "record");
        print_record(record, place[BRAIDPUDDLE_RECORD_PLACE_REASON]);
        clean_closes += place[BRAIDPUDDLE_RECORD_PLACE_REASON] == BRAIDPUDDLE_REASON_FIN;
        rest += place[BRAIDPUDDLE_RECORD_PLACE_END];
        length -= (size_t)place[BRAIDPUDDLE_RECORD_PLACE_END];
    }
    records += answer[BRAIDPUDDLE_ANSWER_RECORDS];
}

/* Feeds the batch. Where the output is full it is printed and the rest is fed again: there is always room for one packet more. */
static void feed_batch(void)
{
    uint64_t answer[BRAIDPUDDLE_ANSWER_NUMBERS];
    uint64_t refusal;
    size_t used = 0;

    do {
        refusal = braidpuddle_feed(state, sizeof state, batch + used, batch_length - used, out, sizeof out, answer);
        used += (size_t)answer[BRAIDPUDDLE_ANSWER_USED];
        packets += answer[BRAIDPUDDLE_ANSWER_PACKETS];
        print_records(answer);
    } while (refusal == BRAIDPUDDLE_REFUSAL_ROOM);
    expect_taken(refusal, "feed");
    batch_length = 0;
}

static void sweep_at(uint64_t time_ns)
{
    uint64_t answer[BRAIDPUDDLE_ANSWER_NUMBERS];

    expect_taken(braidpuddle_sweep(state, sizeof state, time_ns, out, sizeof out, answer), "sweep");
    print_records(answer);
}

static void drain(void)
{
    uint64_t answer[BRAIDPUDDLE_ANSWER_NUMBERS];

    expect_taken(braidpuddle_drain(state, sizeof state, out, sizeof out, answer), "drain");
    print_records(answer);
}

/* Feeds the packets before a time, from the one numbered `next` on, in batches, and says which comes next. */
static size_t feed_until(uint64_t time_ns, size_t next)
{
    size_t in_batch = 0;

    while (next < SIGHTINGS && sightings[next].time_us * 1000 < time_ns) {
        add_to_batch(&sightings[next++]);
        if (++in_batch == BATCH_PACKETS) {
            feed_batch();
            in_batch = 0;
        }
    }
    feed_batch();
    return next;
}

int main(void)
{
    uint64_t second;
    size_t next = 0;

    expect_taken(braidpuddle_open(state, sizeof state, CAPACITY, TIMEOUT_MS, BRAIDPUDDLE_RESOLUTION_MICROSECONDS), "open");
    for (second = 1; next < SIGHTINGS; second++) {
        next = feed_until(second * SECOND_NS, next);
        sweep_at(second * SECOND_NS);
    }
    drain();
    printf("total %" PRIu64 " %" PRIu64 " %" PRIu64 "\n", packets, records, clean_closes);
    return 0;
}
