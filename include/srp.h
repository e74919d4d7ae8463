/*
 * The stream-reservation bridge for programs in C, C++ and Rust: the seven calls of libembed.a. docs/EMBEDDING.md tells how to build
 * and link it, README.md what each call does, docs/TABLE.md the octets of settings and table. Behind the calls stand inline functions
 * that lay out settings and read from the table what hardware is told.
 *
 * What every call does:
 *
 * - It answers a number: 0, or why it was refused (enum srp_number). A refusal changes no octet of table and buffer, and puts 0
 *   behind every other pointer. Every input has an answer: nothing is asked of numbers and of the octets handed over.
 * - It keeps nothing: the table is the bridge's whole state. It has no statics, takes no memory, and locks nothing. Calls on
 *   different tables may run at the same time; those on one table are made one after the other.
 *
 * What only the caller can see to, since C has no way to ask it:
 *
 * - A pointer and its length name octets that are there: a length that is too great makes the call read, and for a table or buffer
 *   write, what is not the caller's. A length that is too small is refused by number, as any other wrong length.
 * - A pointer may be NULL where its length is 0, and never elsewhere: a table is then refused with 12, settings with 11, a PDU with
 *   2 and a buffer with 10. The pointers without a length (length, next, reported, explained) are never NULL.
 * - What the pointers of one call name does not overlap, and nobody else changes it while the call runs.
 */
#ifndef SRP_H
#define SRP_H

#include <stddef.h>
#include <stdint.h>

#ifdef __cplusplus
extern "C" {
#endif

/*
 * Sizes, in octets where nothing else is said. They are those of the archive that this header came with: where start refuses a table
 * of SRP_TABLE octets with 12, it is another.
 */

/* Ports of a bridge, streams that it holds, and addresses that each port holds, at most. */
#define SRP_PORTS 8
#define SRP_STREAMS 64
#define SRP_ADDRESSES 64

/* A table, for every number of ports. */
#define SRP_TABLE 65307

/* Settings: what stands before the first port's, each port's, and all of so many ports. */
#define SRP_SETTINGS_HEAD 14
#define SRP_SETTINGS_PORT 22
#define SRP_SETTINGS(ports) (SRP_SETTINGS_HEAD + SRP_SETTINGS_PORT * (ports))

/* The longest PDU, which is the shortest buffer of a write. */
#define SRP_PDU 1500

/* The PDU 00 00 00, by which a write tells that the port has nothing to say from that place on. */
#define SRP_PDU_EMPTY 3

/* The shortest buffer of a why: all other streams may be listed. */
#define SRP_LIST 1008

/* The numbers that calls answer. Where several apply, it is the first in the order that stands with each call. */
enum srp_number {
    SRP_ACCEPTED = 0,
    SRP_REFUSED_PORT = 1,             /* the port is 0 or above the bridge's ports */
    SRP_REFUSED_PDU_LENGTH = 2,       /* the PDU has 0 octets or more than SRP_PDU */
    SRP_REFUSED_PAST_END = 3,         /* a field runs past the PDU or its list, or a list's EndMark isn't its last two octets */
    SRP_REFUSED_ATTRIBUTE_TYPE = 4,   /* AttributeType 0; or with ProtocolVersion 0 above 4, of MMRP above 2 */
    SRP_REFUSED_ATTRIBUTE_LENGTH = 5, /* AttributeLength is not that of the type */
    SRP_REFUSED_EVENT = 6,            /* LeaveAllEvent above 1, or a ThreePackedEvents octet above 215, with ProtocolVersion 0 */
    SRP_REFUSED_VALUE = 7,            /* a value runs past its field */
    SRP_REFUSED_STREAMS = 8,          /* streams held and different new ones joined by this PDU are more than SRP_STREAMS */
    SRP_REFUSED_TIME = 9,             /* the time is below the held clock */
    SRP_REFUSED_BUFFER = 10,          /* the buffer is shorter than SRP_PDU (write), or than SRP_LIST (why) */
    SRP_REFUSED_SETTINGS = 11,        /* the settings are not as docs/TABLE.md lays them out, their length included */
    SRP_REFUSED_TABLE = 12,           /* the table's length is not SRP_TABLE, or its octets break a form rule */
    SRP_REFUSED_PLACE = 13,           /* the place is above the number of declarations (write) or of streams held (report) */
    SRP_REFUSED_ADDRESSES = 14,       /* addresses that the port holds and different new ones joined by this PDU are more than SRP_ADDRESSES */
    SRP_REFUSED_STREAM = 15           /* the stream isn't held */
};

/*
 * Failure codes (IEEE 802.1Qat, Table 35-6): why a stream is not admitted on a port. "own": this bridge gives it; all of them, and any
 * other octet, are relayed where a neighbour gave them.
 */
enum srp_code {
    SRP_CODE_NONE = 0,
    SRP_CODE_BANDWIDTH = 1,            /* own: insufficient bandwidth */
    SRP_CODE_BRIDGE_RESOURCES = 2,     /* insufficient Bridge resources */
    SRP_CODE_CLASS_BANDWIDTH = 3,      /* insufficient bandwidth for the traffic class */
    SRP_CODE_STREAM_ID = 4,            /* own: StreamID in use by another Talker */
    SRP_CODE_DESTINATION_IN_USE = 5,   /* own: destination address already in use */
    SRP_CODE_PREEMPTED = 6,            /* preempted by higher rank */
    SRP_CODE_LATENCY_CHANGED = 7,      /* own: reported latency has changed */
    SRP_CODE_NOT_AVB = 8,              /* own: egress port is not AVB capable */
    SRP_CODE_OTHER_DESTINATION = 9,    /* use a different destination address */
    SRP_CODE_MSRP_RESOURCES = 10,      /* out of MSRP resources */
    SRP_CODE_MMRP_RESOURCES = 11,      /* out of MMRP resources */
    SRP_CODE_STORE_DESTINATION = 12,   /* cannot store the destination address */
    SRP_CODE_PRIORITY = 13,            /* own: requested priority is not an SR class priority */
    SRP_CODE_FRAME_SIZE = 14,          /* own: MaxFrameSize is too large for media */
    SRP_CODE_INBOUND_PORTS = 15,       /* own: limit of inbound ports has been reached */
    SRP_CODE_FIRST_VALUE_CHANGED = 16, /* own: changes in FirstValue for a registered StreamID */
    SRP_CODE_VLAN_BLOCKED = 17,        /* VLAN is blocked on this egress port */
    SRP_CODE_VLAN_TAGGING = 18,        /* VLAN tagging is disabled on this egress port */
    SRP_CODE_CLASS_PRIORITY = 19       /* SR class priority mismatch */
};

/* The words of a report. */
enum srp_column { SRP_COLUMN_NONE = 0, SRP_COLUMN_ADVERTISE = 1, SRP_COLUMN_FAILED = 2 };
enum srp_listener { SRP_LISTENER_NONE = 0, SRP_LISTENER_ASKING_FAILED = 1, SRP_LISTENER_READY = 2, SRP_LISTENER_READY_FAILED = 3 };
enum srp_entry { SRP_ENTRY_NONE = 0, SRP_ENTRY_FILTER = 1, SRP_ENTRY_FORWARD = 2 };

/* Applicants (IEEE 802.1Q, Table 10-3): what a port has still to say of a declaration. */
enum srp_applicant {
    SRP_APPLICANT_NONE = 0, /* there is no declaration */
    SRP_APPLICANT_VP = 1,   /* Join, twice */
    SRP_APPLICANT_VN = 2,   /* New, twice: its content is another than before */
    SRP_APPLICANT_AN = 3,   /* New, once more */
    SRP_APPLICANT_AA = 4,   /* Join, once more */
    SRP_APPLICANT_QA = 5,   /* nothing, until a LeaveAll or a neighbour that lacks it asks for it */
    SRP_APPLICANT_LA = 6    /* Lv, once: it is withdrawn */
};

/*
 * What a report tells beside its number. Of the last five there is a stream where the place is below the count; at the count itself
 * they are 0.
 */
struct srp_reported {
    uint64_t count;    /* streams held now: one that is registered nowhere is held until its Lv is written */
    uint64_t total_a;  /* of the port, in bits per second: what class A has reserved, by the last advance */
    uint64_t limit_a;  /* and its limit, by the settings */
    uint64_t total_b;  /* the same of class B, which may use what class A leaves: it can be above limit_b */
    uint64_t limit_b;
    uint64_t id;       /* StreamID */
    uint64_t column;   /* enum srp_column: the Talker declared on the port */
    uint64_t code;     /* enum srp_code, or another octet that was relayed; 0 where the column is not SRP_COLUMN_FAILED */
    uint64_t listener; /* enum srp_listener: the Listener declared on the port */
    uint64_t entry;    /* enum srp_entry: what the port does with the stream's frames */
};

/*
 * Starts a bridge in the table, whatever stands there: no streams, clock 0. Refused with 12 for its length only, then 11.
 */
uint8_t srp_start(uint8_t *table, size_t table_length, const uint8_t *settings, size_t settings_length);

/*
 * Takes a PDU that arrived on a port, numbered from 1: all of its events are applied, or it is refused with 12, 1, 2 to 7 (the first
 * from the front), 8. The PDU begins with ProtocolVersion, behind the EtherType.
 */
uint8_t srp_receive(uint8_t *table, size_t table_length, uint32_t port, const uint8_t *pdu, size_t pdu_length);

/*
 * Takes an MMRP PDU that arrived on a port: all of its events are applied to the MAC addresses that the port holds, or it is refused
 * with 12, 1, 2 to 7 (the first from the front), 14. With talkerPruning in the settings a Talker goes only to ports that hold its
 * destination.
 */
uint8_t srp_receive_mmrp(uint8_t *table, size_t table_length, uint32_t port, const uint8_t *pdu, size_t pdu_length);

/*
 * Sets the clock, in hundredths of a second, removes what has left, and decides what every port admits. Refused with 12, 9.
 */
uint8_t srp_advance(uint8_t *table, size_t table_length, uint32_t time);

/*
 * Writes into the buffer a PDU of what a port has to say, from a place of its declarations on: its length, and the place to go on
 * from. Places count from 0 and by all declarations, those that have been said and those whose Lv has not too. Octets of the buffer
 * past the length stay. The table changes with it: what is written counts as sent, so that it is said once more or not at all, and a
 * declaration whose Lv is written is gone. A due LeaveAll goes out with the port's first write, from whatever place, and what the port
 * has registered begins to leave.
 *
 * A port's pass begins at place 0 and goes on by the next places, which may stay or fall, to a PDU of SRP_PDU_EMPTY octets: it says
 * that nothing is left, and is not sent. Refused with 12, 1, 10, 13.
 */
uint8_t srp_write(uint8_t *table, size_t table_length, uint32_t port, uint32_t place, uint8_t *buffer, size_t buffer_length,
                  size_t *length, size_t *next);

/*
 * Reports the streams held, a port's totals and limits, and the stream at a place, which counts from 0 by ascending StreamID, as the
 * last advance left it on that port. Refused with 12, 1, 13.
 */
uint8_t srp_report(const uint8_t *table, size_t table_length, uint32_t port, uint32_t place, struct srp_reported *reported);

/* What why tells beside its number. */
struct srp_explained {
    uint64_t step;      /* the letter of the deciding step in ASCII, 'a' to 'n'; 0 where the call is refused */
    uint64_t count;     /* for step 'h', which gives code 1: how many streams are listed; 0 for all others, as the next two are */
    uint64_t limit;     /* the limit in force, in bits per second */
    uint64_t shortfall; /* what the demand is above what is left of it, at least 1 */
};

/*
 * Tells which step would decide the column of a stream on a port in an advance to the held clock, from what is registered now. For
 * step 'h' the buffer has the more important streams that reserve there, most important first: 8 octets of StreamID and 8 of demand in
 * bits per second each, most significant octet first. Octets past the list stay. It takes a buffer of SRP_LIST octets. Refused with 12,
 * 1, 15, 10.
 */
uint8_t srp_why(const uint8_t *table, size_t table_length, uint64_t id, uint32_t port, uint8_t *buffer, size_t buffer_length,
                struct srp_explained *explained);

/*
 * Settings as numbers. srp_put_settings lays them out in octets for srp_start, which checks them: what it refuses with 11 is what
 * docs/TABLE.md says of settings.
 */
struct srp_port_settings {
    uint8_t supports_a;     /* 1 where the port supports class A, else 0 */
    uint8_t supports_b;     /* the same of class B */
    uint8_t sends_twice;    /* 1 where it sends each frame twice */
    uint8_t overhead;       /* octets that each frame has beside what MaxFrameSize counts */
    uint16_t largest_frame; /* octets */
    uint64_t limit_a;       /* bits per second, below 2^40 */
    uint64_t limit_b;
    uint32_t latency_a;     /* nanoseconds */
    uint32_t latency_b;
};

struct srp_settings {
    uint64_t bridge_id;
    uint8_t ports;        /* 1 to SRP_PORTS */
    uint8_t priority_a;   /* 0 to 7, and different */
    uint8_t priority_b;
    uint16_t leave_time;  /* hundredths of a second, 1 to 16,383 */
    uint8_t pruning;      /* 1 where a Talker goes only to ports that hold its destination */
    uint16_t vlan;        /* of the Domain declarations, 1 to 4,094 */
    uint8_t fan_in_limit; /* msrpMaxFanInPorts, 0 to 8; 0 means no limit */
    struct srp_port_settings port[SRP_PORTS];
};

/* Puts a number into so many octets, most significant first. Gives the place behind it. */
static inline uint8_t *srp_put_number(uint8_t *at, uint64_t number, unsigned octets) {
    unsigned place;

    for (place = octets; place > 0; place--) {
        at[place - 1] = (uint8_t)(number & 0xFF);
        number >>= 8;
    }
    return at + octets;
}

/* The number in so many octets. */
static inline uint64_t srp_number_at(const uint8_t *at, unsigned octets) {
    uint64_t number = 0;
    unsigned place;

    for (place = 0; place < octets; place++) number = number << 8 | at[place];
    return number;
}

/* Whether the numbers of a port's settings fit their fields. */
static inline int srp_port_fits(const struct srp_port_settings *port) {
    return port->supports_a <= 1 && port->supports_b <= 1 && port->sends_twice <= 1 && port->limit_a >> 40 == 0 && port->limit_b >> 40 == 0;
}

static inline uint8_t *srp_put_port(uint8_t *at, const struct srp_port_settings *port) {
    at = srp_put_number(at, (uint64_t)port->supports_a << 7 | (uint64_t)port->supports_b << 6 | (uint64_t)port->sends_twice << 5, 1);
    at = srp_put_number(at, port->overhead, 1);
    at = srp_put_number(at, port->largest_frame, 2);
    at = srp_put_number(at, port->limit_a, 5);
    at = srp_put_number(at, port->limit_b, 5);
    at = srp_put_number(at, port->latency_a, 4);
    return srp_put_number(at, port->latency_b, 4);
}

/* Whether the numbers of settings fit their fields. */
static inline int srp_settings_fit(const struct srp_settings *settings) {
    unsigned port;

    if (settings->ports > SRP_PORTS || settings->priority_a > 7 || settings->priority_b > 7 || settings->leave_time > 16383 ||
        settings->pruning > 1 || settings->vlan > 4095)
        return 0;
    for (port = 0; port < settings->ports; port++)
        if (!srp_port_fits(&settings->port[port])) return 0;
    return 1;
}

/*
 * Lays settings out in a room of SRP_SETTINGS(SRP_PORTS) octets. Gives their length, for srp_start; 0, which start refuses with 11,
 * where a number is above its field.
 */
static inline size_t srp_put_settings(uint8_t *room, const struct srp_settings *settings) {
    uint8_t *at = room;
    unsigned port;

    if (!srp_settings_fit(settings)) return 0;
    at = srp_put_number(at, settings->bridge_id, 8);
    at = srp_put_number(at, (uint64_t)settings->ports << 20 | (uint64_t)settings->priority_a << 17 |
                                (uint64_t)settings->priority_b << 14 | settings->leave_time, 3);
    at = srp_put_number(at, (uint64_t)settings->pruning << 15 | settings->vlan, 2);
    at = srp_put_number(at, settings->fan_in_limit, 1);
    for (port = 0; port < settings->ports; port++) at = srp_put_port(at, &settings->port[port]);
    return (size_t)(at - room);
}

/*
 * What hardware is told, read from the table at its place. These functions test nothing and cost a few instructions each, where a
 * report tests the whole table. The table is one that calls have left. Ports count from 1 and places from 0, below srp_held; past
 * SRP_PORTS or SRP_STREAMS they give 0. All of it is what the last advance decided.
 *
 * The places are those of docs/TABLE.md: first those in the table and in a port's sender, then those in a stream's record, in its
 * result of a port and in what the port sends of it.
 */
#define SRP_AT_CLOCK 190
#define SRP_AT_HELD 194
#define SRP_AT_TOTALS 195
#define SRP_AT_TOTALS_NEXT 11
#define SRP_AT_TOTALS_B 5
#define SRP_AT_SENDERS 7475
#define SRP_AT_SENDERS_NEXT 21
#define SRP_AT_LEAVE_ALL 16
#define SRP_AT_LEAVE_ALL_SINCE 17
#define SRP_AT_STREAMS 7643
#define SRP_AT_STREAMS_NEXT 901
#define SRP_AT_STREAM_ID 0
#define SRP_AT_DESTINATION 8
#define SRP_AT_VLAN 14
#define SRP_AT_PRIORITY 20
#define SRP_AT_RESULTS 365
#define SRP_AT_RESULTS_NEXT 20
#define SRP_AT_COLUMN 0
#define SRP_AT_ENTRY 14
#define SRP_AT_SENDS 525
#define SRP_AT_SENDS_NEXT 47
#define SRP_AT_SENT_ADVERTISE 0
#define SRP_AT_SENT_FAILED 18
#define SRP_AT_SENT_LISTENER 45

/* The clock, in hundredths of a second. */
static inline uint32_t srp_clock(const uint8_t *table) { return (uint32_t)srp_number_at(table + SRP_AT_CLOCK, 4); }

/* The streams held. */
static inline uint32_t srp_held(const uint8_t *table) { return table[SRP_AT_HELD]; }

/* Bits per second that a class has reserved on a port. */
static inline uint64_t srp_total_a(const uint8_t *table, uint32_t port) {
    return port - 1 < SRP_PORTS ? srp_number_at(table + SRP_AT_TOTALS + SRP_AT_TOTALS_NEXT * (port - 1), 5) : 0;
}

static inline uint64_t srp_total_b(const uint8_t *table, uint32_t port) {
    return port - 1 < SRP_PORTS ? srp_number_at(table + SRP_AT_TOTALS + SRP_AT_TOTALS_NEXT * (port - 1) + SRP_AT_TOTALS_B, 6) : 0;
}

/* A number of so many octets in the record of the stream at a place. */
static inline uint64_t srp_of_stream(const uint8_t *table, uint32_t place, uint32_t at, unsigned octets) {
    return place < SRP_STREAMS ? srp_number_at(table + SRP_AT_STREAMS + SRP_AT_STREAMS_NEXT * place + at, octets) : 0;
}

static inline uint64_t srp_stream_id(const uint8_t *table, uint32_t place) { return srp_of_stream(table, place, SRP_AT_STREAM_ID, 8); }

/* Destination, VLAN and priority of a stream's frames; 0 where the last advance found no Talker. */
static inline uint64_t srp_destination(const uint8_t *table, uint32_t place) {
    return srp_of_stream(table, place, SRP_AT_DESTINATION, 6);
}

static inline uint32_t srp_vlan(const uint8_t *table, uint32_t place) { return (uint32_t)srp_of_stream(table, place, SRP_AT_VLAN, 2); }

static inline uint32_t srp_priority(const uint8_t *table, uint32_t place) {
    return (uint32_t)srp_of_stream(table, place, SRP_AT_PRIORITY, 1) >> 5;
}

/* An octet of a stream's result on a port. */
static inline uint32_t srp_of_result(const uint8_t *table, uint32_t port, uint32_t place, uint32_t at) {
    return port - 1 < SRP_PORTS ? (uint32_t)srp_of_stream(table, place, SRP_AT_RESULTS + SRP_AT_RESULTS_NEXT * (port - 1) + at, 1) : 0;
}

/* enum srp_column: the Talker declared on a port. */
static inline uint32_t srp_column_at(const uint8_t *table, uint32_t port, uint32_t place) {
    return srp_of_result(table, port, place, SRP_AT_COLUMN);
}

/* enum srp_entry: what a port does with the stream's frames. */
static inline uint32_t srp_entry_at(const uint8_t *table, uint32_t port, uint32_t place) {
    return srp_of_result(table, port, place, SRP_AT_ENTRY);
}

/*
 * What a port has still to say, of which only a write makes use: whether a LeaveAll is due, and the clock from which the next one's
 * 1,000 hundredths count.
 */
static inline uint32_t srp_leave_all_due(const uint8_t *table, uint32_t port) {
    return port - 1 < SRP_PORTS ? table[SRP_AT_SENDERS + SRP_AT_SENDERS_NEXT * (port - 1) + SRP_AT_LEAVE_ALL] : 0;
}

static inline uint32_t srp_leave_all_since(const uint8_t *table, uint32_t port) {
    const uint8_t *senders = table + SRP_AT_SENDERS;

    return port - 1 < SRP_PORTS ? (uint32_t)srp_number_at(senders + SRP_AT_SENDERS_NEXT * (port - 1) + SRP_AT_LEAVE_ALL_SINCE, 4) : 0;
}

/* An octet of what a port sends of a stream. */
static inline uint32_t srp_of_sends(const uint8_t *table, uint32_t port, uint32_t place, uint32_t at) {
    return port - 1 < SRP_PORTS ? (uint32_t)srp_of_stream(table, place, SRP_AT_SENDS + SRP_AT_SENDS_NEXT * (port - 1) + at, 1) : 0;
}

/* enum srp_applicant: of the Talker Advertise, the Talker Failed and the Listener. */
static inline uint32_t srp_advertise_applicant(const uint8_t *table, uint32_t port, uint32_t place) {
    return srp_of_sends(table, port, place, SRP_AT_SENT_ADVERTISE);
}

static inline uint32_t srp_failed_applicant(const uint8_t *table, uint32_t port, uint32_t place) {
    return srp_of_sends(table, port, place, SRP_AT_SENT_FAILED);
}

static inline uint32_t srp_listener_applicant(const uint8_t *table, uint32_t port, uint32_t place) {
    return srp_of_sends(table, port, place, SRP_AT_SENT_LISTENER);
}

#ifdef __cplusplus
}
#endif

#endif
