/*
 * What srp.h lays out and reads by itself, held against the calls: settings that srp_put_settings made are those of the octets by
 * hand, and are refused where their numbers are wrong; what the inline functions read of every stream on every port is what a report
 * tells, what frames asked for, and what writes have still to say. Prints how many were as told, or the first that was not.
 */
#include <stdio.h>
#include <stdlib.h>
#include <string.h>

#include "srp.h"

#define TALKER 25

static uint8_t table[SRP_TABLE], room[SRP_SETTINGS(SRP_PORTS)];
static struct srp_settings settings;
static unsigned shown;

static void expect(const char *what, uint64_t given, uint64_t told) {
    if (given != told) {
        printf("readers: %s: %llu, and %llu is told\n", what, (unsigned long long)given, (unsigned long long)told);
        exit(1);
    }
    shown++;
}

/* A bridge of so many ports, each with another limit. */
static void choose(unsigned ports) {
    unsigned port;

    memset(&settings, 0, sizeof settings);
    settings.bridge_id = 0x8000000000000007u;
    settings.ports = (uint8_t)ports;
    settings.priority_a = 3;
    settings.priority_b = 2;
    settings.leave_time = 0x1234;
    settings.vlan = 0x567;
    settings.fan_in_limit = 8;
    for (port = 0; port < ports; port++) {
        struct srp_port_settings *one = &settings.port[port];
        one->supports_a = one->supports_b = 1;
        one->sends_twice = port == 1;
        one->overhead = 42;
        one->largest_frame = 1522;
        one->limit_a = 400000000u + port;
        one->limit_b = ((uint64_t)1 << 40) - 1 - port;
        one->latency_a = 0x01020304;
        one->latency_b = 0x05060708;
    }
}

static unsigned start(void) { return srp_start(table, SRP_TABLE, room, srp_put_settings(room, &settings)); }

static void octets_of_settings(void) {
    static const uint8_t expected[SRP_SETTINGS(2)] = {
        0x80, 0, 0, 0, 0, 0, 0, 7, 0x26, 0x92, 0x34, 0x85, 0x67, 8,
        0xC0, 42, 0x05, 0xF2, 0x00, 0x17, 0xD7, 0x84, 0x00, 0xFF, 0xFF, 0xFF, 0xFF, 0xFF, 1, 2, 3, 4, 5, 6, 7, 8,
        0xE0, 42, 0x05, 0xF2, 0x00, 0x17, 0xD7, 0x84, 0x01, 0xFF, 0xFF, 0xFF, 0xFF, 0xFE, 1, 2, 3, 4, 5, 6, 7, 8,
    };

    choose(2);
    settings.pruning = 1;
    expect("length of settings", srp_put_settings(room, &settings), SRP_SETTINGS(2));
    expect("octets of settings", (uint64_t)(memcmp(room, expected, sizeof expected) != 0), 0);
    expect("start", start(), SRP_ACCEPTED);
    choose(SRP_PORTS);
    expect("start of all ports", start(), SRP_ACCEPTED);
}

/* Each number that is wrong, or above its field, is one that start refuses; the next one is chosen from good settings. */
static void wrong_settings(void) {
    unsigned which;

    for (which = 0; which < 12; which++) {
        choose(3);
        switch (which) {
            case 0: settings.ports = 0; break;
            case 1: settings.ports = SRP_PORTS + 1; break;
            case 2: settings.ports = 16 + 3; break;
            case 3: settings.priority_b = settings.priority_a; break;
            case 4: settings.priority_a = 8 + 3; break;
            case 5: settings.leave_time = 0; break;
            case 6: settings.leave_time = 0x4000 + 60; break;
            case 7: settings.vlan = 0; break;
            case 8: settings.vlan = 4096 + 2; break;
            case 9: settings.fan_in_limit = 9; break;
            case 10: settings.port[2].limit_a = (uint64_t)1 << 40; break;
            default: settings.port[0].sends_twice = 2; break;
        }
        expect("start of wrong settings", start(), SRP_REFUSED_SETTINGS);
    }
}

/* Puts a Message of one vector into a PDU, behind its version and before its EndMark. Gives its length. */
static size_t pdu_of(uint8_t *pdu, uint8_t type, const uint8_t *first, uint8_t length, const uint8_t *events, size_t count, unsigned values) {
    uint8_t *at = pdu;

    *at++ = 0;
    *at++ = type;
    *at++ = length;
    at = srp_put_number(at, 2u + length + count + 2u, 2);
    at = srp_put_number(at, values, 2);
    memcpy(at, first, length);
    memcpy(at + length, events, count);
    at += length + count;
    return (size_t)(srp_put_number(at, 0, 4) - pdu);
}

static void join(uint32_t port, uint8_t type, const uint8_t *first, uint8_t length, const uint8_t *events, size_t count, unsigned values) {
    uint8_t pdu[SRP_PDU];

    expect("join", srp_receive(table, SRP_TABLE, port, pdu, pdu_of(pdu, type, first, length, events, count, values)), SRP_ACCEPTED);
}

/* Half of the streams in each class: Talkers on port 1, of which the last is on port 2, and Listeners on all others. */
static void fill(void) {
    static const uint8_t domain[4] = {5, 2, 0x05, 0x67}, join_mt[1] = {108}, joins_mt[1] = {126}, kind[2] = {108, 0x80};
    uint8_t talker[TALKER];
    uint32_t port, stream;

    choose(SRP_PORTS);
    expect("start", start(), SRP_ACCEPTED);
    for (port = 1; port <= SRP_PORTS; port++) join(port, 4, domain, 4, joins_mt, 1, 2);
    for (stream = 0; stream < SRP_STREAMS; stream++) {
        uint8_t *at = srp_put_number(talker, 0x0200000000010000u + stream, 8);
        at = srp_put_number(at, 0x91E0F0000000u + stream, 6);
        at = srp_put_number(at, 2 + stream % 3, 2);
        at = srp_put_number(at, 224, 2);
        at = srp_put_number(at, 1, 2);
        at = srp_put_number(at, stream % 2 ? 0x70 : 0x50, 1);
        srp_put_number(at, 0, 4);
        join(stream == SRP_STREAMS - 1 ? 2 : 1, 1, talker, TALKER, join_mt, 1, 1);
        for (port = 3; port <= SRP_PORTS; port++)
            if ((stream + port) % 3) join(port, 3, talker, 8, kind, 2, 1);
    }
    expect("advance", srp_advance(table, SRP_TABLE, 1234), SRP_ACCEPTED);
}

static void as_reported(uint32_t port, uint32_t place) {
    struct srp_reported told;

    expect("report", srp_report(table, SRP_TABLE, port, place, &told), SRP_ACCEPTED);
    expect("streams held", srp_held(table), told.count);
    expect("total of class A", srp_total_a(table, port), told.total_a);
    expect("total of class B", srp_total_b(table, port), told.total_b);
    expect("StreamID", srp_stream_id(table, place), told.id);
    expect("column", srp_column_at(table, port, place), told.column);
    expect("entry", srp_entry_at(table, port, place), told.entry);
}

static void read_all(void) {
    uint32_t port, place;
    unsigned forwards = 0;

    expect("clock", srp_clock(table), 1234);
    for (place = 0; place < SRP_STREAMS; place++) {
        expect("destination", srp_destination(table, place), 0x91E0F0000000u + place);
        expect("VLAN", srp_vlan(table, place), 2 + place % 3);
        expect("priority", srp_priority(table, place), place % 2 ? 3 : 2);
        for (port = 1; port <= SRP_PORTS; port++) {
            as_reported(port, place);
            if (srp_entry_at(table, port, place) == SRP_ENTRY_FORWARD) forwards++;
        }
    }
    expect("some forward", forwards > 100, 1);
    expect("class A reserves", srp_total_a(table, 3) > 0 && srp_total_b(table, 3) > 0, 1);
    expect("past the ports", srp_total_a(table, 0) + srp_total_b(table, SRP_PORTS + 1) + srp_entry_at(table, 0, 0), 0);
    expect("past the streams", srp_stream_id(table, SRP_STREAMS) + srp_entry_at(table, 1, SRP_STREAMS), 0);
}

/* The Applicants of every stream on a port; a Listener is declared where its Talker is. */
static void applicants(uint32_t port, uint32_t applicant) {
    uint32_t place;

    for (place = 0; place < SRP_STREAMS; place++) {
        const uint32_t column = srp_column_at(table, port, place);
        expect("Advertise's", srp_advertise_applicant(table, port, place), column == SRP_COLUMN_ADVERTISE ? applicant : 0);
        expect("Failed's", srp_failed_applicant(table, port, place), column == SRP_COLUMN_FAILED ? applicant : 0);
        expect("Listener's", srp_listener_applicant(table, port, place) != 0, column == SRP_COLUMN_NONE);
    }
}

/* All that a port has to say. Gives its PDUs. */
static unsigned pass(uint32_t port) {
    static uint8_t buffer[SRP_PDU];
    size_t length = 0, next = 0;
    unsigned pdus = 0;

    for (;;) {
        expect("write", srp_write(table, SRP_TABLE, port, (uint32_t)next, buffer, SRP_PDU, &length, &next), SRP_ACCEPTED);
        if (length == SRP_PDU_EMPTY) return pdus;
        pdus++;
    }
}

/* At 12.34 s a LeaveAll is due on every port. The first pass sends it and what wasn't said yet, and the next two leave it quiet. */
static void said(void) {
    uint32_t port;

    for (port = 1; port <= SRP_PORTS; port++) {
        expect("LeaveAll is due", srp_leave_all_due(table, port), 1);
        expect("LeaveAll counts since", srp_leave_all_since(table, port), 1234);
        applicants(port, SRP_APPLICANT_VP);
    }
    expect("PDUs", pass(3) > 0, 1);
    expect("LeaveAll was sent", srp_leave_all_due(table, 3), 0);
    expect("LeaveAll of another port", srp_leave_all_due(table, 4), 1);
    expect("PDUs of two more passes", (pass(3) > 0) + 2 * pass(3), 1);
    applicants(3, SRP_APPLICANT_QA);
    applicants(4, SRP_APPLICANT_VP);
    expect("past the ports", srp_leave_all_due(table, 0) + srp_leave_all_since(table, SRP_PORTS + 1), 0);
    expect("past the streams", srp_advertise_applicant(table, 3, SRP_STREAMS) + srp_listener_applicant(table, 0, 0), 0);
}

int main(void) {
    octets_of_settings();
    wrong_settings();
    fill();
    read_all();
    said();
    printf("readers: %u numbers are as told\n", shown);
    return 0;
}
