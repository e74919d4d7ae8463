/*
 * The tick of docs/EMBEDDING.md, which stands in tick.h as it stands there, against two neighbours: a Talker on port 1, a Listener on
 * port 2. They join, answer each LeaveAll, and then the Talker falls silent. Prints what was seen, or the first that was not as told.
 */
#include <stdio.h>
#include <stdlib.h>
#include <string.h>

#include "tick.h"

#define PORTS 2
#define SILENT_FROM 2500
#define DESTINATION 0x91E0F0000001u
/* An octet of events with one Lv. */
#define LEAVES (5 * 36)

static const uint8_t domain[] = {0, 4, 4, 0, 9, 0, 2, 5, 2, 0, 2, 126, 0, 0, 0, 0};
static const uint8_t talker[] = {0,    1,    25,   0,    30, 0, 1, 2, 0, 0,   0, 0, 1,    0, 1, 0x91, 0xE0, 0xF0, 0,
                                 0,    1,    0,    2,    0,  224, 0, 1, 0x70, 0, 0, 0, 0, 108, 0, 0, 0, 0};
static const uint8_t listener[] = {0, 3, 8, 0, 14, 0, 1, 2, 0, 0, 0, 0, 1, 0, 1, 108, 0x80, 0, 0, 0, 0};

static struct product it;
static uint32_t now, entry_ports, told_ports, waiting[PORTS + 1];
static uint64_t shaped[PORTS + 1];
static unsigned leave_alls, declared, withdrawn, told_entries;

static void expect(const char *what, uint64_t given, uint64_t told) {
    if (given != told) {
        printf("tick: at %u, %s: %llu, and %llu is told\n", (unsigned)now, what, (unsigned long long)given, (unsigned long long)told);
        exit(1);
    }
}

/* A neighbour that has been asked declares what it has, one frame after the other. */
int next_frame(uint32_t *port, uint32_t *ethertype, const uint8_t **pdu, size_t *length) {
    for (*port = 1; *port <= PORTS; ++*port) {
        if (waiting[*port] == 0) continue;
        *ethertype = 0x22EA;
        if (waiting[*port] == 2) {
            *pdu = domain;
            *length = sizeof domain;
        } else {
            *pdu = *port == 1 ? talker : listener;
            *length = *port == 1 ? sizeof talker : sizeof listener;
        }
        waiting[*port]--;
        if (*port == 1 && now >= SILENT_FROM) continue;
        return 1;
    }
    return 0;
}

/* A LeaveAllEvent stands in the first vector, and an Lv of a stream in a PDU of its own: the two neighbours declare nothing else. */
void send_msrp(uint32_t port, const uint8_t *pdu, size_t length) {
    expect("a PDU that is sent has something to say", length > SRP_PDU_EMPTY, 1);
    if (pdu[5] >> 5 == 1) {
        leave_alls++;
        waiting[port] = 2;
    } else if (length == sizeof listener && pdu[1] == 3 && pdu[15] == LEAVES) {
        expect("port of the Listener's Lv", port, 1);
        withdrawn++;
    } else if (length == sizeof talker && pdu[1] == 1 && pdu[32] == LEAVES) {
        expect("port of the Talker's Lv", port, 2);
        withdrawn++;
    } else {
        declared++;
    }
}

void add_entry(uint64_t destination, uint32_t vlan, uint32_t priority, uint32_t ports) {
    expect("destination", destination, DESTINATION);
    expect("VLAN", vlan, 2);
    expect("priority", priority, 3);
    entry_ports |= ports;
    told_entries++;
}

void use_entries(void) {
    told_ports = entry_ports;
    entry_ports = 0;
}

void set_shaper(uint32_t port, uint64_t bits_per_second_a, uint64_t bits_per_second_b) {
    shaped[port] = bits_per_second_a;
    expect("class B's shaper", bits_per_second_b, 0);
}

static void start(void) {
    static uint8_t room[SRP_SETTINGS(SRP_PORTS)];
    struct srp_settings settings;
    unsigned port;

    memset(&settings, 0, sizeof settings);
    settings.ports = PORTS;
    settings.priority_a = 3;
    settings.priority_b = 2;
    settings.leave_time = 60;
    settings.vlan = 2;
    for (port = 0; port < PORTS; port++) {
        settings.port[port].supports_a = settings.port[port].supports_b = 1;
        settings.port[port].overhead = 42;
        settings.port[port].largest_frame = 1522;
        settings.port[port].limit_a = 75000000;
    }
    expect("start", srp_start(it.table, SRP_TABLE, room, srp_put_settings(room, &settings)), SRP_ACCEPTED);
    it.ports = PORTS;
}

int main(void) {
    start();
    waiting[1] = waiting[2] = 2;
    for (now = 5; now < 4000; now += 5) {
        const int is_held = now < 3060;

        expect("tick", tick(&it, now), SRP_ACCEPTED);
        expect("ports of the stream's entry", told_ports, is_held ? 1u << 2 : 0);
        expect("class A's shaper of port 2", shaped[2], is_held ? 17088000 : 0);
        expect("class A's shaper of port 1", shaped[1], 0);
        expect("what is withdrawn", withdrawn, is_held ? 0 : 2);
    }
    expect("refused", it.refused, 0);
    expect("LeaveAlls", leave_alls, 3 * PORTS);
    /* each port joins twice; the Domain values that answer a LeaveAll are joined once more, and the last is answered on port 2 alone */
    expect("PDUs of Joins", declared, 2 * PORTS + 2 * PORTS + 1);
    printf("tick: an entry in %u ticks, %u LeaveAlls, %u PDUs of Joins, %u Lvs\n", told_entries, leave_alls, declared, withdrawn);
    return 0;
}
