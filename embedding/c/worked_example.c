/*
 * The worked example of examples/worked-example by calls from C: a Talker on port 1, a Listener on port 2, what each port then says,
 * and the sheet that the bridge gives. docs/EMBEDDING.md tells how to build it.
 */
#include <inttypes.h>
#include <stdio.h>
#include <string.h>

#include "srp.h"

#define PORTS 2

/* Before the ports: Bridge ID; PORTS (4 bits), priorities 3 and 2 (3 and 3), leave time 60 (14); VLAN 2. The rest is 0. */
static const uint8_t head[SRP_SETTINGS_HEAD] = {0, 0, 0, 0, 0, 0, 0, 0, 0x26, 0x80, 0x3C, 0x00, 0x02};

/* Of each port: classes A and B; overhead 42; largest frame 1,522; limits 75,000,000 and 0; latencies 0 and 0. */
static const uint8_t port_settings[SRP_SETTINGS_PORT] = {0xC0, 42, 0x05, 0xF2, 0x00, 0x04, 0x78, 0x68, 0xC0};

/* The neighbour is in the bridge's domain: class B (5) with priority 2, class A (6) with priority 3. */
static const uint8_t domain[] = {0x00, 0x04, 0x04, 0x00, 0x09, 0x00, 0x02, 0x05, 0x02, 0x00, 0x02, 0x7E, 0x00, 0x00, 0x00, 0x00};

static const uint8_t talker[] = {0x00, 0x01, 0x19, 0x00, 0x1E, 0x00, 0x01, 0x02, 0x00, 0x00, 0x00, 0x00, 0x01,
                                 0x00, 0x01, 0x91, 0xE0, 0xF0, 0x00, 0xFE, 0x00, 0x00, 0x02, 0x00, 0xE0, 0x00,
                                 0x01, 0x70, 0x00, 0x00, 0x00, 0x00, 0x6C, 0x00, 0x00, 0x00, 0x00};

static const uint8_t listener[] = {0x00, 0x03, 0x08, 0x00, 0x0E, 0x00, 0x01, 0x02, 0x00, 0x00, 0x00,
                                   0x00, 0x01, 0x00, 0x01, 0x6C, 0x80, 0x00, 0x00, 0x00, 0x00};

static const char *const columns[] = {"none", "advertise", "failed"};
static const char *const listeners[] = {"none", "asking", "ready", "readyfailed"};
static const char *const entries[] = {"none", "filter", "forward"};

/* The bridge's whole state: here a static, since it is large for a stack. */
static uint8_t table[SRP_TABLE];

/* Where a product sends a PDU, behind EtherType 22-EA. */
static void send_pdu(uint32_t port, const uint8_t *pdu, size_t length) {
    (void)port;
    (void)pdu;
    (void)length;
}

/* All that a port has to say: PDU by PDU from place 0, until one says that nothing is left. */
static uint8_t write_port(uint32_t port) {
    static uint8_t buffer[SRP_PDU];
    size_t length, next = 0;
    uint8_t number;

    do {
        number = srp_write(table, sizeof table, port, (uint32_t)next, buffer, sizeof buffer, &length, &next);
        if (length > SRP_PDU_EMPTY) send_pdu(port, buffer, length);
    } while (length > SRP_PDU_EMPTY);
    return number;
}

/* The calls of the example, as far as the first that is refused. */
static uint8_t calls(void) {
    uint8_t settings[SRP_SETTINGS(PORTS)];
    uint8_t number;
    uint32_t port;

    memcpy(settings, head, sizeof head);
    for (port = 0; port < PORTS; port++) {
        memcpy(settings + SRP_SETTINGS(port), port_settings, sizeof port_settings);
    }
    number = srp_start(table, sizeof table, settings, sizeof settings);
    for (port = 1; port <= PORTS && number == SRP_ACCEPTED; port++) {
        number = srp_receive(table, sizeof table, port, domain, sizeof domain);
    }
    if (number == SRP_ACCEPTED) number = srp_receive(table, sizeof table, 1, talker, sizeof talker);
    if (number == SRP_ACCEPTED) number = srp_receive(table, sizeof table, 2, listener, sizeof listener);
    if (number == SRP_ACCEPTED) number = srp_advance(table, sizeof table, 100);
    for (port = 1; port <= PORTS && number == SRP_ACCEPTED; port++) number = write_port(port);
    return number;
}

int main(void) {
    struct srp_reported told;
    uint8_t number = calls();
    uint32_t port, place, count;

    if (number != SRP_ACCEPTED) {
        fprintf(stderr, "refused with %u\n", (unsigned)number);
        return 1;
    }
    for (port = 1; port <= PORTS; port++) {
        srp_report(table, sizeof table, port, 0, &told);
        printf("port %" PRIu32 " A %" PRIu64 "/%" PRIu64 " B %" PRIu64 "/%" PRIu64 "\n", port, told.total_a, told.limit_a, told.total_b,
               told.limit_b);
    }
    count = (uint32_t)told.count;
    for (place = 0; place < count; place++) {
        for (port = 1; port <= PORTS; port++) {
            srp_report(table, sizeof table, port, place, &told);
            printf("%016" PRIx64 " %" PRIu32 " %s %" PRIu64 " %s %s\n", told.id, port, columns[told.column], told.code,
                   listeners[told.listener], entries[told.entry]);
        }
    }
    return 0;
}
