/*
 * What srp.h says of sizes, lengths and pointers, held against the archive: each size is the one that is accepted, one octet less or
 * more is refused by its number; so is no octet at NULL; a refusal leaves table and buffer, and puts 0 behind every pointer. Prints how
 * many were as told, or the first that was not.
 */
#include <stdio.h>
#include <stdlib.h>
#include <string.h>

#include "srp.h"

static uint8_t table[SRP_TABLE + 1], before[SRP_TABLE + 1];
static uint8_t buffer[SRP_PDU], settings[SRP_SETTINGS(SRP_PORTS + 1) + 1], pdu[SRP_PDU + 1];
static unsigned shown;

static void expect(const char *what, unsigned given, unsigned told) {
    if (given != told) {
        printf("limits: %s: %u, and srp.h tells %u\n", what, given, told);
        exit(1);
    }
    shown++;
}

static void expect_kept(const char *what) { expect(what, (unsigned)memcmp(table, before, sizeof table), 0); }

/* Settings of so many ports: classes A and B, priorities 3 and 2, leave time 60, VLAN 2. What stands before the ports is 0 else. */
static void set_ports(unsigned ports) {
    unsigned port;

    memset(settings, 0, sizeof settings);
    settings[8] = (uint8_t)(ports << 4 | 6);
    settings[9] = 0x80;
    settings[10] = 60;
    settings[12] = 2;
    for (port = 0; port < ports; port++) settings[SRP_SETTINGS(port)] = 0xC0;
}

static void lengths_of_settings(void) {
    unsigned ports;

    expect("start, no settings", srp_start(table, SRP_TABLE, NULL, 0), SRP_REFUSED_SETTINGS);
    for (ports = 1; ports <= SRP_PORTS; ports++) {
        set_ports(ports);
        expect("start, settings", srp_start(table, SRP_TABLE, settings, SRP_SETTINGS(ports)), SRP_ACCEPTED);
        memcpy(before, table, sizeof table);
        expect("start, short settings", srp_start(table, SRP_TABLE, settings, SRP_SETTINGS(ports) - 1), SRP_REFUSED_SETTINGS);
        expect("start, long settings", srp_start(table, SRP_TABLE, settings, SRP_SETTINGS(ports) + 1), SRP_REFUSED_SETTINGS);
        expect_kept("table after refused settings");
    }
    set_ports(SRP_PORTS + 1);
    expect("start, a port too many", srp_start(table, SRP_TABLE, settings, SRP_SETTINGS(SRP_PORTS + 1)), SRP_REFUSED_SETTINGS);
    set_ports(SRP_PORTS);
}

/* All calls on a table of a wrong length are refused with 12, whatever else they are handed. */
static void refused_table(uint8_t *at, size_t length) {
    struct srp_reported told, none;
    struct srp_explained why;
    size_t long_, next;

    memset(&told, 0xFF, sizeof told);
    memset(&none, 0, sizeof none);
    memset(&why, 0xFF, sizeof why);
    long_ = next = 1;
    expect("start, table", srp_start(at, length, settings, SRP_SETTINGS(SRP_PORTS)), SRP_REFUSED_TABLE);
    expect("receive, table", srp_receive(at, length, 1, pdu, SRP_PDU), SRP_REFUSED_TABLE);
    expect("receive_mmrp, table", srp_receive_mmrp(at, length, 1, pdu, SRP_PDU), SRP_REFUSED_TABLE);
    expect("advance, table", srp_advance(at, length, 0), SRP_REFUSED_TABLE);
    expect("write, table", srp_write(at, length, 1, 0, buffer, SRP_PDU, &long_, &next), SRP_REFUSED_TABLE);
    expect("length after 12", (unsigned)long_, 0);
    expect("next after 12", (unsigned)next, 0);
    expect("report, table", srp_report(at, length, 1, 0, &told), SRP_REFUSED_TABLE);
    expect("reported after 12", (unsigned)memcmp(&told, &none, sizeof told), 0);
    expect("why, table", srp_why(at, length, 0, 1, buffer, SRP_LIST, &why), SRP_REFUSED_TABLE);
    expect("explained after 12", (unsigned)memcmp(&why, &none, sizeof why), 0);
    expect_kept("table after 12");
}

static void lengths_of_pdus(void) {
    expect("receive, no PDU", srp_receive(table, SRP_TABLE, 1, NULL, 0), SRP_REFUSED_PDU_LENGTH);
    expect("receive, longest PDU", srp_receive(table, SRP_TABLE, 1, pdu, SRP_PDU), SRP_ACCEPTED);
    expect("receive, longer PDU", srp_receive(table, SRP_TABLE, 1, pdu, SRP_PDU + 1), SRP_REFUSED_PDU_LENGTH);
    expect("receive_mmrp, no PDU", srp_receive_mmrp(table, SRP_TABLE, 1, NULL, 0), SRP_REFUSED_PDU_LENGTH);
    expect("receive_mmrp, longest PDU", srp_receive_mmrp(table, SRP_TABLE, 1, pdu, SRP_PDU), SRP_ACCEPTED);
    expect("receive_mmrp, port above", srp_receive_mmrp(table, SRP_TABLE, SRP_PORTS + 1, pdu, SRP_PDU), SRP_REFUSED_PORT);
    expect("receive, port 0", srp_receive(table, SRP_TABLE, 0, pdu, SRP_PDU), SRP_REFUSED_PORT);
    expect("receive, last port", srp_receive(table, SRP_TABLE, SRP_PORTS, pdu, SRP_PDU), SRP_ACCEPTED);
    expect("receive, port above", srp_receive(table, SRP_TABLE, SRP_PORTS + 1, pdu, SRP_PDU), SRP_REFUSED_PORT);
}

/* Of a write the place told, past the declarations 13, and what it leaves of the table. A port that supports both classes declares a Domain value of each. */
static void buffers_and_places(void) {
    size_t long_, next;

    memset(buffer, 0xA5, sizeof buffer);
    memcpy(before, table, sizeof table);
    long_ = next = 1;
    expect("write, no buffer", srp_write(table, SRP_TABLE, 1, 0, NULL, 0, &long_, &next), SRP_REFUSED_BUFFER);
    expect("write, short buffer", srp_write(table, SRP_TABLE, 1, 0, buffer, SRP_PDU - 1, &long_, &next), SRP_REFUSED_BUFFER);
    expect("buffer after 10", buffer[0], 0xA5);
    expect("length after 10", (unsigned)long_, 0);
    expect("next after 10", (unsigned)next, 0);
    expect("write, past the declarations", srp_write(table, SRP_TABLE, 1, 3, buffer, SRP_PDU, &long_, &next), SRP_REFUSED_PLACE);
    expect_kept("table after refused writes");
    expect("write, place 0", srp_write(table, SRP_TABLE, 1, 0, buffer, SRP_PDU, &long_, &next), SRP_ACCEPTED);
    expect("next of place 0", (unsigned)next, 2);
    expect("table after a write is another", memcmp(table, before, sizeof table) != 0, 1);
    expect("buffer behind the PDU", buffer[long_], 0xA5);
    memcpy(before, table, sizeof table);
    expect("write, nothing left", srp_write(table, SRP_TABLE, 1, 2, buffer, SRP_PDU, &long_, &next), SRP_ACCEPTED);
    expect("length of nothing left", (unsigned)long_, SRP_PDU_EMPTY);
    expect("next of nothing left", (unsigned)next, 2);
    expect_kept("table after nothing was written");
}

/* Receives on port 1 a vector of Listeners that join: so many values, from a Unique ID on. */
static unsigned join(uint8_t values, uint8_t first) {
    static const uint8_t message[] = {0, 3, 8, 0, 0, 0, 0, 2, 0, 0, 0, 0, 1, 0, 0};
    size_t at = sizeof message, three = (values + 2u) / 3, four = (values + 3u) / 4;

    memset(pdu, 0, sizeof pdu);
    memcpy(pdu, message, sizeof message);
    pdu[6] = values;
    pdu[14] = first;
    /* JoinMt, and Ready */
    memset(pdu + at, 3 * 36 + 3 * 6 + 3, three);
    memset(pdu + at + three, 0xAA, four);
    at += three + four + 2;
    pdu[4] = (uint8_t)(at - 5);
    return srp_receive(table, SRP_TABLE, 1, pdu, at);
}

/* Receives on port 1 an MMRP vector of addresses that join: so many values, from a last octet on. */
static unsigned join_addresses(uint8_t values, uint8_t first) {
    static const uint8_t message[] = {0, 2, 6, 0, 0, 0x91, 0xE0, 0xF0, 0, 0, 0};
    size_t at = sizeof message, three = (values + 2u) / 3;

    memset(pdu, 0, sizeof pdu);
    memcpy(pdu, message, sizeof message);
    pdu[4] = values;
    pdu[10] = first;
    memset(pdu + at, 3 * 36 + 3 * 6 + 3, three);
    return srp_receive_mmrp(table, SRP_TABLE, 1, pdu, at + three + 2);
}

static void addresses(void) {
    expect("receive_mmrp, all addresses", join_addresses(SRP_ADDRESSES, 0), SRP_ACCEPTED);
    memcpy(before, table, sizeof table);
    expect("receive_mmrp, an address more", join_addresses(1, SRP_ADDRESSES), SRP_REFUSED_ADDRESSES);
    expect_kept("table after 14");
}

static void streams(void) {
    struct srp_reported told;

    expect("receive, all streams", join(SRP_STREAMS, 0), SRP_ACCEPTED);
    memcpy(before, table, sizeof table);
    expect("receive, a stream more", join(1, SRP_STREAMS), SRP_REFUSED_STREAMS);
    expect_kept("table after 8");
    expect("report, behind the last", srp_report(table, SRP_TABLE, 1, SRP_STREAMS, &told), SRP_ACCEPTED);
    expect("streams held", (unsigned)told.count, SRP_STREAMS);
    expect("report, past the streams", srp_report(table, SRP_TABLE, 1, SRP_STREAMS + 1, &told), SRP_REFUSED_PLACE);
    expect("count after 13", (unsigned)told.count, 0);
}

/* Of the Listeners that have joined, which have no Talker. */
static void whys(void) {
    static const uint64_t first = UINT64_C(0x0200000000010000);
    static const struct srp_explained none;
    struct srp_explained why;

    memset(buffer, 0xA5, sizeof buffer);
    expect("why", srp_why(table, SRP_TABLE, first, 1, buffer, SRP_LIST, &why), SRP_ACCEPTED);
    expect("step without a Talker", (unsigned)why.step, 'a');
    expect("streams listed", (unsigned)why.count, 0);
    expect("why, no buffer", srp_why(table, SRP_TABLE, first, 1, NULL, 0, &why), SRP_REFUSED_BUFFER);
    expect("why, short buffer", srp_why(table, SRP_TABLE, first, 1, buffer, SRP_LIST - 1, &why), SRP_REFUSED_BUFFER);
    expect("explained after 10", (unsigned)memcmp(&why, &none, sizeof why), 0);
    expect("why, another stream", srp_why(table, SRP_TABLE, first + SRP_STREAMS, 1, NULL, 0, &why), SRP_REFUSED_STREAM);
    expect("why, port 0", srp_why(table, SRP_TABLE, first + SRP_STREAMS, 0, NULL, 0, &why), SRP_REFUSED_PORT);
    expect("why, port above", srp_why(table, SRP_TABLE, first, SRP_PORTS + 1, buffer, SRP_LIST, &why), SRP_REFUSED_PORT);
    expect("buffer after why", buffer[0], 0xA5);
    expect_kept("table after why");
}

int main(void) {
    lengths_of_settings();
    expect("start", srp_start(table, SRP_TABLE, settings, SRP_SETTINGS(SRP_PORTS)), SRP_ACCEPTED);
    memcpy(before, table, sizeof table);
    refused_table(NULL, 0);
    refused_table(table, SRP_TABLE - 1);
    refused_table(table, SRP_TABLE + 1);
    lengths_of_pdus();
    buffers_and_places();
    addresses();
    streams();
    whys();
    expect("advance", srp_advance(table, SRP_TABLE, 100), SRP_ACCEPTED);
    expect("advance to an earlier time", srp_advance(table, SRP_TABLE, 99), SRP_REFUSED_TIME);
    expect("a report's length", (unsigned)sizeof(struct srp_reported), 10 * 8);
    expect("an explanation's length", (unsigned)sizeof(struct srp_explained), 4 * 8);
    printf("limits: %u answers as srp.h tells\n", shown);
    return 0;
}
