/*
 * srpcalls through the boundary: calls [FILE..] reads the records of docs/SRPCALLS.md, makes each call by srp.h, and prints the lines
 * that srpcalls prints. Without FILE the records are on standard input; else each file is a script of its own, with its name in a line
 * before its lines.
 */
#include <inttypes.h>
#include <setjmp.h>
#include <stdio.h>
#include <string.h>

#include "srp.h"

#define ROOM (SRP_TABLE + 64)
#define LONGEST 4096
#define BUFFER 2048
#define FILLING 0xA5
#define LISTED 16
#define PIECE 256
#define MODULUS 65521

static const char *const columns[] = {"none", "advertise", "failed"};
static const char *const listeners[] = {"none", "asking", "ready", "readyfailed"};
static const char *const entries[] = {"none", "filter", "forward"};

static uint8_t room[ROOM];
static size_t lent;
static uint8_t octets[65535];
static uint8_t buffer[BUFFER];
static FILE *input;
static jmp_buf stopped;

/* A record that the input cuts, or no record, ends the script. */
static void stop(void) {
    puts("stop");
    longjmp(stopped, 1);
}

static void fill(uint8_t *field, size_t length) {
    if (fread(field, 1, length, input) != length) stop();
}

/* A number of so many octets, most significant first. */
static uint32_t number(size_t length) {
    uint8_t field[4];
    uint32_t n = 0;
    size_t i;

    fill(field, length);
    for (i = 0; i < length; i++) n = n << 8 | field[i];
    return n;
}

/* Reads a length and so many octets; a call is handed no more than the longest. */
static size_t counted(void) {
    size_t length = number(2);

    fill(octets, length);
    return length < LONGEST ? length : LONGEST;
}

/* A space before octets in hex; nothing where there are none. */
static void print_octets(const uint8_t *from, size_t length) {
    size_t i;

    if (length > 0) putchar(' ');
    for (i = 0; i < length; i++) printf("%02x", (unsigned)from[i]);
    putchar('\n');
}

/* Fills the buffer, and reads the length that a call is lent of it. */
static size_t filled_buffer(void) {
    size_t length = number(2);

    memset(buffer, FILLING, sizeof buffer);
    return length < BUFFER ? length : BUFFER;
}

/* Whether the buffer is as it was filled past a length; then its octets before. */
static void print_buffer(size_t length) {
    size_t at;

    for (at = length; at < BUFFER && buffer[at] == FILLING; at++) {
    }
    printf(" %s", at == BUFFER ? "kept" : "spoiled");
    print_octets(buffer, length);
}

static void write_from(uint32_t port) {
    uint32_t place = number(2);
    size_t asked = filled_buffer(), length = 1, next = 1;
    unsigned given = srp_write(room, lent, port, place, buffer, asked, &length, &next);

    printf("write %u %zu %zu", given, length, next);
    print_buffer(length);
}

static void why_of(uint32_t port) {
    uint64_t high = number(4), id = high << 32 | number(4);
    size_t asked = filled_buffer();
    struct srp_explained told;
    unsigned given;

    memset(&told, 0xFF, sizeof told);
    given = srp_why(room, lent, id, port, buffer, asked, &told);
    printf("why %u ", given);
    if (told.step == 0) printf("none");
    else putchar((int)told.step);
    printf(" %" PRIu64 " %" PRIu64 " %" PRIu64, told.count, told.limit, told.shortfall);
    print_buffer(told.count * LISTED);
}

static void report_at(uint32_t port) {
    struct srp_reported told;
    unsigned given;

    memset(&told, 0xFF, sizeof told);
    given = srp_report(room, lent, port, number(2), &told);
    printf("report %u %" PRIu64 " %" PRIu64 " %" PRIu64 " %" PRIu64 " %" PRIu64, given, told.count, told.total_a, told.limit_a,
           told.total_b, told.limit_b);
    printf(" %016" PRIx64 " %s %" PRIu64 " %s %s\n", told.id, columns[told.column], told.code, listeners[told.listener],
           entries[told.entry]);
}

/* Stores an octet in the table's room; past it nothing happens. */
static void store(void) {
    size_t at = number(2);
    uint8_t octet = (uint8_t)number(1);

    if (at < ROOM) room[at] = octet;
}

static void lend(void) {
    size_t length = number(2);

    lent = length < ROOM ? length : ROOM;
}

/* Adds a piece of the table to both sums of Adler-32 (RFC 1950). Most are zeros, which add to the second alone. */
static void add_piece(size_t at, size_t length, uint32_t *a, uint32_t *b) {
    static const uint8_t zeros[PIECE];
    size_t i;

    if (memcmp(room + at, zeros, length) == 0) {
        *b += (uint32_t)length * *a;
    } else {
        for (i = at; i < at + length; i++) {
            *a += room[i];
            *b += *a;
        }
    }
    *a %= MODULUS;
    *b %= MODULUS;
}

static void print_sum(void) {
    uint32_t a = 1, b = 0;
    size_t at;

    for (at = 0; at < lent; at += PIECE) add_piece(at, lent - at < PIECE ? lent - at : PIECE, &a, &b);
    printf("table %08" PRIx32 "\n", b << 16 | a);
}

/* The rest of a record, by its first octet; the low digit is the port. */
static void take(unsigned kind) {
    uint32_t port = kind % 16;
    size_t length;

    if (kind == 0x00) {
        length = counted();
        printf("start %u\n", (unsigned)srp_start(room, lent, octets, length));
    } else if (kind / 16 == 1) {
        length = counted();
        printf("receive %u\n", (unsigned)srp_receive(room, lent, port, octets, length));
    } else if (kind / 16 == 7) {
        length = counted();
        printf("mmrp %u\n", (unsigned)srp_receive_mmrp(room, lent, port, octets, length));
    } else if (kind == 0x20) {
        printf("advance %u\n", (unsigned)srp_advance(room, lent, number(4)));
    } else if (kind / 16 == 3) {
        write_from(port);
    } else if (kind / 16 == 4) {
        report_at(port);
    } else if (kind / 16 == 8) {
        why_of(port);
    } else if (kind == 0x50) {
        store();
    } else if (kind == 0x51) {
        lend();
    } else if (kind == 0x60) {
        print_sum();
    } else if (kind == 0x61) {
        printf("octets");
        print_octets(room, lent);
    } else {
        stop();
    }
}

/* Makes the calls of a script, in a table of zeros. */
static void run_script(FILE *script) {
    int kind;

    input = script;
    memset(room, 0, sizeof room);
    lent = SRP_TABLE;
    if (setjmp(stopped) != 0) return;
    while ((kind = getc(input)) != EOF) take((unsigned)kind);
}

int main(int words, char **names) {
    FILE *script;
    int i;

    if (words < 2) run_script(stdin);
    for (i = 1; i < words; i++) {
        script = fopen(names[i], "rb");
        if (script == NULL) {
            perror(names[i]);
            return 2;
        }
        printf("script %s\n", names[i]);
        run_script(script);
        fclose(script);
    }
    return 0;
}
