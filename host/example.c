/* A small host in C99, which is C++ as well: powers on, drives the journey of document 01's trials, and prints each
 * answer and each packet as it is read. */
#include "hollwern.h"
#include <stdio.h>
#include <string.h>

/* Segment 17/500, 100,000 long; stop 7001 at 40,000 with R 150; 7002 at 90,000, End of Journey. */
static const uint8_t journey[] = {0x1A, 0, 0, 0, 0, 0, 0, 0, 1, 0, 17, 0, 0, 0x01, 0xF4, 2,
                                  0x13, 0, 0, 0x1B, 0x59, 0, 0x43, 0, 0, 0x1B, 0x5A, 0};
static const uint8_t book[] = {0x0F, 0, 17, 0, 0, 0x01, 0xF4, 0, 0x01, 0x86, 0xA0, 2,
                               0, 0, 0x1B, 0x59, 0, 0, 0x9C, 0x40, 0, 150, 0, 0, 0x1B, 0x5A, 0, 0x01, 0x5F, 0x90, 0, 0};
/* The same journey, with the train held at 7001: byte 16 is that point's map; and with 7002 as a stop that trackside
 * skips: byte 22 is its map. */
static uint8_t held[sizeof journey], skipping[sizeof journey];
/* Two rows of slippery rail on that segment: from 30,000 to 45,000, and from 60,000 to 61,000. */
static uint8_t slippery[] = {HOLLWERN_KIND_ADHESION, 2,
                             0, 17, 0, 0, 0x01, 0xF4, 1, 2, 0, 0, 0x75, 0x30, 0, 0, 0xAF, 0xC8,
                             0, 17, 0, 0, 0x01, 0xF4, 3, 0, 0, 0, 0xEA, 0x60, 0, 0, 0xEE, 0x48};
static hollwern_engine engine;
static uint8_t out[HOLLWERN_BYTES_MOST];

static void show_row(hollwern_constraint c) {
    printf("  %u/%u category %u range %u from %u to %u\n", c.nidc, c.nidsp, c.category, c.range, c.start, c.end);
}

static void show_packet(const uint8_t *bytes, size_t n) {
    hollwern_packet_fields p = hollwern_read(bytes, n);
    if (!p.accepted) {
        printf("R %u\n", p.number);
        return;
    }
    hollwern_header h = p.header;
    printf("%u at %u/%u %u speed %u operational %08X:", p.kind, h.nidc, h.nidsp, h.offset, h.speed, h.operational);
    if (p.kind == HOLLWERN_PACKET_TIMING_POINT)
        printf(" point %u/%u qeoj %u alignment %u status %u stopping %u\n", p.nidc, p.nidtp, p.q_eoj_reached,
               p.alignment, p.status, p.stopping);
    else if (p.kind == HOLLWERN_PACKET_JP_RECEIVED)
        printf(" nidc %u atots %u date %u seconds %u counter %u status %u\n", p.nidc, p.atots, p.date, p.seconds,
               p.counter, p.status);
    else if (p.kind == HOLLWERN_PACKET_TRACTION_BRAKE)
        printf(" trabrrq %u locobrrq %u suptb %u rtbrq %d\n", p.m_ato_trabrrq, p.m_ato_locobrrq, p.q_ato_suptb,
               (int16_t)p.m_ato_rtbrq);
    else if (p.kind == HOLLWERN_PACKET_ADHESION_SYSTEM) {
        printf(" rows %u\n", p.constraint_count);
        for (uint8_t k = 0; k < p.constraint_count; k++) show_row(hollwern_read_constraint(bytes, n, k));
    } else
        printf(" state %u conditions %03X\n", p.state, p.conditions);
}

/* Lends so many bytes as the journey. What was written is for the recorder, accepted or refused. */
static void call_lending(const uint8_t *event, size_t n, const uint8_t *lent, size_t lent_n) {
    hollwern_answer a = hollwern_step(&engine, event, n, lent, lent_n, book, sizeof book, out, sizeof out);
    if (a.accepted)
        printf("A %u %u %zu\n", a.state, a.request, a.bytes);
    else
        printf("R %u %zu\n", a.number, a.bytes);
    for (size_t at = 0, size; at < a.bytes; at += size) {
        size = hollwern_front_size(out + at, a.bytes - at);
        for (size_t k = 0; k < size; k++) printf("%02X", out[at + k]);
        printf("\n");
        show_packet(out + at, size);
    }
}

static void call(const uint8_t *event, size_t n) { call_lending(event, n, journey, sizeof journey); }

static void call_kind(uint8_t kind) { call(&kind, 1); }

static void position(uint32_t offset, uint8_t speed) {
    const uint8_t event[] = {HOLLWERN_KIND_POSITION_REPORT, 0, 17, 0, 0, 0x01, 0xF4, 0, (uint8_t)(offset >> 16),
                             (uint8_t)(offset >> 8), (uint8_t)offset, 0, speed};
    call(event, sizeof event);
}

/* A request from -100 to 100, in two's complement; with it M_ATO_TraBrRq 20, M_ATO_LocoBrRq 0, Q_ATO_SupTB 1 and
 * M_ATO_RTBRq -2. */
static void traction(int8_t request) {
    const uint8_t event[] = {HOLLWERN_KIND_TRACTION, (uint8_t)request, 20, 0, 1, 0xFF, 0xFE};
    call(event, sizeof event);
}

static void show(void) {
    hollwern_shown s = hollwern_show(&engine);
    printf("state %u request %u conditions %03X points", s.state, s.request, s.conditions);
    for (uint8_t k = 0; k < s.point_count; k++) printf(" %u", s.standings[k]);
    printf("\n");
    for (uint8_t k = 0; k < s.constraint_count; k++) show_row(hollwern_show_constraint(&engine, k));
}

/* A packet 68 whose other bytes are 0, then what the reader refuses, and how each is cut. */
static void damaged_packets(void) {
    uint8_t packet[20] = {HOLLWERN_PACKET_ATO_STATUS};
    show_packet(packet, 19);
    show_packet(packet, 18); /* a byte short: 17 */
    printf("front %zu %zu %zu %zu\n", hollwern_front_size(packet, 20), hollwern_front_size(packet, 19),
           hollwern_front_size(packet, 18), hollwern_front_size(packet, 0));
    packet[18] = 8;
    show_packet(packet, 19); /* state 8: 19 */
    packet[0] = 63;
    show_packet(packet, 19); /* another number: 18 */
    printf("front %zu\n", hollwern_front_size(packet, 20));
}

int main(void) {
    const uint8_t all_reports[] = {HOLLWERN_KIND_REPORTS, 31};
    const uint8_t mode_ad[] = {HOLLWERN_KIND_MODE, HOLLWERN_MODE_AD};
    const uint8_t mode_other[] = {HOLLWERN_KIND_MODE, HOLLWERN_MODE_OTHER};
    const uint8_t load[] = {HOLLWERN_KIND_LOAD};
    const uint8_t dry[] = {HOLLWERN_KIND_ADHESION, 0};
    if (hollwern_version() != HOLLWERN_VERSION) {
        fprintf(stderr, "example: header and libhollwern.a are of different versions\n");
        return 1;
    }
    memcpy(held, journey, sizeof held);
    held[16] |= HOLLWERN_POINT_HELD;
    memcpy(skipping, journey, sizeof skipping);
    skipping[22] |= HOLLWERN_POINT_STOP | HOLLWERN_POINT_SKIPPED;
    hollwern_fresh(&engine);
    call_kind(HOLLWERN_KIND_POWER_ON);
    call_kind(HOLLWERN_KIND_POWER_ON); /* once more: refused */
    call_kind(HOLLWERN_KIND_LOAD);
    position(20000, 0);
    call(all_reports, sizeof all_reports);
    call_kind(HOLLWERN_KIND_CONFIGURED); /* P8 */
    call(slippery, sizeof slippery);     /* two rows: packet 64 */
    slippery[32] = 0;                    /* in the second one's end, so that its start exceeds it: */
    call(slippery, sizeof slippery);     /* refused by 21 */
    show();
    call_kind(HOLLWERN_KIND_PRESS);
    call(mode_ad, sizeof mode_ad); /* engaged */
    traction(20);                  /* the first request: packet 61, range 1 */
    traction(-27);                 /* still range 1: no packet */
    traction(-28);                 /* range 2: packet 61 */
    call(mode_other, sizeof mode_other);
    position(39900, 0); /* P7: the stop is reached */
    show();
    call_lending(load, 1, journey, sizeof journey - 1); /* a byte short: turned down by 9, and recorded */
    call_lending(load, 1, held, sizeof held);           /* the train is to be held: 7001 is targeted again */
    position(39900, 0);                                 /* reached again, and held: packets 62 with status 1 and 3 */
    call_kind(HOLLWERN_KIND_PRESS);                     /* refused by 20 */
    call_lending(load, 1, skipping, sizeof skipping);   /* held no longer, 7002 skipped: status 4 and 7 behind 65 */
    position(39900, 0);
    call_kind(HOLLWERN_KIND_PRESS); /* taken */
    position(40150, 50); /* a creep within R 150: still reached */
    position(40151, 50); /* beyond R: departed */
    position(90001, 50); /* P6: 7002 is passed */
    call(dry, sizeof dry); /* no row: packet 64 too */
    show();
    call(load, 1); /* 7002 is skipped no longer: a packet 62 with status 8, though it is put behind */
    damaged_packets();
    return 0;
}
