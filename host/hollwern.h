/* hollwern.h: the on-board ATO core, for a host in C99 or C++ (Rust: hollwern.rs; Ada: hollwern.ads).
 *
 * For x86-64 Linux only: the toolchain writes the archive, libhollwern.a, for nothing else.
 *
 * The host keeps an engine in its own memory, hands over each event as bytes and gets the packets for the recorder as
 * bytes. INTERFACE.md (docs/, installed in share/doc/hollwern) has the layouts of events, journeys, books and packets,
 * a session worked in hexadecimal, and all application conditions. Each promise of a call is proved: in the repository,
 * crates/host/src/lib.rt has it as a contract.
 *
 * What the host must keep to:
 * - No pointer is null, also where its count is 0: for nothing to lend, pass any valid pointer, as the event's, and 0.
 *   Behind each pointer stand as many bytes as its count says, all of them set to something, also those of `out`.
 * - During a call nobody else writes what is lent, nor touches `out` or the engine of hollwern_fresh and hollwern_step
 *   at all; and these overlap neither each other nor anything else that is lent.
 * - Before the first hollwern_fresh an engine's memory is all zero (static storage, calloc, memset, `= {0}`): the calls
 *   take for granted that each flag in it is 0 or 1. The other calls come after it. From then on these calls alone
 *   change the engine; hollwern_fresh may be called again on any engine that they left.
 * - There is stack enough: HOLLWERN_STACK_LOAD.
 * Everything else is refused by number: any bytes, of any length, may be lent as event, journey, book and packet.
 *
 * What the host may rely on:
 * - No state is hidden and no pointer is kept: every call is reentrant. A host may have several engines, copy them, and
 *   use each from a thread of its own. Calls that take `const` pointers only may share what they are lent.
 * - Every call ends, and needs nothing but memcpy and memset.
 * - Equal calls on equal engines leave equal bytes: no byte of an engine is padding, memcmp and checksums are sound.
 *   Answer and packet fields do have padding: compare them field by field. */
#ifndef HOLLWERN_H
#define HOLLWERN_H

#if !defined(__x86_64__) || defined(__ILP32__) || !defined(__linux__)
#error "hollwern.h: libhollwern.a is for x86-64 Linux only"
#endif

#include <stdbool.h>
#include <stddef.h>
#include <stdint.h>

/* The version of these declarations; hollwern_version tells that of the archive. They must be equal. */
#define HOLLWERN_VERSION_MAJOR 2
#define HOLLWERN_VERSION_MINOR 3
#define HOLLWERN_VERSION_PATCH 0
#define HOLLWERN_VERSION (HOLLWERN_VERSION_MAJOR * 65536 + HOLLWERN_VERSION_MINOR * 256 + HOLLWERN_VERSION_PATCH)

/* Bytes of an engine; its alignment is 4. */
#define HOLLWERN_ENGINE_SIZE 3960
/* No event writes more bytes than this. */
#define HOLLWERN_BYTES_MOST 1673
/* The most points and segments of a journey, records of a book, points and zones of a record; and so the most bytes of
 * a journey and of a book that is not refused. */
#define HOLLWERN_POINTS_MOST 64
#define HOLLWERN_SEGMENTS_MOST 40
#define HOLLWERN_RECORDS_MOST 40
#define HOLLWERN_RECORD_POINTS_MOST 16
#define HOLLWERN_ZONES_MOST 4
#define HOLLWERN_JOURNEY_BYTES_MOST 768
#define HOLLWERN_BOOK_BYTES_MOST 8200
/* The most rows of kind 15 and of packet 64. */
#define HOLLWERN_CONSTRAINTS_MOST 31
/* Bytes of stack that a load (kind 11) takes, and any other call. Not proved, but the frames of the archive's functions
 * and 128 bytes for memcpy and memset, rounded up to 1,024: a test of the repository reads them and fails where these
 * differ. A program that binds memcpy and memset only at their first use runs the dynamic linker on the same stack
 * then, some 3 KiB more where it was measured: bind them before (-Wl,-z,now or -static), or provide for it. */
#define HOLLWERN_STACK_LOAD 30720
#define HOLLWERN_STACK_OTHER 2048

/* Event kinds: the first byte of an event. */
#define HOLLWERN_KIND_POWER_ON 1
#define HOLLWERN_KIND_CONFIGURED 2
#define HOLLWERN_KIND_POWER_OFF 3
#define HOLLWERN_KIND_FAULT 4
#define HOLLWERN_KIND_REPORTS 5
#define HOLLWERN_KIND_MODE 6
#define HOLLWERN_KIND_LEVER 7
#define HOLLWERN_KIND_PRESS 8
#define HOLLWERN_KIND_POSITION_REPORT 9
#define HOLLWERN_KIND_LENGTH 10
#define HOLLWERN_KIND_LOAD 11
#define HOLLWERN_KIND_SKIP 12
#define HOLLWERN_KIND_REVOKE 13
#define HOLLWERN_KIND_TRACTION 14 /* its first field is signed: the request, -100 to 100 */
#define HOLLWERN_KIND_ADHESION 15 /* a count, 0 to 31, and so many rows of 16 bytes: 2 + 16 * count bytes in all */

/* Kind 5: bits of the reports. */
#define HOLLWERN_REPORT_ETCS 1
#define HOLLWERN_REPORT_NO_EMERGENCY_BRAKE 2
#define HOLLWERN_REPORT_NO_INCONSISTENCY 4
#define HOLLWERN_REPORT_DATA_VALID 8
#define HOLLWERN_REPORT_TRAIN 16

/* Kind 6: ETCS mode. Kind 7: lever. */
#define HOLLWERN_MODE_OTHER 0
#define HOLLWERN_MODE_AD 1
#define HOLLWERN_LEVER_NEUTRAL 0
#define HOLLWERN_LEVER_TRACTION 1
#define HOLLWERN_LEVER_BRAKE 2

/* Kind 9 and headers: the offset that means undefined. */
#define HOLLWERN_OFFSET_UNDEFINED 16777215
/* NID_OPERATIONAL where there is no journey or it has none; NID_C in the content of packet 65 where the position is not
 * known; NID_ATOTS where the journey has none. */
#define HOLLWERN_NO_OPERATIONAL 4294967295u
#define HOLLWERN_UNKNOWN_NIDC 1024
#define HOLLWERN_NO_ATOTS 16384

/* Bit maps of a record, a journey and a journey's point: the bits that must be 1, together, and those that may be. */
#define HOLLWERN_RECORD_MAP 7
#define HOLLWERN_RECORD_POINTS 8
#define HOLLWERN_RECORD_ZONES 16
#define HOLLWERN_JOURNEY_MAP 26
#define HOLLWERN_JOURNEY_OPERATIONAL 1
#define HOLLWERN_JOURNEY_ATOTS 4
#define HOLLWERN_POINT_MAP 3
#define HOLLWERN_POINT_ALIGNMENT 4
#define HOLLWERN_POINT_STOPPING 8
#define HOLLWERN_POINT_STOP 16
#define HOLLWERN_POINT_SKIPPED 32 /* by trackside; with STOP only */
#define HOLLWERN_POINT_END 64     /* End of Journey */
#define HOLLWERN_POINT_HELD 128   /* by the dispatcher; with STOP only */

/* A journey's points and packet 62: what of the train counts at the point. */
#define HOLLWERN_ALIGNMENT_FRONT 0
#define HOLLWERN_ALIGNMENT_MIDDLE 1
#define HOLLWERN_ALIGNMENT_REAR 2

/* States. */
#define HOLLWERN_STATE_NP 0 /* no power */
#define HOLLWERN_STATE_CO 1 /* configuration */
#define HOLLWERN_STATE_NA 2 /* not available */
#define HOLLWERN_STATE_AV 3 /* available */
#define HOLLWERN_STATE_RE 4 /* ready */
#define HOLLWERN_STATE_EG 5 /* engaged */
#define HOLLWERN_STATE_DE 6 /* disengaging */
#define HOLLWERN_STATE_FA 7 /* failure */

/* Bits of the conditions. */
#define HOLLWERN_CONDITION_ETCS 1
#define HOLLWERN_CONDITION_NO_EMERGENCY_BRAKE 2
#define HOLLWERN_CONDITION_END_AHEAD 4     /* End of Journey neither reached nor passed */
#define HOLLWERN_CONDITION_LAST_AHEAD 8    /* last point not passed */
#define HOLLWERN_CONDITION_PROFILES 16     /* first point not passed is placed, or none is left */
#define HOLLWERN_CONDITION_NO_INCONSISTENCY 32
#define HOLLWERN_CONDITION_LOCATED 64      /* offset defined, in a segment of the journey */
#define HOLLWERN_CONDITION_OUTSIDE 128     /* of the inhibition zones */
#define HOLLWERN_CONDITION_DATA_VALID 256
#define HOLLWERN_ALL_CONDITIONS 511

/* Where a point of the journey stands. */
#define HOLLWERN_STANDING_UNUSED 0
#define HOLLWERN_STANDING_TARGETED 1
#define HOLLWERN_STANDING_REACHED 2
#define HOLLWERN_STANDING_PASSED 3

/* Packets: the first byte of each. */
#define HOLLWERN_PACKET_TRACTION_BRAKE 61
#define HOLLWERN_PACKET_TIMING_POINT 62
#define HOLLWERN_PACKET_ADHESION_SYSTEM 64
#define HOLLWERN_PACKET_JP_RECEIVED 65
#define HOLLWERN_PACKET_ATO_STATUS 68

/* Status in packet 62. */
#define HOLLWERN_STATUS_PASSED 0
#define HOLLWERN_STATUS_STOPPED 1
#define HOLLWERN_STATUS_DEPARTED 2
#define HOLLWERN_STATUS_HELD 3              /* behind that of STOPPED, where the stop is held */
#define HOLLWERN_STATUS_HOLD_REVOKED 4      /* by a load, while the held stop was reached */
#define HOLLWERN_STATUS_SKIPPED 5           /* by the driver */
#define HOLLWERN_STATUS_REVOKED 6           /* the driver's skip */
#define HOLLWERN_STATUS_TRACKSIDE_SKIP 7    /* by a load, where the journey before had the point unskipped */
#define HOLLWERN_STATUS_TRACKSIDE_REVOKED 8 /* by a load, where the journey before had it skipped */

/* Status in packet 65. */
#define HOLLWERN_JP_ACCEPTED 0
#define HOLLWERN_JP_TURNED_DOWN 1 /* a load that 7 to 12 refuse; the packet tells no stamp of it */

/* Why a call was refused: the first of these that holds, 20 being looked at right after 6 and 21 right after 2.
 * hollwern_step has 1 to 16, 20 and 21, hollwern_read 17 to 19. */
#define HOLLWERN_REFUSED_EVENT_FORM 1      /* event empty, of unknown kind or of wrong length */
#define HOLLWERN_REFUSED_EVENT_RANGE 2     /* field of the event out of its range */
#define HOLLWERN_REFUSED_NO_POWER 3        /* in NP, and not power on */
#define HOLLWERN_REFUSED_POWERED 4         /* power on, and not in NP */
#define HOLLWERN_REFUSED_FAULT 5           /* in FA, and not power off */
#define HOLLWERN_REFUSED_STATE 6           /* configured outside CO, or press outside RE */
#define HOLLWERN_REFUSED_BOOK_FORM 7       /* map, range or length of the book */
#define HOLLWERN_REFUSED_BOOK_TWICE 8      /* segment twice, NID_TP twice in a record, or over 40 records */
#define HOLLWERN_REFUSED_JOURNEY_FORM 9    /* map, range or length of the journey */
#define HOLLWERN_REFUSED_SEGMENT_TWICE 10  /* segment twice in the journey */
#define HOLLWERN_REFUSED_POINTS 11         /* index beyond, NID_TP twice, not just one end, or missing in its segment */
#define HOLLWERN_REFUSED_ORDER 12          /* index falls, or placed points do not strictly rise */
#define HOLLWERN_REFUSED_BEYOND 13         /* offset beyond the length of its segment, which is in journey and book */
#define HOLLWERN_REFUSED_NO_STOP 14        /* skip or revocation: no stop of that name */
#define HOLLWERN_REFUSED_SKIP 15           /* point reached or passed; skip given already, or none to revoke */
#define HOLLWERN_REFUSED_OUTPUT 16         /* `out` shorter than the event's packets */
#define HOLLWERN_REFUSED_PACKET_LENGTH 17  /* empty, or 61, 62, 64, 65 or 68 of wrong length */
#define HOLLWERN_REFUSED_PACKET_NUMBER 18  /* another number than 61, 62, 64, 65 and 68 */
#define HOLLWERN_REFUSED_PACKET_RANGE 19   /* field of the packet out of its range, or a reversed row */
#define HOLLWERN_REFUSED_HELD 20           /* press while a held stop is reached */
#define HOLLWERN_REFUSED_REVERSED 21       /* a row of the event whose start exceeds its end */

/* An engine. Only the calls below look inside. */
typedef struct hollwern_engine {
    uint32_t opaque[HOLLWERN_ENGINE_SIZE / 4];
} hollwern_engine;

/* What hollwern_step answers. `bytes`, accepted or refused: how many bytes it wrote, all of them for the recorder.
 * Accepted: `number` 0, state and request (whether AD is requested).
 * Refused: `number`; `bytes` is 29 for a load that is turned down, where that fits into `out`, else 0. State and
 * request are 0 and mean nothing: they stay as last answered. */
typedef struct hollwern_answer {
    bool accepted;
    uint8_t number;
    uint8_t state;
    bool request;
    size_t bytes;
} hollwern_answer;

/* What hollwern_show shows. `standings` goes by the order of the journey in force; from `point_count` on it is 0.
 * `constraint_count`: the rows that hollwern_show_constraint shows, those of the latest accepted kind 15 since power
 * off, else none. */
typedef struct hollwern_shown {
    uint8_t state;
    bool request;
    uint16_t conditions;
    uint8_t point_count;
    uint8_t standings[HOLLWERN_POINTS_MOST];
    uint8_t constraint_count;
} hollwern_shown;

/* A row of kind 15 and packet 64, a temporary constraint: a stretch of slippery rail. In the bytes the fields stand in
 * another order: NID_C, NID_SP, category, range, start, end. NID_C is 0 to 1,023. Start and end are in cm, counted as
 * SUBSET-126 says (7.3.6.2), each 0 to 16,777,215, start not above end; the unit compares them with each other alone.
 * Category and range are SUBSET-140's Q_Adhesion_Category and Q_Range, both free. */
typedef struct hollwern_constraint {
    uint32_t nidsp;
    uint32_t start;
    uint32_t end;
    uint16_t nidc;
    uint8_t category;
    uint8_t range;
} hollwern_constraint;

/* Header of a packet: NID_C, NID_SP, offset in cm, speed in cm/s, NID_OPERATIONAL. */
typedef struct hollwern_header {
    uint16_t nidc;
    uint32_t nidsp;
    uint32_t offset;
    uint16_t speed;
    uint32_t operational;
} hollwern_header;

/* What hollwern_read answers. Accepted: `number` 0, `kind` the packet's number, `size` its bytes, the header, and
 * - 62: nidc, nidtp, q_eoj_reached (0 once the End of Journey is reached or passed), alignment, status, stopping data;
 * - 65: nidc, atots, date, seconds, counter, status;
 * - 68: state, conditions;
 * - 61: m_ato_trabrrq, m_ato_locobrrq, q_ato_suptb, and m_ato_rtbrq, an INT16, as its unsigned 16 bits;
 * - 64: constraint_count, the number of its rows, which hollwern_read_constraint reads;
 * all else 0. Refused: `number`, all else 0. */
typedef struct hollwern_packet_fields {
    bool accepted;
    uint8_t number;
    uint8_t kind;
    size_t size;
    hollwern_header header;
    uint16_t nidc;
    uint32_t nidtp;
    uint8_t q_eoj_reached;
    uint8_t alignment;
    uint8_t status;
    uint8_t stopping;
    uint16_t atots;
    uint16_t date;
    uint32_t seconds;
    uint8_t counter;
    uint8_t state;
    uint16_t conditions;
    uint8_t m_ato_trabrrq;
    uint8_t m_ato_locobrrq;
    uint8_t q_ato_suptb;
    uint16_t m_ato_rtbrq;
    uint8_t constraint_count;
} hollwern_packet_fields;

#if defined(__cplusplus) && __cplusplus >= 201103L
#define HOLLWERN_ASSERT(name, fact) static_assert(fact, #name)
#elif defined(__STDC_VERSION__) && __STDC_VERSION__ >= 201112L
#define HOLLWERN_ASSERT(name, fact) _Static_assert(fact, #name)
#else
#define HOLLWERN_ASSERT(name, fact) typedef char hollwern_assert_##name[(fact) ? 1 : -1]
#endif
HOLLWERN_ASSERT(scalars, sizeof(bool) == 1 && sizeof(size_t) == 8);
HOLLWERN_ASSERT(engine, sizeof(hollwern_engine) == HOLLWERN_ENGINE_SIZE);
HOLLWERN_ASSERT(answer, sizeof(hollwern_answer) == 16 && offsetof(hollwern_answer, bytes) == 8);
HOLLWERN_ASSERT(shown, sizeof(hollwern_shown) == 70 && offsetof(hollwern_shown, constraint_count) == 69);
HOLLWERN_ASSERT(constraint, sizeof(hollwern_constraint) == 16 && offsetof(hollwern_constraint, range) == 15);
HOLLWERN_ASSERT(header, sizeof(hollwern_header) == 20 && offsetof(hollwern_header, operational) == 16);
HOLLWERN_ASSERT(packet_fields,
                sizeof(hollwern_packet_fields) == 72 && offsetof(hollwern_packet_fields, constraint_count) == 66);
#undef HOLLWERN_ASSERT

/* No pointer may be null: GCC and Clang warn where they see one. */
#ifdef __GNUC__
#define HOLLWERN_NONNULL __attribute__((nonnull))
#else
#define HOLLWERN_NONNULL
#endif

#ifdef __cplusplus
extern "C" {
#endif

/* The version of the archive, as HOLLWERN_VERSION. To be compared with it before any other call. */
uint32_t hollwern_version(void);

/* Makes the engine fresh: NP, no journey, no press, no request, offset undefined. To be called once before the first
 * event; power off leaves the same. The engine's memory is all zero before, or as these calls left it. */
HOLLWERN_NONNULL
void hollwern_fresh(hollwern_engine *e);

/* Takes one event.
 * Accepted: the engine moves on, and the event's packets stand at the front of `out`, `bytes` long; the bytes behind
 * them are kept.
 * Refused: `number` says why; the engine stays as it was, and any event may come next. `out` stays as it was too, but
 * for a load that is turned down, that is, refused by 7 to 12: its packet 65 of status 1 stands at the front of `out`,
 * 29 bytes long, and the bytes behind it are kept. Where `out` is shorter, nothing is written, by the same number.
 * `journey` and `book` count for kind 11 alone; with other kinds lend anything, as (event, 0). Event, journey and book
 * may overlap each other. Where `out` has HOLLWERN_BYTES_MOST bytes, no event is refused by 16, and every load that is
 * turned down is written. */
HOLLWERN_NONNULL
hollwern_answer hollwern_step(hollwern_engine *e, const uint8_t *event, size_t event_n,
                              const uint8_t *journey, size_t journey_n, const uint8_t *book, size_t book_n,
                              uint8_t *out, size_t out_n);

/* Shows an engine, always. State and request are those that the last accepted event answered. The last packet 68
 * carries the same state and conditions, as 16 times the conditions plus the state. */
HOLLWERN_NONNULL
hollwern_shown hollwern_show(const hollwern_engine *e);

/* Shows row `k`, from 0 on, of the latest accepted kind 15 since power off; from `constraint_count` on it is blank,
 * every field 0. */
HOLLWERN_NONNULL
hollwern_constraint hollwern_show_constraint(const hollwern_engine *e, size_t k);

/* The bytes of the packet in front of `n` bytes: all `n` where no packet has that number or fewer bytes are left than
 * it takes, a 64 by its count; 0 where `n` is 0, and only there. So cut, what a call wrote falls into its packets:
 *     for (at = 0; at < a.bytes; at += size) {
 *         size = hollwern_front_size(out + at, a.bytes - at);
 *         .. the packet is at out + at, size bytes long
 *     } */
HOLLWERN_NONNULL
size_t hollwern_front_size(const uint8_t *bytes, size_t n);

/* Reads one packet, exactly `n` bytes long. Accepted: its fields. Refused: 17, 18 or 19. Every packet that
 * hollwern_step wrote is accepted. */
HOLLWERN_NONNULL
hollwern_packet_fields hollwern_read(const uint8_t *bytes, size_t n);

/* Reads row `k`, from 0 on, of a packet 64; blank, every field 0, from `constraint_count` on, of another packet, and
 * where hollwern_read refuses the bytes. */
HOLLWERN_NONNULL
hollwern_constraint hollwern_read_constraint(const uint8_t *bytes, size_t n, size_t k);

#ifdef __cplusplus
}
#endif
#endif
