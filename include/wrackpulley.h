/*
 * wrackpulley.h: the gateway's side of the tHA protocol, for a host in C.
 *
 * The functions are those of crates/capi, in the archive crates/capi/out/libcapi.a (rt lib in crates/capi). Each is proved to do what
 * its definition says for every value of its arguments; none asks the caller to check anything first but what C itself asks: a
 * pointer points to at least as many bytes as the length beside it says, a buffer to be written is no other argument's memory, and
 * a bool is true or false. A length of 0 needs a pointer too, but nothing is read or written there.
 *
 * A gateway is a value: a call takes one and hands back the next one, and touches no other memory than the buffer or area lent to it. A
 * host keeps the last one that it was given. It has two lines, the controller's and the panel's, which share its devices and its
 * queue; two gateways share nothing. The fields may be read; a host that writes them gets what the definitions say of such a value
 * (a count over an array's length counts as that length), but the theorem over all lists of calls (whole_host,
 * crates/capi/proofs/Host.antt) speaks of gateways that came from tha_fresh or tha_read and these calls.
 *
 * A call that can't be served is refused with a number of the documents and changes nothing but what the comment at the call says.
 *
 * The archive is for x86-64. A gateway is 1,872 bytes, and a call needs some 18 KB of stack, tha_read 20 KB. The structs have
 * padding: compare them field by field.
 */
#ifndef WRACKPULLEY_H
#define WRACKPULLEY_H

#include <stdbool.h>
#include <stddef.h>
#include <stdint.h>

#ifdef __cplusplus
extern "C" {
#endif

enum {
    THA_REPLY_ROOM = 32,  /* a buffer for replies has at least this many bytes; no reply is longer */
    THA_FRAME_ROOM = 517, /* no frame is longer than this */
    THA_BLOCK = 4096,     /* of a longer block no more bytes than this are used */
    THA_COUNTED = 14,     /* the numbers that a block counts, 3 to 16 */
    THA_BODY = 258,       /* a body: Length, Type, at most 255 data bytes, checksum */
    THA_ROWS = 32,        /* the most devices */
    THA_WAITING = 16,     /* the most updates that wait */
    THA_LINE_WAITING = 8, /* the most updates of one line that wait */
    THA_STATES = 7,       /* a value for each of the states 0 to 6 */
    THA_LIFETIME = 120,   /* the tick on which an update times out */
    THA_NONE = 255        /* a value that is not available */
};

/* Which line: 0 is the controller's, and every other number is the panel's. The calls store and answer 0 or 1. */
enum { THA_CONTROLLER = 0, THA_PANEL = 1 };

/* Which setting of a device a field is. */
enum { THA_MODE = 0, THA_COOL = 1, THA_SLAB = 2, THA_FAN = 3 };

/* The outcome of a call. */
enum {
    THA_NOTHING = 0, /* the byte did nothing yet */
    THA_REFUSED = 1, /* refused: number */
    THA_QUEUED = 2,  /* an update is queued: count now wait */
    THA_REPLIED = 3, /* a reply stands at the front of the buffer: count bytes */
    THA_FAILED = 4,  /* the try failed: the update is at the tail */
    THA_ADDED = 5,   /* the row is in the table */
    THA_WRITTEN = 6, /* a frame stands at the front of the buffer: count bytes */
    THA_READ = 7     /* a hand-over is read: the gateway is the one that its frames carry */
};

/* The numbers of refusal: document 01's to 21, document 02's from there on; 22 is none. */
enum {
    THA_NO_ROOM = 1,           /* the buffer or area is too short: shorter than the frame for tha_write, else under 32 bytes */
    THA_TOO_MUCH_DATA = 2,     /* over 255 data bytes */
    THA_RESTARTED = 3,         /* dropped: SOF inside a packet; the new packet is open */
    THA_EARLY_END = 4,         /* dropped: EOF before the body had all the bytes that its Length promises */
    THA_TOO_LONG = 5,          /* dropped: a byte past the last one that its Length promises */
    THA_BAD_CHECKSUM = 6,      /* dropped: the checksum does not agree */
    THA_WRONG_TYPE = 7,        /* a frame of another type than 6 */
    THA_SHORT_RECORD = 8,      /* fewer than 5 data bytes */
    THA_WRONG_SERVICE = 9,     /* neither an Update nor a Request */
    THA_UNKNOWN_METHOD = 10,   /* no method with this number */
    THA_SERVICE_NOT_USED = 11, /* the service is not used with the method */
    THA_WRONG_WIDTH = 12,      /* not as many bytes as the method's fields have */
    THA_UNKNOWN_ADDRESS = 13,  /* no device with this address */
    THA_BAD_STATE = 14,        /* a state above 7 */
    THA_FIELD_WAITS = 15,      /* an update of the field waits already */
    THA_QUEUE_FULL = 16,       /* eight updates of the line wait */
    THA_NONE_WAITS = 17,       /* no update waits */
    THA_NOT_HEAD = 18,         /* the field is not the one at the head of the queue */
    THA_BAD_ROW = 19,          /* the row breaks the rules of a row */
    THA_ADDRESS_TAKEN = 20,    /* a device has this address already */
    THA_TABLE_FULL = 21,       /* 32 devices; over 32 announced to tha_read */
    THA_UPDATES_WAIT = 23,     /* no hand-over while updates wait */
    THA_NOT_DUE = 24,          /* the hand-over has another frame than the one due there, or a byte outside its frames */
    THA_WRONG_LENGTH = 25      /* the hand-over ends before its last frame has, or runs on behind it */
};

/* Whether a number of refusal is that of a drop, 3 to 6; false for any other number. */
bool tha_is_drop(uint8_t number);

/* The receiver of one line. Its body is the first len of bytes. */
typedef struct {
    bool inside;
    bool escaped;
    size_t len;
    uint8_t bytes[THA_BODY];
} tha_receiver;

/* A receiver for each line. */
typedef struct {
    tha_receiver controller;
    tha_receiver panel;
} tha_receivers;

/*
 * A device's row. The rules that tha_add asks for (else 19):
 *   address  any but 0
 *   version  any
 *   mask     what the device has: 1 heating, 2 cooling, 4 slab, 8 fan; no other bits
 *   mode     0 Off; 1 Heat, with heating or slab; 2 Auto, with heating and cooling; 3 Cool, with cooling; 4 Vent, with fan;
 *            6 Emergency; no other
 *   state    the current state, 0 to 6
 *   events   setback events, 0 to 2
 *   cool, slab, fan   a value for each state: with the bit (2, 4, 8) cool and slab 0 to 254, fan 0 to 100; without it THA_NONE
 */
typedef struct {
    uint16_t address;
    uint32_t version;
    uint16_t mask;
    uint8_t mode;
    uint8_t state;
    uint8_t events;
    uint8_t cool[THA_STATES];
    uint8_t slab[THA_STATES];
    uint8_t fan[THA_STATES];
} tha_row;

/* The devices, in the order added; the first count of rows. */
typedef struct {
    size_t count;
    tha_row rows[THA_ROWS];
} tha_table;

/* A field: a setting of a device, for a state. kind is THA_MODE to THA_FAN; the mode has no state: 0 stands for it. */
typedef struct {
    uint16_t address;
    uint8_t kind;
    uint8_t state;
} tha_field;

/* An update that waits: the line whose byte queued it, its field, the value asked for, and how many ticks it has waited. */
typedef struct {
    uint8_t line;
    tha_field field;
    uint8_t value;
    uint8_t age;
} tha_update;

/*
 * The updates that wait, the head first; the first count of slots. In a slot that no call left so, a kind above 3 and a mode's state
 * stay as they are; tried, the one stands for THA_FAN and the other is not read.
 */
typedef struct {
    size_t count;
    tha_update slots[THA_WAITING];
} tha_queue;

/* The date that the controller set; 65535 and 255 until it did. */
typedef struct {
    uint16_t year;
    uint8_t month;
    uint8_t day;
    uint8_t weekday;
    uint8_t hour;
    uint8_t minute;
} tha_date;

/* What the gateway holds itself. */
typedef struct {
    uint16_t error;
    bool reporting;
    uint16_t firmware;
    uint16_t protocol;
    tha_date date;
} tha_properties;

typedef struct {
    tha_receivers receivers;
    tha_table table;
    tha_queue queue;
    tha_properties properties;
} tha_gateway;

/*
 * What a call answers. number is 0 where nothing is refused. line is that of the update that a turn confirmed, else 0. count is 0 but
 * for the outcomes that name it, drops, and tha_read's refusals.
 */
typedef struct {
    uint8_t outcome;
    uint8_t number;
    uint8_t line;
    size_t count;
} tha_answer;

/* The next gateway, and what the call answers. */
typedef struct {
    tha_gateway gateway;
    tha_answer answer;
} tha_result;

/* The update to be tried next: number is 0, with its line, its field and the value asked for; or 17, with all else 0. */
typedef struct {
    uint8_t number;
    uint8_t line;
    uint8_t value;
    tha_field field;
} tha_head_answer;

/* What a device answered to a try: silence, or the value that it accepted (read only where answered is true). */
typedef struct {
    bool answered;
    uint8_t value;
} tha_heard;

/* A field, and the line whose byte asked for its update. */
typedef struct {
    uint8_t line;
    tha_field field;
} tha_line_field;

/* The first count of list; past them stand zeros. */
typedef struct {
    size_t count;
    tha_line_field list[THA_WAITING];
} tha_fields;

/* The next gateway, and the fields of the updates that timed out, each with its line, in the order of the queue. */
typedef struct {
    tha_gateway gateway;
    tha_fields fields;
} tha_ticked;

/*
 * What came up in a block. numbers[n - 3] is how often the number n did, from 3 to 16, and queued how many updates were queued. body is
 * how many body bytes, with no escapes, the dropped packets had taken since their SOF: of all drops together, each with the bytes that
 * were taken before this block.
 */
typedef struct {
    uint32_t numbers[THA_COUNTED];
    uint32_t queued;
    uint32_t body;
} tha_counts;

/* The next gateway; 0, or 1 where the block is refused; how many bytes were used of the block and written to the area; the counts. */
typedef struct {
    tha_gateway gateway;
    uint8_t number;
    size_t used;
    size_t written;
    tha_counts counts;
} tha_blocked;

/* A fresh gateway: no devices, none waiting, fresh receivers, with the owner's firmware and protocol numbers. */
tha_gateway tha_fresh(uint16_t firmware, uint16_t protocol);

/*
 * Adds a device after the last one: THA_ADDED.
 * Refused with 19, 20 or 21, in this order; the gateway is then as it was.
 */
tha_result tha_add(tha_gateway gateway, tha_row row);

/*
 * Takes one byte of a line: THA_NOTHING, THA_QUEUED (count is how many wait, of both lines) or THA_REPLIED. A reply's count bytes
 * are to be sent to that line as they stand; the buffer past them, and the whole buffer of any other answer, keeps its bytes. The
 * other line's receiver is left as it is.
 * Refused with 1 (the byte is not used, nothing changes), 3 to 6 (a packet is dropped: only the line's receiver changes) or 7 to 16
 * (a frame is refused: only the line's receiver changes, and no reply is due); 15 runs over both lines and comes before 16.
 * Of a drop (tha_is_drop) count is the number of body bytes, with no escapes, that the packet had taken since its SOF: the Length
 * N, the type, data and checksum as far as they came. It is N + 3 for 5, which does not count the byte too many, and for 6; below
 * N + 3, or 0, for 4; for 3 that of the packet that was open.
 */
tha_result tha_byte(tha_gateway gateway, uint8_t line, uint8_t byte, uint8_t *buffer, size_t length);

/*
 * Takes a block of a line's bytes, one after the other, each as tha_byte does, and writes each reply to the area, directly behind the
 * one before. It stops at the block's end, after THA_BLOCK bytes, or where fewer than 32 bytes of the area are left, also before a byte
 * that needs no reply. The first written bytes of the area are to be sent to that line as they stand; the area past them keeps its
 * bytes. A host carries on with the bytes behind those used: however a line is cut into blocks, its replies, the sums of its counts and
 * the last gateway are those of one byte at a time, where no other call on the gateway comes between.
 * Refused with 1 where the area has fewer than 32 bytes, also with an empty block: nothing is used or written, all counts are 0, and
 * gateway and area are as they were. The numbers 3 to 16 refuse a packet or a frame and not the block; they are counted.
 */
tha_blocked tha_block(tha_gateway gateway, uint8_t line, const uint8_t *bytes, size_t length, uint8_t *area, size_t area_length);

/*
 * Tries the update at the head of the queue: field names it, heard is what its device answered. A legal value is stored, the update
 * leaves the queue and its reply stands in the buffer, THA_REPLIED: it is to be sent to the answer's line. Silence or any other value
 * puts it at the tail, THA_FAILED.
 * Refused with 1, 17 or 18, in this order; gateway and buffer are then as they were. 18 also where field is no field at all, a kind
 * above 3 or a mode with another state than 0: no update that waits has such a field.
 */
tha_result tha_turn(tha_gateway gateway, tha_field field, tha_heard heard, uint8_t *buffer, size_t length);

/*
 * A second passes: every update that waits is one tick older, and those whose age reaches 120 leave the queue and are listed.
 * Never refused.
 */
tha_ticked tha_tick(tha_gateway gateway);

/* The update to be tried next, or 17. Changes nothing. */
tha_head_answer tha_head(tha_gateway gateway);

/* The owner sets the network error, with which Requests and Updates of NetworkError are answered. Never refused. */
tha_gateway tha_set_network_error(tha_gateway gateway, uint16_t error);

/*
 * The owner has the stored date checked, after a gateway was taken over from a build with another rule for dates: one that is not
 * valid becomes not available in every part, as it is where none was ever stored. Nothing else changes; after calls from tha_fresh
 * nothing changes at all, since no call stores a date that is not valid. Never refused.
 */
tha_gateway tha_check_date(tha_gateway gateway);

/*
 * Writes the frame of a type and data at the front of the buffer: THA_WRITTEN. The buffer past the frame keeps its bytes.
 * Refused with 2 or 1, in this order; nothing is then written.
 */
tha_answer tha_write(uint8_t type, const uint8_t *data, size_t data_length, uint8_t *buffer, size_t length);

/*
 * Writes a frame of the hand-over at the front of the buffer: THA_WRITTEN. place counts the frames from 0: five of the gateway and
 * 26 for each device, in the order of the table. Past the last one nothing is written, and count is 0. The buffer past the frame
 * keeps its bytes. The gateway is as before: a host asks for place 0, 1, 2 and so on until count is 0, with no other call between,
 * and hands over the frames, one behind the other, and the number of devices.
 * Refused with 1 or 23, in this order, whichever place is asked for; nothing is then written.
 */
tha_answer tha_hand(tha_gateway gateway, size_t place, uint8_t *buffer, size_t length);

/*
 * Reads a hand-over: count is the number of devices, bytes are the frames, all, in order and one behind the other. THA_READ: the
 * gateway has the values and rows that the frames carry, the firmware and protocol numbers too; both receivers are fresh and
 * nothing waits. A byte that is escaped without need is taken as it is on the line.
 * Refused with 21 before a byte is read, else with the first of these that is met along the bytes: 24 where a packet is dropped,
 * where a frame is not the one due there (its type, service, method, width, address, or the state before a value), for reporting
 * above 1, for a date neither valid nor not available in every part, and for any byte outside a frame but the SOF of the next; 19
 * or 20, in this order, at a row's last frame; 25 where the bytes end before the last frame has, and for any byte behind it. The
 * answer's count is then the place of the byte that caused it, the number of bytes where they end too early, and 0 with 21. The
 * gateway is a fresh one with the firmware and protocol handed in, its table empty.
 */
tha_result tha_read(uint16_t firmware, uint16_t protocol, size_t count, const uint8_t *bytes, size_t length);

#ifdef __cplusplus
}
#endif

#endif
