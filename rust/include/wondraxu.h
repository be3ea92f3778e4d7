/*
 * The UART of an emulated ESP32-C3, proved: the calls of libwondraxu.a, which rust/build-lib makes, for C99 and C++.
 *
 * Names and meaning are those of inkemu's uart.rs. The first part declares the library's structs and its fifteen calls.
 * The second part, at the end, is struct wondraxu_uart, which holds what the calls require between them: use that one.
 * wondraxu_figures stands beside the UART: how busy a line was, from the frames on it.
 *
 * No call allocates, and none keeps a pointer. A refused call answers its number and changes nothing.
 */
#ifndef WONDRAXU_H
#define WONDRAXU_H

#include <stdbool.h>
#include <stddef.h>
#include <stdint.h>

#ifdef __cplusplus
extern "C" {
#endif

/*
 * The version of the structs and calls below; answers 4. The number goes up whenever one of them changes. Every file that
 * has this header needs the symbol, so that an archive of another version, whose structs may differ, does not link.
 */
uint32_t wondraxu_abi_4(void);
#ifdef __GNUC__
__attribute__((used))
#endif
#ifdef __has_attribute
#if __has_attribute(retain)
__attribute__((retain)) /* the linker keeps it too, where it drops what nothing reads */
#endif
#endif
static uint32_t (*const wondraxu_abi)(void) = wondraxu_abi_4;

/* How many slots each array has. */
#define WONDRAXU_FLIGHT 129   /* gone_at, flight: the bytes in flight and their dates */
#define WONDRAXU_LEFT 1152    /* tx: the bytes that have left */
#define WONDRAXU_HOST 1024    /* host: the host bytes that wait */
#define WONDRAXU_RUNS 64      /* run_at, run_len: the runs that date them */
#define WONDRAXU_RECEIVED 128 /* rx: the receive FIFO */

/* The length that a buffer lent to take_tx or take_written must have at least. */
#define WONDRAXU_BUFFER WONDRAXU_LEFT

/* The notices of a report, at most. */
#define WONDRAXU_NOTICES 8

/* The frames of a list, at most. */
#define WONDRAXU_FRAMES 1024

/* The number of a reply: 0, or why the call is refused. */
enum wondraxu_number {
    WONDRAXU_DONE = 0,
    WONDRAXU_REPEATED_OFFSET = 1,  /* set-up: two of the sixteen offsets are equal */
    WONDRAXU_DATE_PAST_END = 2,    /* the cycle now is 2^59 or more */
    WONDRAXU_DATE_WENT_BACK = 3,   /* the cycle now is below that of the last call that was carried out */
    WONDRAXU_TRANSMIT_FULL = 4,    /* a write to FIFO: the bytes that left and those in flight are 1,152 */
    WONDRAXU_HOST_FULL = 5,        /* receive: the waiting host bytes and the new ones are over 1,024 */
    WONDRAXU_RUNS_FULL = 6,        /* receive of a byte or more: 64 runs wait, and the date is later than the last one's */
    WONDRAXU_PERIOD_TOO_LONG = 7,  /* clock_change: the period is above 1,000,000 */
    WONDRAXU_BUFFER_TOO_SHORT = 8, /* take_tx, take_written: the lent buffer is below 1,152 bytes */
    WONDRAXU_UNFIT_LIST = 9        /* figures: a frame ends before it starts, or starts before the one before it ends, or there
                                    * are more than 1,024 of them, or not as many starts as ends */
};

/* wondraxu_notice.what: names as in inkemu's diag.rs. */
enum wondraxu_what {
    WONDRAXU_UART_OVERFLOW = 1,      /* a byte written to a full FIFO was dropped; which is 0 */
    WONDRAXU_UART_EMPTY_READ = 2,    /* a read of FIFO found it empty; which is 0 */
    WONDRAXU_UART_CLOCK = 3,         /* a byte was sent on a source without a frequency; which is its SCLK_SEL */
    WONDRAXU_UART_RECEIVE_CLOCK = 4, /* a byte was received on such a source; which is its SCLK_SEL */
    WONDRAXU_UART_FEATURE = 5        /* a mode was set that the model does not have; which is an enum wondraxu_feature */
};

enum wondraxu_feature {
    WONDRAXU_LOOPBACK = 0,
    WONDRAXU_INVERTED_RX = 1,
    WONDRAXU_AUTOBAUD = 2,
    WONDRAXU_NO_STOP_BIT = 3,
    WONDRAXU_FIFO_SIZE = 4,
    WONDRAXU_RS485 = 5,
    WONDRAXU_TX_FLOW_CONTROL = 6,
    WONDRAXU_RX_FLOW_CONTROL = 7,
    WONDRAXU_INVERTED_TX = 8,
    WONDRAXU_IRDA = 9,
    WONDRAXU_TX_BREAK = 10
};

/* The nine stored words. */
struct wondraxu_words {
    uint32_t int_ena;
    uint32_t clkdiv;
    uint32_t conf0;
    uint32_t conf1;
    uint32_t clk_conf;
    uint32_t idle_conf;
    uint32_t rs485_conf;
    uint32_t at_cmd_char;
    uint32_t mem_conf;
};

/* What set-up fixes. */
struct wondraxu_register_map {
    uint32_t offsets[16];
    struct wondraxu_words reset;
    uint32_t idle_status;
    uint32_t mem_rx_status;
};

/* Where a queue begins among its slots, and how many it holds. */
struct wondraxu_cursor {
    size_t start;
    size_t count;
};

/* A date, or none: at is 0 while set is false. */
struct wondraxu_date {
    bool set;
    uint64_t at;
};

/* All of a UART but the slots of its queues. Only the calls make one; a caller keeps it as it is. */
struct wondraxu_core {
    struct wondraxu_register_map map;
    struct wondraxu_words words;
    uint32_t int_raw;
    uint32_t rx_mistimed;             /* a source is one more than its SCLK_SEL, 0 for none */
    struct wondraxu_date idle_since;  /* in subcycles, 1/32 of a cycle */
    uint64_t line_free_at;            /* in subcycles */
    uint64_t period;                  /* in cycles */
    uint64_t last;                    /* in cycles */
    struct wondraxu_date wake;        /* in cycles */
    struct wondraxu_date powered_down_at; /* in subcycles */
    uint32_t timed_on;                /* the source of the byte on the line */
    bool on_the_line;
    bool heard;
    bool watched;
    bool level;
    struct wondraxu_cursor flight;
    struct wondraxu_cursor tx;
    struct wondraxu_cursor host;
    struct wondraxu_cursor runs;
    struct wondraxu_cursor rx;
    uint8_t byte;                     /* the byte on the line */
};

struct wondraxu_reply {
    uint32_t number; /* an enum wondraxu_number */
    bool holds;      /* read: there is a value. write: accepted. has_left: a byte has left. Every other call: carried out.
                      * False of a refusal. */
    uint64_t value;  /* read: the value. take_tx, take_written, host_pending: how many bytes. Every other call, and a
                      * refusal: 0. */
};

/* The reply of a row. */
struct wondraxu_row {
    uint32_t number; /* an enum wondraxu_number */
    uint64_t made;   /* how many of the bytes were written, those among them that a full FIFO dropped. 0 of a refusal. */
    uint64_t first;  /* how many of the writes noted the report's first notice, */
    uint64_t second; /* and how many the second; 0 where there is none */
};

struct wondraxu_notice {
    uint32_t what;  /* an enum wondraxu_what */
    uint32_t which;
};

/* What a dated call tells; with nothing in it after a refused call and after take_written. */
struct wondraxu_report {
    bool level;                /* the interrupt level */
    struct wondraxu_date wake; /* the cycle at which the UART wants wake next, if one is armed; it may be past */
    uint64_t overflows;        /* the bytes lost in this call because 128 were held */
    uint64_t passes;           /* the passes that settling made */
    size_t noted;              /* how many of the notices count, from the first on */
    struct wondraxu_notice notices[WONDRAXU_NOTICES];
};

/* The core after the call, its reply and its report. The core after a refused call is the one before it. */
struct wondraxu_answer {
    struct wondraxu_core core;
    struct wondraxu_reply reply;
    struct wondraxu_report report;
};

/* The same of a row: its report is that of the writes together, with each notice once. */
struct wondraxu_row_answer {
    struct wondraxu_core core;
    struct wondraxu_row reply;
    struct wondraxu_report report;
};

/* The figures of a line. All are subcycles, 1/32 of a cycle, but for the place; of no frame, and of a refusal, they are 0. */
struct wondraxu_line_figures {
    uint32_t number;    /* an enum wondraxu_number */
    bool placed;        /* the longest quiet stretch has a place: there are two frames or more */
    uint64_t busy;      /* all frames together */
    uint64_t shortest;  /* the shortest frame */
    uint64_t longest;   /* the longest frame */
    uint64_t quiet;     /* the longest quiet stretch between two frames; 0 with fewer than two */
    uint64_t at;        /* its place: that of the frame before it, from 0, the earliest of stretches that are as long. 0 while
                         * placed is false. */
    uint64_t mean;      /* the mean frame: busy divided by the number of frames, */
    uint64_t remainder; /* and what that division leaves */
};

/* Offsets or reset words of, in order: FIFO, INT_RAW, INT_ST, INT_ENA, INT_CLR, CLKDIV, STATUS, FSM_STATUS, CONF0, CONF1,
 * CLK_CONF, IDLE_CONF, RS485_CONF, AT_CMD_CHAR, MEM_CONF, MEM_RX_STATUS. */
struct wondraxu_sixteen {
    uint32_t words[16];
};

/* What set-up answers: where it is refused, the core is not one to call. */
struct wondraxu_set_up {
    struct wondraxu_core core;
    struct wondraxu_reply reply;
};

/* The slots of the queues, which the calls are lent. */
struct wondraxu_slots {
    uint64_t gone_at[WONDRAXU_FLIGHT];
    uint8_t flight[WONDRAXU_FLIGHT];
    uint8_t tx[WONDRAXU_LEFT];
    uint8_t host[WONDRAXU_HOST];
    uint64_t run_at[WONDRAXU_RUNS];
    uint64_t run_len[WONDRAXU_RUNS];
    uint8_t rx[WONDRAXU_RECEIVED];
};

/*
 * What every call but wondraxu_new and wondraxu_figures REQUIRES, and nothing checks:
 *
 * - THE STATE. The core is one that wondraxu_new, not refused, gave, or that a call on such a core gave. The slots are
 *   those that the calls since then were lent, and nothing else has written to them. What stands in the slots before the
 *   first call is free. The core to bring is that of the last call: one from before it no longer fits the slots, unless
 *   that call was refused.
 * - THE POINTERS. gone_at and flight point to 129 elements, tx to 1,152, host to 1,024, run_at and run_len to 64 each,
 *   rx to 128, aligned for their type. No two of one call's pointers overlap. A call writes only through those that are
 *   not const.
 * - THE BUFFERS. bytes points to count bytes, out to length bytes. Where the count or the length is 0 the pointer may be
 *   anything but null.
 *
 * cycle is the cycle now. A dated call is refused with 2 or 3 for its date, and with the numbers beside it.
 */

/* Set-up. Requires nothing. Number 1. */
struct wondraxu_set_up wondraxu_new(struct wondraxu_sixteen offsets, struct wondraxu_sixteen resets);

/* The value at an offset; holds is false where nothing can be read. From an empty FIFO 0, with a notice. Requires the state
 * and the pointers. */
struct wondraxu_answer wondraxu_read(struct wondraxu_core core, const uint64_t *gone_at, const uint8_t *flight, uint8_t *tx,
                                     const uint8_t *host, const uint64_t *run_at, uint64_t *run_len, uint8_t *rx,
                                     uint64_t cycle, uint32_t offset);

/* A write at an offset: holds says whether it was accepted. Requires the state and the pointers. Number 4. */
struct wondraxu_answer wondraxu_write(struct wondraxu_core core, uint64_t *gone_at, uint8_t *flight, uint8_t *tx,
                                      const uint8_t *host, const uint64_t *run_at, uint64_t *run_len, uint8_t *rx,
                                      uint64_t cycle, uint32_t offset, uint32_t value);

/* count bytes written to FIFO one after another: as so many writes at this cycle, up to the first one that would be refused, and
 * 1,152 at most. Requires the state, the pointers and the buffer bytes, which is only read. Number 4, of a byte or more. */
struct wondraxu_row_answer wondraxu_write_row(struct wondraxu_core core, uint64_t *gone_at, uint8_t *flight, uint8_t *tx,
                                              const uint8_t *host, const uint64_t *run_at, uint64_t *run_len, uint8_t *rx,
                                              uint64_t cycle, const uint8_t *bytes, size_t count);

/* The cycle of the wake that was armed has come. Requires the state and the pointers. */
struct wondraxu_answer wondraxu_wake(struct wondraxu_core core, const uint64_t *gone_at, const uint8_t *flight, uint8_t *tx,
                                     const uint8_t *host, const uint64_t *run_at, uint64_t *run_len, uint8_t *rx,
                                     uint64_t cycle);

/* A reset. Host bytes, the byte on the line and bytes that left stay. Requires the state and the pointers. */
struct wondraxu_answer wondraxu_reset(struct wondraxu_core core, const uint64_t *gone_at, const uint8_t *flight, uint8_t *tx,
                                      const uint8_t *host, const uint64_t *run_at, uint64_t *run_len, uint8_t *rx,
                                      uint64_t cycle);

/* Another period of the APB clock, in cycles; 0 counts as 1. Requires the state and the pointers. Number 7. */
struct wondraxu_answer wondraxu_clock_change(struct wondraxu_core core, const uint64_t *gone_at, const uint8_t *flight,
                                             uint8_t *tx, const uint8_t *host, const uint64_t *run_at,
                                             uint64_t *run_len, uint8_t *rx, uint64_t cycle, uint64_t period);

/* The host hands over count bytes, which start on the line at cycle at at the earliest. Requires the state, the pointers and
 * the buffer bytes, which is only read. Numbers 5 and 6. */
struct wondraxu_answer wondraxu_receive(struct wondraxu_core core, const uint64_t *gone_at, const uint8_t *flight, uint8_t *tx,
                                        uint8_t *host, uint64_t *run_at, uint64_t *run_len, uint8_t *rx, uint64_t cycle,
                                        uint64_t at, const uint8_t *bytes, size_t count);

/* The bytes that have left, to the front of out: value says how many, and what stands after them is not written. Requires
 * the state, the pointers and the buffer out. Number 8. */
struct wondraxu_answer wondraxu_take_tx(struct wondraxu_core core, const uint64_t *gone_at, const uint8_t *flight, uint8_t *tx,
                                        const uint8_t *host, const uint64_t *run_at, uint64_t *run_len, uint8_t *rx,
                                        uint64_t cycle, uint8_t *out, size_t length);

/* All that was written, the bytes that left and those in flight, to the front of out: value says how many. Undated. Requires
 * the state, the pointers and the buffer out. Number 8 alone. */
struct wondraxu_answer wondraxu_take_written(struct wondraxu_core core, const uint64_t *gone_at, const uint8_t *flight,
                                             const uint8_t *tx, const uint8_t *host, const uint64_t *run_at,
                                             const uint64_t *run_len, const uint8_t *rx, uint8_t *out, size_t length);

/* Whether each departure asks for a wake. Requires the state and the pointers. */
struct wondraxu_answer wondraxu_watch(struct wondraxu_core core, const uint64_t *gone_at, const uint8_t *flight,
                                      const uint8_t *tx, const uint8_t *host, const uint64_t *run_at,
                                      const uint64_t *run_len, const uint8_t *rx, uint64_t cycle, bool on);

/* Nothing moves after this cycle until a reset. Requires the state and the pointers. */
struct wondraxu_answer wondraxu_power_down(struct wondraxu_core core, const uint64_t *gone_at, const uint8_t *flight,
                                           const uint8_t *tx, const uint8_t *host, const uint64_t *run_at,
                                           const uint64_t *run_len, const uint8_t *rx, uint64_t cycle);

/* Whether a byte has left that no call has taken: holds says it. Undated; the number is 0. Requires the state. */
struct wondraxu_reply wondraxu_has_left(struct wondraxu_core core);

/* The host bytes that have not landed, those that wait and the one on the line: value says how many. Undated; the number is
 * 0. Requires the state. */
struct wondraxu_reply wondraxu_host_pending(struct wondraxu_core core);

/* The figures of a line's frames, which start and end at these subcycles, in order. Needs no UART. Requires that starts points to
 * starts_count numbers and ends to ends_count, aligned for their type; where a count is 0 the pointer may be any such one but
 * null. Both are only read, and may be one list. Number 9 alone. */
struct wondraxu_line_figures wondraxu_figures(const uint64_t *starts, size_t starts_count, const uint64_t *ends,
                                              size_t ends_count);

/*
 * One UART. wondraxu_uart_new sets it up, and only the functions below write it: then THE STATE and THE POINTERS always hold,
 * and a caller owes THE BUFFERS alone. A copy of the struct is a UART of its own.
 */
struct wondraxu_uart {
    struct wondraxu_core core;
    struct wondraxu_slots slots;
};

/* The core after a call is kept; after a refusal it is the one before, so nothing is written. */
static inline struct wondraxu_answer wondraxu_uart_kept(struct wondraxu_uart *u, struct wondraxu_answer answer)
{
    if (answer.reply.number == WONDRAXU_DONE)
        u->core = answer.core;
    return answer;
}

/* The number. Where set-up is refused, *u is as it was. */
static inline uint32_t wondraxu_uart_new(struct wondraxu_uart *u, struct wondraxu_sixteen offsets,
                                         struct wondraxu_sixteen resets)
{
    struct wondraxu_set_up made = wondraxu_new(offsets, resets);
    if (made.reply.number == WONDRAXU_DONE)
        u->core = made.core;
    return made.reply.number;
}

static inline struct wondraxu_answer wondraxu_uart_read(struct wondraxu_uart *u, uint64_t now, uint32_t offset)
{
    struct wondraxu_slots *s = &u->slots;
    return wondraxu_uart_kept(u, wondraxu_read(u->core, s->gone_at, s->flight, s->tx, s->host, s->run_at, s->run_len,
                                               s->rx, now, offset));
}

static inline struct wondraxu_answer wondraxu_uart_write(struct wondraxu_uart *u, uint64_t now, uint32_t offset,
                                                         uint32_t value)
{
    struct wondraxu_slots *s = &u->slots;
    return wondraxu_uart_kept(u, wondraxu_write(u->core, s->gone_at, s->flight, s->tx, s->host, s->run_at, s->run_len,
                                                s->rx, now, offset, value));
}

static inline struct wondraxu_row_answer wondraxu_uart_write_row(struct wondraxu_uart *u, uint64_t now, const uint8_t *bytes,
                                                                 size_t count)
{
    struct wondraxu_slots *s = &u->slots;
    struct wondraxu_row_answer answer = wondraxu_write_row(u->core, s->gone_at, s->flight, s->tx, s->host, s->run_at,
                                                           s->run_len, s->rx, now, bytes, count);
    if (answer.reply.number == WONDRAXU_DONE)
        u->core = answer.core;
    return answer;
}

static inline struct wondraxu_answer wondraxu_uart_wake(struct wondraxu_uart *u, uint64_t now)
{
    struct wondraxu_slots *s = &u->slots;
    return wondraxu_uart_kept(u, wondraxu_wake(u->core, s->gone_at, s->flight, s->tx, s->host, s->run_at, s->run_len,
                                               s->rx, now));
}

static inline struct wondraxu_answer wondraxu_uart_reset(struct wondraxu_uart *u, uint64_t now)
{
    struct wondraxu_slots *s = &u->slots;
    return wondraxu_uart_kept(u, wondraxu_reset(u->core, s->gone_at, s->flight, s->tx, s->host, s->run_at, s->run_len,
                                                s->rx, now));
}

static inline struct wondraxu_answer wondraxu_uart_clock_change(struct wondraxu_uart *u, uint64_t now, uint64_t period)
{
    struct wondraxu_slots *s = &u->slots;
    return wondraxu_uart_kept(u, wondraxu_clock_change(u->core, s->gone_at, s->flight, s->tx, s->host, s->run_at,
                                                       s->run_len, s->rx, now, period));
}

static inline struct wondraxu_answer wondraxu_uart_receive(struct wondraxu_uart *u, uint64_t now, uint64_t at,
                                                           const uint8_t *bytes, size_t count)
{
    struct wondraxu_slots *s = &u->slots;
    return wondraxu_uart_kept(u, wondraxu_receive(u->core, s->gone_at, s->flight, s->tx, s->host, s->run_at, s->run_len,
                                                  s->rx, now, at, bytes, count));
}

static inline struct wondraxu_answer wondraxu_uart_take_tx(struct wondraxu_uart *u, uint64_t now, uint8_t *out, size_t length)
{
    struct wondraxu_slots *s = &u->slots;
    return wondraxu_uart_kept(u, wondraxu_take_tx(u->core, s->gone_at, s->flight, s->tx, s->host, s->run_at, s->run_len,
                                                  s->rx, now, out, length));
}

static inline struct wondraxu_answer wondraxu_uart_take_written(struct wondraxu_uart *u, uint8_t *out, size_t length)
{
    const struct wondraxu_slots *s = &u->slots;
    return wondraxu_uart_kept(u, wondraxu_take_written(u->core, s->gone_at, s->flight, s->tx, s->host, s->run_at, s->run_len,
                                                       s->rx, out, length));
}

static inline struct wondraxu_answer wondraxu_uart_watch(struct wondraxu_uart *u, uint64_t now, bool watched)
{
    const struct wondraxu_slots *s = &u->slots;
    return wondraxu_uart_kept(u, wondraxu_watch(u->core, s->gone_at, s->flight, s->tx, s->host, s->run_at, s->run_len,
                                                s->rx, now, watched));
}

static inline struct wondraxu_answer wondraxu_uart_power_down(struct wondraxu_uart *u, uint64_t now)
{
    const struct wondraxu_slots *s = &u->slots;
    return wondraxu_uart_kept(u, wondraxu_power_down(u->core, s->gone_at, s->flight, s->tx, s->host, s->run_at, s->run_len,
                                                     s->rx, now));
}

static inline struct wondraxu_reply wondraxu_uart_has_left(const struct wondraxu_uart *u)
{
    return wondraxu_has_left(u->core);
}

static inline struct wondraxu_reply wondraxu_uart_host_pending(const struct wondraxu_uart *u)
{
    return wondraxu_host_pending(u->core);
}

#ifdef __cplusplus
}
#endif

#endif
