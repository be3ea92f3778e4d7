/*
 * A UART from C: sends a row at one go, receives a row and reads it, fills both FIFOs, and is refused; and the figures of a
 * line. Every answer is held to document 01's marks P3, P4, P6 and P10, or to the request for figures; the first that differs
 * ends the program with a message that names the call.
 */
#include <inttypes.h>
#include <stdio.h>
#include <stdlib.h>
#include <string.h>

#include "wondraxu.h"

enum { FIFO = 0, INT_RAW = 4, CLKDIV = 20, STATUS = 24, FSM_STATUS = 28 };

static struct wondraxu_uart uart;

static void expect(const char *call, const char *what, uint64_t got, uint64_t want)
{
    if (got == want)
        return;
    fprintf(stderr, "row: %s: %s is 0x%" PRIx64 ", not 0x%" PRIx64 "\n", call, what, got, want);
    exit(1);
}

/* Document 01's bench settings: a byte takes 420 cycles. */
static void set_up(void)
{
    struct wondraxu_sixteen offsets, resets = {{0}};
    for (uint32_t place = 0; place < 16; place++)
        offsets.words[place] = 4 * place;
    resets.words[5] = 0x0080000A;
    resets.words[8] = 0x1C;
    resets.words[9] = 0xC060;
    resets.words[10] = 0x02300000;
    resets.words[14] = 0x000A0012;
    expect("set-up", "number", wondraxu_uart_new(&uart, offsets, resets), WONDRAXU_DONE);
}

static struct wondraxu_answer reads(const char *call, uint64_t now, uint32_t offset, uint64_t want)
{
    struct wondraxu_answer answer = wondraxu_uart_read(&uart, now, offset);
    expect(call, "number", answer.reply.number, WONDRAXU_DONE);
    expect(call, "holds", answer.reply.holds, true);
    expect(call, "value", answer.reply.value, want);
    return answer;
}

static struct wondraxu_answer writes(const char *call, uint64_t now, uint32_t offset, uint32_t word)
{
    struct wondraxu_answer answer = wondraxu_uart_write(&uart, now, offset, word);
    expect(call, "number", answer.reply.number, WONDRAXU_DONE);
    expect(call, "holds", answer.reply.holds, true);
    return answer;
}

/* count bytes at one go, of which made are written; times of them note that the FIFO was full. */
static void sends(const char *call, uint64_t now, const uint8_t *bytes, size_t count, size_t made, uint64_t times)
{
    struct wondraxu_row_answer answer = wondraxu_uart_write_row(&uart, now, bytes, count);
    expect(call, "number", answer.reply.number, WONDRAXU_DONE);
    expect(call, "made", answer.reply.made, made);
    /* No host byte waits: each write makes the one pass that finds nothing due. */
    expect(call, "passes", answer.report.passes, made);
    expect(call, "noted", answer.report.noted, times > 0);
    expect(call, "first", answer.reply.first, times);
    expect(call, "second", answer.reply.second, 0);
    if (times > 0)
        expect(call, "what", answer.report.notices[0].what, WONDRAXU_UART_OVERFLOW);
}

static void notes(const char *call, struct wondraxu_report report, uint32_t what)
{
    expect(call, "noted", report.noted, 1);
    expect(call, "what", report.notices[0].what, what);
    expect(call, "which", report.notices[0].which, 0);
}

static void left(const char *call, bool want)
{
    struct wondraxu_reply reply = wondraxu_uart_has_left(&uart);
    expect(call, "number", reply.number, WONDRAXU_DONE);
    expect(call, "holds", reply.holds, want);
    expect(call, "value", reply.value, 0);
}

static void pending(const char *call, size_t want)
{
    struct wondraxu_reply reply = wondraxu_uart_host_pending(&uart);
    expect(call, "number", reply.number, WONDRAXU_DONE);
    expect(call, "holds", reply.holds, true);
    expect(call, "value", reply.value, want);
}

/* P3, and then three bytes more at one go, which are taken with the first. */
static void send_a_row(void)
{
    static const uint8_t row[] = {0x41, 'O', 'W', '\n'};
    uint8_t out[WONDRAXU_BUFFER + 1];
    struct wondraxu_answer answer;
    set_up();
    answer = writes("write of FIFO at 100", 100, FIFO, row[0]);
    expect("write of FIFO at 100", "wake", answer.report.wake.set ? answer.report.wake.at : 0, 520);
    reads("P3: read of FSM_STATUS at 519", 519, FSM_STATUS, 0x10);
    left("has_left at 519", false);
    reads("P3: read of FSM_STATUS at 520", 520, FSM_STATUS, 0);
    left("has_left at 520", true);
    reads("P3: read of INT_RAW at 520", 520, INT_RAW, 0x4002);
    sends("row at 520", 520, row + 1, sizeof row - 1, sizeof row - 1, 0);
    memset(out, 0xEE, sizeof out);
    answer = wondraxu_uart_take_tx(&uart, 1780, out, WONDRAXU_BUFFER);
    expect("take_tx at 1780", "number", answer.reply.number, WONDRAXU_DONE);
    expect("take_tx at 1780", "value", answer.reply.value, sizeof row);
    expect("take_tx at 1780", "bytes", memcmp(out, row, sizeof row) == 0, true);
    for (size_t i = sizeof row; i < sizeof out; i++)
        expect("take_tx at 1780", "a byte after the row", out[i], 0xEE);
    printf("sent:     %zu bytes, the last at 1780\n", sizeof row);
}

/* P6, and then a row of five bytes. */
static void receive_a_row(void)
{
    static const uint8_t row[] = {'r', 'o', 'w', ' ', '7'};
    static const uint8_t one = 0x55;
    struct wondraxu_answer answer;
    set_up();
    answer = wondraxu_uart_receive(&uart, 100, 100, &one, 1);
    expect("receive at 100", "number", answer.reply.number, WONDRAXU_DONE);
    reads("P6: read of STATUS at 519", 519, STATUS, 0);
    reads("P6: read of STATUS at 520", 520, STATUS, 1);
    answer = reads("P6: read of FIFO", 520, FIFO, 0x55);
    expect("P6: read of FIFO", "noted", answer.report.noted, 0);
    answer = reads("P6: read of the empty FIFO", 520, FIFO, 0);
    notes("P6: read of the empty FIFO", answer.report, WONDRAXU_UART_EMPTY_READ);
    answer = wondraxu_uart_receive(&uart, 1000, 1000, row, sizeof row);
    expect("receive at 1000", "number", answer.reply.number, WONDRAXU_DONE);
    pending("host_pending at 1000", sizeof row);
    answer = wondraxu_uart_wake(&uart, 3100);
    /* Five landings, and the pass that finds nothing due. */
    expect("wake at 3100", "passes", answer.report.passes, 6);
    for (size_t i = 0; i < sizeof row; i++)
        reads("read of FIFO at 3100", 3100, FIFO, row[i]);
    printf("received: %zu bytes, the last at 3100\n", sizeof row);
}

/* P4 on the transmit side, its 129 bytes at one go; on the receive side 130 bytes come and 128 are held. */
static void overflow(void)
{
    uint8_t bytes[130] = {0};
    struct wondraxu_answer answer;
    set_up();
    sends("P4: row of 129 bytes at 100", 100, bytes, 129, 129, 0);
    reads("P4: read of STATUS after 129 writes", 100, STATUS, 0x00800000);
    answer = writes("P4: the 130th write", 100, FIFO, 0x82);
    notes("P4: the 130th write", answer.report, WONDRAXU_UART_OVERFLOW);
    reads("P4: read of STATUS after 130 writes", 100, STATUS, 0x00800000);
    sends("row of 20 bytes into a full FIFO", 100, bytes, 20, 20, 20);
    set_up();
    answer = wondraxu_uart_receive(&uart, 0, 0, bytes, sizeof bytes);
    expect("receive of 130 bytes", "number", answer.reply.number, WONDRAXU_DONE);
    answer = wondraxu_uart_wake(&uart, 54600);
    expect("wake at 54600", "overflows", answer.report.overflows, 2);
    reads("read of STATUS at 54600", 54600, STATUS, 128);
    printf("overflow: 21 bytes written and 2 received are lost\n");
}

/* P10, and a refused call changes nothing: the Rust crate's tests look at every field. */
static void refused(void)
{
    static const uint8_t bytes[1025];
    static struct wondraxu_uart before;
    struct wondraxu_answer answer;
    set_up();
    answer = wondraxu_uart_receive(&uart, 0, 0, bytes, 1025);
    expect("P10: receive of 1,025 bytes", "number", answer.reply.number, WONDRAXU_HOST_FULL);
    answer = wondraxu_uart_receive(&uart, 0, 1000, bytes, 1024);
    expect("P10: receive of 1,024 bytes", "number", answer.reply.number, WONDRAXU_DONE);
    pending("P10: host_pending after 1,024 bytes", 1024);
    before = uart;
    answer = wondraxu_uart_receive(&uart, 0, 1000, bytes, 1);
    expect("P10: receive of one byte more", "number", answer.reply.number, WONDRAXU_HOST_FULL);
    answer = wondraxu_uart_read(&uart, UINT64_C(1) << 59, STATUS);
    expect("read at 2^59", "number", answer.reply.number, WONDRAXU_DATE_PAST_END);
    expect("read at 2^59", "holds", answer.reply.holds, false);
    pending("host_pending after the refused calls", 1024);
    expect("the refused calls", "last", uart.core.last, before.core.last);
    expect("the refused calls", "host", memcmp(before.slots.host, uart.slots.host, WONDRAXU_HOST) == 0, true);
    printf("refused:  1,025 host bytes answer %d, and nothing changed\n", WONDRAXU_HOST_FULL);
}

/* A row that the transmit side has no room for is cut, and the rest given again once what was sent is taken. With a divider
 * of 0 a byte takes no time. */
static void cut_a_row(void)
{
    static const uint8_t bytes[1100];
    uint8_t out[WONDRAXU_BUFFER];
    struct wondraxu_row_answer full;
    struct wondraxu_answer answer;
    set_up();
    writes("write of CLKDIV", 0, CLKDIV, 0);
    sends("row of 1,100 bytes", 10, bytes, 1100, 1100, 0);
    sends("row of 96 bytes with room for 52", 10, bytes, 96, 52, 0);
    full = wondraxu_uart_write_row(&uart, 10, bytes, 44);
    expect("row on a full side", "number", full.reply.number, WONDRAXU_TRANSMIT_FULL);
    answer = wondraxu_uart_take_tx(&uart, 10, out, sizeof out);
    expect("take_tx at 10", "value", answer.reply.value, 1152);
    sends("the other 44 bytes", 10, bytes, 44, 44, 0);
    printf("cut:      52 of 96 bytes are written, and 44 later\n");
}

/* The figures of count frames, which are taken; of as many starts and one end less they are refused. */
static struct wondraxu_line_figures tells(const char *call, const uint64_t *starts, const uint64_t *ends, size_t count)
{
    struct wondraxu_line_figures figures = wondraxu_figures(starts, count, ends, count);
    expect(call, "number", figures.number, WONDRAXU_DONE);
    expect(call, "number with an end less", wondraxu_figures(starts, count, ends, count - 1).number, WONDRAXU_UNFIT_LIST);
    return figures;
}

/* Four frames with two stretches that are as long, and then lists about as long as one may be. */
static void line_figures(void)
{
    static const uint64_t starts[] = {0, 14, 25, 33}, ends[] = {10, 20, 28, 34};
    uint64_t dates[WONDRAXU_FRAMES + 2];
    struct wondraxu_line_figures figures = tells("figures of four frames", starts, ends, 4);
    expect("figures of four frames", "busy", figures.busy, 20);
    expect("figures of four frames", "shortest", figures.shortest, 1);
    expect("figures of four frames", "longest", figures.longest, 10);
    expect("figures of four frames", "quiet", figures.quiet, 5);
    expect("figures of four frames", "placed", figures.placed, true);
    expect("figures of four frames", "at", figures.at, 1);
    expect("figures of four frames", "mean", figures.mean, 5);
    expect("figures of four frames", "remainder", figures.remainder, 0);
    figures = tells("figures of one frame", starts, ends, 1);
    expect("figures of one frame", "placed", figures.placed, false);
    expect("figures of one frame", "at", figures.at, 0);
    for (size_t i = 0; i < WONDRAXU_FRAMES + 2; i++)
        dates[i] = i;
    /* Each frame starts where the one before it ends. */
    figures = tells("figures of 1,024 frames", dates, dates + 1, WONDRAXU_FRAMES);
    expect("figures of 1,024 frames", "busy", figures.busy, WONDRAXU_FRAMES);
    figures = wondraxu_figures(dates, WONDRAXU_FRAMES + 1, dates + 1, WONDRAXU_FRAMES + 1);
    expect("figures of 1,025 frames", "number", figures.number, WONDRAXU_UNFIT_LIST);
    expect("figures of 1,025 frames", "busy", figures.busy, 0);
    printf("figures:  of 1,024 frames, and 1,025 answer %d\n", WONDRAXU_UNFIT_LIST);
}

int main(void)
{
    expect("wondraxu_abi_4", "version", wondraxu_abi_4(), 4);
    send_a_row();
    receive_a_row();
    overflow();
    refused();
    cut_a_row();
    line_figures();
    return 0;
}
