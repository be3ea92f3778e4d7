/*
 * Where C places the header's structs: `STRUCT SIZE`, and `STRUCT.FIELD OFFSET` for each of its fields. rust/c/layout.out
 * keeps what it prints; the Rust crate's test holds Rust's own placing to the same file.
 */
#include <stdio.h>

#include "wondraxu.h"

#define SIZE(name) printf(#name " %zu\n", sizeof(struct wondraxu_##name))
#define FIELD(name, field) printf(#name "." #field " %zu\n", offsetof(struct wondraxu_##name, field))

static void small(void)
{
    SIZE(words);
    FIELD(words, int_ena);
    FIELD(words, clkdiv);
    FIELD(words, conf0);
    FIELD(words, conf1);
    FIELD(words, clk_conf);
    FIELD(words, idle_conf);
    FIELD(words, rs485_conf);
    FIELD(words, at_cmd_char);
    FIELD(words, mem_conf);
    SIZE(register_map);
    FIELD(register_map, offsets);
    FIELD(register_map, reset);
    FIELD(register_map, idle_status);
    FIELD(register_map, mem_rx_status);
    SIZE(cursor);
    FIELD(cursor, start);
    FIELD(cursor, count);
    SIZE(date);
    FIELD(date, set);
    FIELD(date, at);
}

static void core(void)
{
    SIZE(core);
    FIELD(core, map);
    FIELD(core, words);
    FIELD(core, int_raw);
    FIELD(core, rx_mistimed);
    FIELD(core, idle_since);
    FIELD(core, line_free_at);
    FIELD(core, period);
    FIELD(core, last);
    FIELD(core, wake);
    FIELD(core, powered_down_at);
    FIELD(core, timed_on);
    FIELD(core, on_the_line);
    FIELD(core, heard);
    FIELD(core, watched);
    FIELD(core, level);
    FIELD(core, flight);
    FIELD(core, tx);
    FIELD(core, host);
    FIELD(core, runs);
    FIELD(core, rx);
    FIELD(core, byte);
}

static void answers(void)
{
    SIZE(reply);
    FIELD(reply, number);
    FIELD(reply, holds);
    FIELD(reply, value);
    SIZE(row);
    FIELD(row, number);
    FIELD(row, made);
    FIELD(row, first);
    FIELD(row, second);
    SIZE(notice);
    FIELD(notice, what);
    FIELD(notice, which);
    SIZE(report);
    FIELD(report, level);
    FIELD(report, wake);
    FIELD(report, overflows);
    FIELD(report, passes);
    FIELD(report, noted);
    FIELD(report, notices);
    SIZE(answer);
    FIELD(answer, core);
    FIELD(answer, reply);
    FIELD(answer, report);
    SIZE(row_answer);
    FIELD(row_answer, core);
    FIELD(row_answer, reply);
    FIELD(row_answer, report);
    SIZE(line_figures);
    FIELD(line_figures, number);
    FIELD(line_figures, placed);
    FIELD(line_figures, busy);
    FIELD(line_figures, shortest);
    FIELD(line_figures, longest);
    FIELD(line_figures, quiet);
    FIELD(line_figures, at);
    FIELD(line_figures, mean);
    FIELD(line_figures, remainder);
    SIZE(sixteen);
    FIELD(sixteen, words);
    SIZE(set_up);
    FIELD(set_up, core);
    FIELD(set_up, reply);
}

static void whole(void)
{
    SIZE(slots);
    FIELD(slots, gone_at);
    FIELD(slots, flight);
    FIELD(slots, tx);
    FIELD(slots, host);
    FIELD(slots, run_at);
    FIELD(slots, run_len);
    FIELD(slots, rx);
    SIZE(uart);
    FIELD(uart, core);
    FIELD(uart, slots);
}

int main(void)
{
    small();
    core();
    answers();
    whole();
    return 0;
}
