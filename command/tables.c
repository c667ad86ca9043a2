#include "tables.h"

#include <stdbool.h>

#include "records.h"
#include "words.h"

/* The last record of a worker; 0 if it has none. */
static size_t last_record(const struct trace *trace, unsigned worker)
{
    size_t number = trace_records(trace);
    while (number > 0 && trace_record(trace, number)[TAMPERMAUVE_ENTRY_WORKER] != worker)
        number--;
    return number;
}

static void write_since(const struct trace *trace, size_t record, struct bytes *page)
{
    if (record > 0) {
        const struct move *move = trace_move_of_record(trace, record);
        bytes_print(page, "record <a href='#record-%lu'>%lu</a>, in round %u, by turn %lu", (unsigned long)record,
                    (unsigned long)record, move->round, (unsigned long)move->turn);
    } else {
        bytes_print(page, "none");
    }
}

static void write_workers(const struct trace *trace, struct bytes *page)
{
    bytes_print(page, "<h2 id='workers'>Workers</h2>\n<table class='whole'>\n<thead><tr><th scope='col' class='n'>worker</th>"
                      "<th scope='col'>in the end</th><th scope='col'>last log record</th></tr></thead>\n<tbody>\n");
    for (unsigned worker = 0; worker < trace->workers; worker++) {
        struct phrase fate = fate_phrase(trace, trace->given, worker);
        bytes_print(page, "<tr><th scope='row' class='n'>%u</th><td>%s</td><td>", worker,
                    fate.text[0] != '\0' ? fate.text : "going");
        write_since(trace, last_record(trace, worker), page);
        bytes_print(page, "</td></tr>\n");
    }
    bytes_print(page, "</tbody>\n</table>\n");
}

static void write_words(const struct trace *trace, struct bytes *page)
{
    for (unsigned at = 0; at < TAMPERMAUVE_MEMORY_LENGTH; at += 2) {
        unsigned before = tampermauve_word(trace->memory, at), after = tampermauve_word(trace->left.memory, at);
        if (before != after)
            bytes_print(page, "<tr><th scope='row' class='n'>%u</th><td class='n'>%u</td><td class='n'>%u</td>"
                              "<td class='n'>%04X</td><td class='n'>%04X</td></tr>\n", at, before, after, before, after);
    }
}

static bool is_memory_changed(const struct trace *trace)
{
    unsigned at = 0;
    while (at < TAMPERMAUVE_MEMORY_LENGTH && trace->memory[at] == trace->left.memory[at])
        at++;
    return at < TAMPERMAUVE_MEMORY_LENGTH;
}

static void write_memory(const struct trace *trace, struct bytes *page)
{
    bytes_print(page, "<h2 id='memory'>Memory that changed</h2>\n");
    if (!is_memory_changed(trace)) {
        bytes_print(page, "<p>Shared memory is as it was at the start.</p>\n");
        return;
    }
    bytes_print(page, "<table>\n<caption>The words at even addresses that are not as they were; the hexadecimal ones have their "
                      "high byte first.</caption>\n<thead><tr><th scope='col' class='n'>address</th>"
                      "<th scope='col' class='n'>before</th><th scope='col' class='n'>after</th>"
                      "<th scope='col' class='n'>before, hex</th><th scope='col' class='n'>after, hex</th></tr></thead>\n"
                      "<tbody>\n");
    write_words(trace, page);
    bytes_print(page, "</tbody>\n</table>\n");
}

static void write_changes(const struct trace *trace, const struct move *move, struct bytes *page)
{
    for (size_t i = 0; i < move->changes_length; i++) {
        bytes_print(page, i > 0 ? ", " : "");
        change_words(page, trace_change(trace, move->changes + i));
    }
}

static void write_record(const struct trace *trace, const struct move *move, struct bytes *page)
{
    const uint8_t *entry = trace_record(trace, move->record);
    unsigned op = entry[TAMPERMAUVE_ENTRY_OP];
    unsigned round = tampermauve_word(entry, TAMPERMAUVE_ENTRY_ROUND);
    bytes_print(page, "<tr id='record-%lu'%s><th scope='row' class='n'>%lu</th><td class='n'><a href='#round-%u'>%u</a></td>"
                      "<td class='n'>%u</td><td class='n'>%u</td><td>%s</td><td class='n'>%u</td><td class='n'>%u</td><td>",
                (unsigned long)move->record, is_failure(entry) ? " class='failed'" : "", (unsigned long)move->record, round,
                round, (unsigned)entry[TAMPERMAUVE_ENTRY_WORKER], op, op_word(op), (unsigned)entry[TAMPERMAUVE_ENTRY_NUMBER],
                (unsigned)entry[TAMPERMAUVE_ENTRY_OUTCOME]);
    outcome_words(page, entry);
    bytes_print(page, "</td><td class='n'>%lu</td><td class='changes'>", (unsigned long)move->turn);
    write_changes(trace, move, page);
    bytes_print(page, "</td></tr>\n");
}

static void write_log(const struct trace *trace, struct bytes *page)
{
    bytes_print(page, "<h2 id='log'>Log</h2>\n");
    if (trace_records(trace) == 0) {
        bytes_print(page, "<p>The log is empty.</p>\n");
        return;
    }
    bytes_print(page, "<table class='log'>\n<thead><tr><th scope='col' class='n'>record</th><th scope='col' class='n'>round</th>"
                      "<th scope='col' class='n'>worker</th><th scope='col' class='n'>op</th><th scope='col'>step</th>"
                      "<th scope='col' class='n'>number</th><th scope='col' class='n'>outcome</th>"
                      "<th scope='col'>the outcome in words</th><th scope='col' class='n'>turn</th>"
                      "<th scope='col'>bytes changed, address: old&#8594;new</th></tr></thead>\n<tbody>\n");
    for (size_t i = 0; i < trace->given; i++)
        if (trace_move(trace, i)->record > 0)
            write_record(trace, trace_move(trace, i), page);
    bytes_print(page, "</tbody>\n</table>\n");
}

void tables_write(const struct trace *trace, struct bytes *page)
{
    write_workers(trace, page);
    write_memory(trace, page);
    write_log(trace, page);
}
