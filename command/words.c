#include "words.h"

#include <stdio.h>

#include "records.h"

bool is_failure(const uint8_t *entry)
{
    return entry[TAMPERMAUVE_ENTRY_OUTCOME] == TAMPERMAUVE_OUTCOME_FAILED;
}

static void short_outcome(char *words, size_t room, unsigned op, unsigned outcome)
{
    switch (op) {
    case TAMPERMAUVE_OP_LOCK:
    case TAMPERMAUVE_OP_UNLOCK:
        snprintf(words, room, "holds %u", outcome);
        break;
    case TAMPERMAUVE_OP_SIGNAL:
        snprintf(words, room, outcome == TAMPERMAUVE_OUTCOME_NONE ? "nobody" : "wakes %u", outcome);
        break;
    case TAMPERMAUVE_OP_BROADCAST:
        snprintf(words, room, outcome == 0 ? "nobody" : "%u woken", outcome);
        break;
    case TAMPERMAUVE_OP_BARRIER:
        snprintf(words, room, outcome == TAMPERMAUVE_OUTCOME_QUEUED ? "queued" : "full (%u)", outcome);
        break;
    case TAMPERMAUVE_OP_START:
        snprintf(words, room, outcome == TAMPERMAUVE_OUTCOME_STARTED ? "started" : "was awake");
        break;
    default:
        words[0] = '\0';
    }
}

struct label label_of(const uint8_t *entry)
{
    struct label label;
    unsigned op = entry[TAMPERMAUVE_ENTRY_OP], number = entry[TAMPERMAUVE_ENTRY_NUMBER];
    if (op == TAMPERMAUVE_OP_EXIT)
        snprintf(label.step, sizeof label.step, "%s", op_word(op));
    else
        snprintf(label.step, sizeof label.step, "%s %u", op_word(op), number);
    if (is_failure(entry))
        snprintf(label.outcome, sizeof label.outcome, "FAILED");
    else
        short_outcome(label.outcome, sizeof label.outcome, op, entry[TAMPERMAUVE_ENTRY_OUTCOME]);
    return label;
}

static void woken_words(struct bytes *page, unsigned op, unsigned outcome)
{
    if (op == TAMPERMAUVE_OP_BROADCAST && outcome > 0)
        count_words(page, outcome, "worker woken", "workers woken");
    else if (op == TAMPERMAUVE_OP_SIGNAL && outcome != TAMPERMAUVE_OUTCOME_NONE)
        bytes_print(page, "worker %u woken", outcome);
    else
        bytes_print(page, "nobody waited");
}

void outcome_words(struct bytes *page, const uint8_t *entry)
{
    unsigned op = entry[TAMPERMAUVE_ENTRY_OP], number = entry[TAMPERMAUVE_ENTRY_NUMBER];
    unsigned outcome = entry[TAMPERMAUVE_ENTRY_OUTCOME];
    if (is_failure(entry))
        bytes_print(page, "FAILED; the worker leaves for good");
    else if (op == TAMPERMAUVE_OP_LOCK || op == TAMPERMAUVE_OP_UNLOCK)
        bytes_print(page, outcome == 1 ? "holds %u lock now" : "holds %u locks now", outcome);
    else if (op == TAMPERMAUVE_OP_SIGNAL || op == TAMPERMAUVE_OP_BROADCAST)
        woken_words(page, op, outcome);
    else if (op == TAMPERMAUVE_OP_WAIT)
        bytes_print(page, "waits on condition %u", number);
    else if (op == TAMPERMAUVE_OP_BARRIER)
        bytes_print(page, outcome == TAMPERMAUVE_OUTCOME_QUEUED ? "queued at the barrier" : "full: all %u go on", outcome);
    else if (op == TAMPERMAUVE_OP_START)
        bytes_print(page, outcome == TAMPERMAUVE_OUTCOME_STARTED ? "worker %u started" : "worker %u was not asleep", number);
    else
        bytes_print(page, "leaves");
}

/* The number in the last record that a worker added before a move. */
static unsigned last_number(const struct trace *trace, size_t move, unsigned worker)
{
    const struct move *last;
    do
        last = trace_move(trace, --move);
    while (last->worker != worker || last->record == 0);
    return trace_record(trace, last->record)[TAMPERMAUVE_ENTRY_NUMBER];
}

struct phrase fate_phrase(const struct trace *trace, size_t move, unsigned worker)
{
    struct phrase phrase = {""};
    unsigned fate = trace_fate(trace, move, worker);
    if (fate == TAMPERMAUVE_FATE_EXITED)
        snprintf(phrase.text, sizeof phrase.text, "exited");
    else if (fate == TAMPERMAUVE_FATE_FAILED)
        snprintf(phrase.text, sizeof phrase.text, "failed");
    else if (fate == TAMPERMAUVE_FATE_ON_CONDITION)
        snprintf(phrase.text, sizeof phrase.text, "on condition %u", last_number(trace, move, worker));
    else if (fate == TAMPERMAUVE_FATE_AT_BARRIER)
        snprintf(phrase.text, sizeof phrase.text, "at barrier %u", last_number(trace, move, worker));
    else if (fate == TAMPERMAUVE_FATE_ASLEEP)
        snprintf(phrase.text, sizeof phrase.text, "asleep");
    return phrase;
}

const char *end_word(unsigned end)
{
    static const char *const words[] = {"going", "finished", "stuck"};
    return words[end];
}

void count_words(struct bytes *page, size_t count, const char *one, const char *many)
{
    bytes_print(page, "%lu %s", (unsigned long)count, count == 1 ? one : many);
}

static void escaped_character(struct bytes *page, char c)
{
    switch (c) {
    case '&':
        bytes_print(page, "&amp;");
        break;
    case '<':
        bytes_print(page, "&lt;");
        break;
    case '>':
        bytes_print(page, "&gt;");
        break;
    case '"':
        bytes_print(page, "&quot;");
        break;
    case '\'':
        bytes_print(page, "&#39;");
        break;
    default:
        bytes_add(page, &c, 1);
    }
}

void escaped(struct bytes *page, const char *text)
{
    for (; *text != '\0'; text++)
        escaped_character(page, *text);
}

void change_words(struct bytes *page, const struct change *change)
{
    bytes_print(page, "%u:&#160;%02X&#8594;%02X", change->address, change->before, change->after);
}
