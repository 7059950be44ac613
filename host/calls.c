/* calls.c: the calls on the proved gateway, with log lines for what each did. */
#include "calls.h"

#include "names.h"
#include "port.h"

/* The packets that a block dropped, and how many body bytes they had taken together. */
static void log_drops(struct host *host, uint8_t line, const tha_counts *counts)
{
    struct count_words words;

    if (count_words(&words, counts, true)) {
        log_line(&host->log, "%s drop %s body %u%s", line_word(line), words.numbers, (unsigned)counts->body, words.meaning);
    }
}

/* The frames that a block refused. */
static void log_refused(struct host *host, uint8_t line, const tha_counts *counts)
{
    struct count_words words;

    if (count_words(&words, counts, false)) {
        log_line(&host->log, "%s refused %s%s", line_word(line), words.numbers, words.meaning);
    }
}

/* The updates that a block queued: the last ones that wait. */
static void log_queued(struct host *host, size_t queued)
{
    const tha_queue *queue = &host->gateway.queue;

    for (size_t place = queue->count - queued; place < queue->count; place++) {
        const tha_update *update = &queue->slots[place];
        char words[FIELD_WORDS_ROOM];

        field_words(words, update->line, update->field);
        log_line(&host->log, "queued %s value %u, %u waiting", words, update->value, (unsigned)place + 1);
    }
}

/* What the thermostat of the update at the head answers. It is not asked while no reply could be sent: that counts as silence. */
static tha_heard ask_head(const struct host *host, const tha_head_answer *head)
{
    tha_update update = {.line = head->line, .field = head->field, .value = head->value, .age = host->gateway.queue.slots[0].age};
    tha_heard silence = {.answered = false, .value = 0};

    return port_takes_reply(&host->ports[head->line]) ? host->thermostats.ask(host->thermostats.site, &update) : silence;
}

/* Tries the update at the head of the queue; its reply goes to the line that asked for it. */
static void try_head(struct host *host)
{
    tha_head_answer head = tha_head(host->gateway);
    tha_heard heard = ask_head(host, &head);
    uint8_t reply[THA_REPLY_ROOM];
    tha_result result = tha_turn(host->gateway, head.field, heard, reply, sizeof reply);
    char words[FIELD_WORDS_ROOM];

    host->gateway = result.gateway;
    field_words(words, head.line, head.field);
    if (result.answer.outcome == THA_REPLIED) {
        outbox_add(&host->ports[result.answer.line].outbox, reply, result.answer.count);
        host->unsaved = true;
        log_line(&host->log, "confirmed %s value %u", words, heard.value);
    } else if (result.answer.outcome == THA_REFUSED) {
        log_line(&host->log, "turn refused %u (%s)", result.answer.number, refusal_words(result.answer.number));
    } else if (heard.answered) {
        log_line(&host->log, "failed %s, %u is not a value for it", words, heard.value);
    }
}

/* Whether a reply could be sent on any line. */
static bool some_take_replies(const struct host *host)
{
    bool some = false;

    for (size_t i = 0; i < host->port_count; i++) {
        some = some || port_takes_reply(&host->ports[i]);
    }
    return some;
}

/*
 * Tries each update that waits once: a try that fails puts it at the tail, any other takes it out. So one whose reply could not be sent
 * goes to the tail, where it waits and grows older, and does not hold up those of the other line.
 */
static void try_all(struct host *host)
{
    size_t waiting = host->gateway.queue.count;

    for (size_t i = 0; i < waiting && some_take_replies(host); i++) {
        try_head(host);
    }
}

void feed(struct host *host, struct port *port)
{
    const uint8_t *bytes = port->inbox + port->inbox_next;
    struct outbox *outbox = &port->outbox;
    tha_blocked done;

    if (port_unfed(port) == 0 || !outbox_has_room(outbox)) {
        return;
    }
    done = tha_block(host->gateway, port->number, bytes, port_unfed(port), outbox_end(outbox), outbox_room(outbox));
    host->gateway = done.gateway;
    port->inbox_next += done.used;
    outbox_written(outbox, done.written);
    log_drops(host, port->number, &done.counts);
    log_queued(host, done.counts.queued);
    log_refused(host, port->number, &done.counts);
    if (done.counts.queued > 0) {
        try_all(host);
    }
}

/* Says that an update timed out, in the log and to the thermostats' side. */
static void tell_timed_out(struct host *host, const tha_line_field *update)
{
    char words[FIELD_WORDS_ROOM];

    log_line(&host->log, "timed out %s", field_words(words, update->line, update->field));
    if (host->thermostats.timed_out != NULL) {
        host->thermostats.timed_out(host->thermostats.site, &update->field);
    }
}

void tick(struct host *host)
{
    tha_ticked ticked = tha_tick(host->gateway);

    host->gateway = ticked.gateway;
    host->clock.ticks += 1;
    for (size_t i = 0; i < ticked.fields.count; i++) {
        tell_timed_out(host, &ticked.fields.list[i]);
    }
    try_all(host);
}
