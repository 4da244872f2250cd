/* A shop whose orders are summed up in this process: batches come, a checkpoint is taken, a node fails and is recovered. What is
   acknowledged or refused is printed. */
#include "falkirk.h"
#include <stdio.h>
#include <stdlib.h>
#include <string.h>

static const char flow[] = "node orders input\n"
                           "node sums total policy lazy\n"
                           "node shop output epoch\n"
                           "edge to_sums orders sums\n"
                           "edge to_shop sums shop\n";

static const char *const lines[] = {
    "batch orders 1:20 2:150",
    "batch orders 1:5",
    "checkpoint sums",
    "fail sums",
    "batch orders 2:1 3:7",
    "batch orders 3",
    "recover",
    "close orders",
    "batch orders 4:1",
};

static void stop(falkirk_session *session, const char *why)
{
    fprintf(stderr, "%s\n", why);
    falkirk_close(session);
    exit(1);
}

/* Whether a line of an answer is worth telling: all but what a recovery cuts, and what ends an answer that went well. */
static bool is_told(const char *line)
{
    return strncmp(line, "ack ", 4) == 0 || strncmp(line, "refused ", 8) == 0;
}

/* Gives the session a line, and prints what is told of it. */
static void ask(falkirk_session *session, const char *line)
{
    falkirk_bytes answer = {NULL, 0};
    uint32_t code = falkirk_line(session, (const uint8_t *)line, strlen(line));
    if (code != FALKIRK_ANSWERED || !falkirk_answer_at(session, &answer))
        stop(session, code == FALKIRK_NO_MEMORY ? "no memory" : "no session");
    const char *at = (const char *)answer.at, *end = at + answer.len;
    while (at < end) {
        const char *next = (const char *)memchr(at, '\n', (size_t)(end - at)) + 1;
        if (is_told(at))
            printf("%s: %.*s", line, (int)(next - at), at);
        at = next;
    }
}

int main(void)
{
    falkirk_session session = FALKIRK_NONE;
    if (falkirk_open(&session, (const uint8_t *)flow, strlen(flow), true) != FALKIRK_ANSWERED)
        stop(&session, "the session was not opened");
    for (size_t i = 0; i < sizeof lines / sizeof *lines; i++)
        ask(&session, lines[i]);
    falkirk_close(&session);
    return 0;
}
