/* answer FLOW [auto]: answers the lines on standard input as `falkirk live` does, but for its last line. */
#define _POSIX_C_SOURCE 200809L
#include "falkirk.h"
#include <stdio.h>
#include <stdlib.h>
#include <string.h>

/* All bytes of a file. */
static uint8_t *read_all(const char *name, size_t *len)
{
    uint8_t *bytes = malloc(1 << 21);
    FILE *file = fopen(name, "rb");
    if (!bytes || !file)
        exit(1);
    *len = fread(bytes, 1, 1 << 21, file);
    fclose(file);
    return bytes;
}

int main(int count, char **words)
{
    falkirk_session session = FALKIRK_NONE;
    falkirk_bytes answer = {NULL, 0};
    if (count < 2)
        return 2;
    size_t flow_len, room = 0;
    uint8_t *flow = read_all(words[1], &flow_len);
    uint32_t code = falkirk_open(&session, flow, flow_len, count > 2 && strcmp(words[2], "auto") == 0);
    free(flow);
    char *line = NULL;
    ssize_t len;
    while (code == FALKIRK_ANSWERED && (len = getline(&line, &room, stdin)) >= 0) {
        code = falkirk_line(&session, (uint8_t *)line, (size_t)len);
        if (code == FALKIRK_ANSWERED && falkirk_answer_at(&session, &answer))
            fwrite(answer.at, 1, answer.len, stdout);
    }
    if (code == FALKIRK_FLOW_REFUSED && falkirk_answer_at(&session, &answer))
        fwrite(answer.at, 1, answer.len, stderr);
    free(line);
    falkirk_close(&session);
    return (int)code;
}
