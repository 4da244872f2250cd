/* kept FILE [COUNT]: the shop of shop.c, with a session that lasts, of which FILE keeps what it writes. It ends behind COUNT lines, as if
   it were killed; called again it goes on from there. */
#define _POSIX_C_SOURCE 200809L
#include "falkirk.h"
#include <stdio.h>
#include <stdlib.h>
#include <string.h>
#include <unistd.h>

static const char flow[] = "node orders input\nnode sums total policy lazy\nnode shop output epoch\n"
                           "edge to_sums orders sums\nedge to_shop sums shop\n";
static const char *const lines[] = {"batch orders 1:20 2:150", "batch orders 1:5", "checkpoint sums", "fail sums",
                                    "batch orders 2:1 3:7",    "batch orders 3",   "recover",         "close orders", "batch orders 4:1"};

/* What FILE has before the bytes of a write; and behind those of an opening, or of a line, which are all there then. */
enum kind { REMOVED, PUT, OPENED, DONE };
struct head {
    uint64_t kind, id, len;
};

static void want(bool well, const char *what)
{
    if (!well)
        fprintf(stderr, "%s failed\n", what), exit(1);
}

/* Tells the session what was kept, up to the last line that is whole. Answers how many lines that were. */
static size_t tell_kept(falkirk_session *session, FILE *file)
{
    struct head head;
    size_t done = 0;
    long end = 0;
    for (; fread(&head, sizeof head, 1, file) == 1 && fseek(file, (long)head.len, SEEK_CUR) == 0; done += head.kind == DONE)
        end = head.kind >= OPENED ? ftell(file) : end;
    want(ftruncate(fileno(file), end) == 0, "ftruncate");
    for (rewind(file); fread(&head, sizeof head, 1, file) == 1;) {
        uint8_t *bytes = malloc(head.len + 1);
        want(bytes && fread(bytes, 1, head.len, file) == head.len, "fread");
        want(head.kind != PUT || falkirk_put(session, head.id, bytes, head.len) == FALKIRK_ANSWERED, "falkirk_put");
        want(head.kind != REMOVED || falkirk_remove(session, head.id) == FALKIRK_ANSWERED, "falkirk_remove");
        free(bytes);
    }
    return done;
}

/* Keeps what the session wrote, and that this is all. */
static void keep(falkirk_session *session, FILE *file, enum kind kind)
{
    falkirk_write write = {0, false, NULL, 0};
    struct head last = {kind, 0, 0};
    for (size_t i = 0; falkirk_writes(session, i, &write); i++) {
        struct head head = {write.put ? PUT : REMOVED, write.id, write.len};
        want(fwrite(&head, sizeof head, 1, file) == 1, "fwrite");
        want(!write.put || fwrite(write.at, 1, write.len, file) == write.len, "fwrite");
    }
    want(fwrite(&last, sizeof last, 1, file) == 1 && fflush(file) == 0 && fsync(fileno(file)) == 0, "fsync");
}

int main(int count, char **words)
{
    falkirk_session session = FALKIRK_NONE;
    falkirk_bytes answer = {NULL, 0};
    FILE *file = count > 1 ? fopen(words[1], "a+b") : NULL;
    want(file && falkirk_gather(&session) == FALKIRK_ANSWERED, "fopen");
    size_t i = tell_kept(&session, file), most = count > 2 ? (size_t)atoi(words[2]) : SIZE_MAX;
    want(falkirk_open_from(&session, (const uint8_t *)flow, strlen(flow), true) == FALKIRK_ANSWERED, "falkirk_open_from");
    for (keep(&session, file, OPENED); i < sizeof lines / sizeof *lines && most-- > 0; i++) {
        want(falkirk_line(&session, (const uint8_t *)lines[i], strlen(lines[i])) == FALKIRK_ANSWERED, "falkirk_line");
        keep(&session, file, DONE);
        falkirk_answer_at(&session, &answer);
        printf("%s\n%.*s", lines[i], (int)answer.len, (const char *)answer.at);
    }
    if (i < sizeof lines / sizeof *lines)
        fflush(stdout), _exit(0);
    falkirk_close(&session);
    return fclose(file);
}
