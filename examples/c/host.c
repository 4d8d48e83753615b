/*
 * A host in C: routes the machine of a machine text, prints the report, and lets `check` judge it.
 *
 *     host MACHINE [OPTION]..
 *
 * Its output, its error line and its exit status are those of `acpiroute route OPTION.. < MACHINE`. Where `check` says no to the
 * report, which it never does, the status is 99.
 */
#include <stdio.h>
#include <stdlib.h>
#include <string.h>

#include "acpiroute.h"
#include "bytes.h"

/* A reply with its text and its line. */
struct answer {
    struct bytes text;
    struct bytes line;
    uint8_t status;
};

typedef uint32_t (*call)(const uint8_t *, size_t, const uint8_t *, size_t, uint8_t *, size_t, uint8_t *, size_t,
                         struct acpiroute_reply *);

/* Options, parted by single blanks. */
static struct bytes joined(int count, char **words) {
    size_t length = 0;
    for (int i = 0; i < count; i++)
        length += strlen(words[i]) + 1;
    struct bytes line = room(length > 0 ? length - 1 : 0);
    size_t at = 0;
    for (int i = 0; i < count; i++) {
        if (i > 0)
            line.at[at++] = ' ';
        memcpy(line.at + at, words[i], strlen(words[i]));
        at += strlen(words[i]);
    }
    return line;
}

/* Makes a call: with little room at first, and with what it asks for where that is too small. */
static struct answer ask(call command, struct bytes options, struct bytes input) {
    size_t text_room = 256;
    size_t line_room = 64;
    for (;;) {
        struct acpiroute_reply reply;
        struct answer answer = {room(text_room), room(line_room), 0};
        uint32_t came = command(options.at, options.length, input.at, input.length, answer.text.at, text_room,
                                answer.line.at, line_room, &reply);
        if (came == ACPIROUTE_REPLIED) {
            answer.text.length = reply.text_length;
            answer.line.length = reply.line_length;
            answer.status = reply.status;
            return answer;
        }
        if (came != ACPIROUTE_TOO_SMALL)
            stop(came == ACPIROUTE_NO_MEMORY ? "out of memory" : "an option is not UTF-8");
        free(answer.text.at);
        free(answer.line.at);
        text_room = reply.text_length;
        line_room = reply.line_length;
    }
}

int main(int count, char **words) {
    if (count < 2)
        stop("a machine text is wanted");
    struct bytes machine = read_file(words[1]);
    struct bytes options = joined(count - 2, words + 2);
    struct bytes none = room(0);
    struct answer report = ask(acpiroute_route, options, machine);
    fwrite(report.text.at, 1, report.text.length, stdout);
    fwrite(report.line.at, 1, report.line.length, stderr);
    if (report.status == 0 || report.status == 3) {
        struct answer verdict = ask(acpiroute_check, none, report.text);
        if (verdict.status != 0)
            return 99;
    }
    return report.status;
}
