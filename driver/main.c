/* A port driver over the Shinglebar library. */
#define _POSIX_C_SOURCE 200809L
#include <stdio.h>
#include <unistd.h>

#include "commands.h"
#include "path.h"
#include "process.h"

#define LINES_ROOM 65536

int main(int count, char **words)
{
    static char lines[LINES_ROOM];
    struct options options;
    /* A line is written out with others, but on a terminal; a message brings out what came before it. */
    setvbuf(stdout, lines, isatty(STDOUT_FILENO) ? _IOLBF : _IOFBF, sizeof lines);
    int status = options_read(count, words, &options);
    if (status >= 0)
        return output_ready() != 0 ? 1 : status;
    catch_signals();
    if (is_standard(options.out))
        lines_to_error();
    switch (options.command) {
    case RECEIVE:
        return receive_command(&options);
    case COMPACT:
    case EXPAND:
    case INGRESS:
        return convert_command(&options);
    case LOOKUP:
        return lookup_command(&options);
    case AGE:
        return age_command(&options);
    case CHECK:
        return check_command(&options);
    case LIVE:
        return live_command(&options);
    case SEND:
        return send_command(&options);
    case SET:
        return set_command(&options);
    case UNSET:
        return unset_command(&options);
    case WIDEN:
        return widen_command(&options);
    case WRITE:
        return write_command(&options);
    case WHY:
        return why_command(&options);
    case REPORT:
        return report_command(&options);
    case HELLO:
        return hello_command(&options);
    case HELLO_WRITE:
        return hello_write_command(&options);
    }
    return 2;
}
