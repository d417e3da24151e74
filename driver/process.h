/* What the program shares with its surroundings: signals and the lines that it prints. */
#ifndef PROCESS_H
#define PROCESS_H

#include "text.h"

/* A signal ends the work in order, so that no temporary file is left; a closed pipe or a file's limit is an error of writing. */
void catch_signals(void);

/* 1 once SIGINT, SIGTERM, SIGHUP or another signal that asks for the end has come. */
int stop_asked(void);

/* 1 if SIGUSR1 has come since the last call. */
int save_asked(void);

/* Lines go to standard output, or to standard error where that carries a capture. */
void lines_to_error(void);

/* Ends a line, writes it out and clears it for the next one. A JSON object gets its outer brackets. */
void line_out(struct text *line);

/* Brings the lines out that were written: 0, or 1 and said, once. */
int output_ready(void);

#endif
