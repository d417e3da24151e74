/* The commands: each returns the exit status. */
#ifndef COMMANDS_H
#define COMMANDS_H

#include "options.h"

int receive_command(const struct options *options);
int convert_command(const struct options *options);
int lookup_command(const struct options *options);
int age_command(const struct options *options);
int check_command(const struct options *options);
int live_command(const struct options *options);
int send_command(const struct options *options);
int set_command(const struct options *options);
int unset_command(const struct options *options);
int widen_command(const struct options *options);
int write_command(const struct options *options);
int why_command(const struct options *options);
int report_command(const struct options *options);
int hello_command(const struct options *options);
int hello_write_command(const struct options *options);

#endif
