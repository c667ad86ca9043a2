/* The subcommands. */
#ifndef COMMANDS_H
#define COMMANDS_H

#include "files.h"
#include "options.h"

enum status command_check(const struct options *options);
enum status command_run(const struct options *options);
enum status command_list(const struct options *options);
enum status command_assemble(const struct options *options);
enum status command_disassemble(const struct options *options);
enum status command_show(const struct options *options);

#endif
