/* tfnode: a Trianglefire node in a file.  Finds the command that was typed and runs it. */
#include "commands.h"

#include <fcntl.h>
#include <stdio.h>
#include <string.h>
#include <unistd.h>

/* A standard stream that was closed would lend its number to the image, and what is printed would
 * land there.  Each is opened the wrong way round, so that using it fails. */
static void keep_standard_streams(void)
{
    for (int fd = STDIN_FILENO; fd <= STDERR_FILENO; fd++) {
        int wrong_way = fd == STDIN_FILENO ? O_WRONLY : O_RDONLY;
        if (fcntl(fd, F_GETFD) < 0 && open("/dev/null", wrong_way) != fd)
            _exit(STATUS_FILE);
    }
}

int main(int argc, char **argv)
{
    struct arguments arguments;
    keep_standard_streams();
    if (argc < 2)
        fail(STATUS_USAGE, "no command; see `tfnode --help`");
    if (strcmp(argv[1], "--help") == 0) {
        fputs(overview, stdout);
        flush_answer();
        return STATUS_DONE;
    }
    const struct command *command = find_command(argv[1]);
    if (command == NULL)
        fail(STATUS_USAGE, "there is no command `%s`; see `tfnode --help`", argv[1]);
    take_arguments(&arguments, command, argv + 2);
    enum status status = STATUS_DONE;
    if (given(&arguments, OPTION_HELP))
        fputs(command->help, stdout);
    else
        status = command->run(&arguments);
    flush_answer();
    return (int)status;
}
