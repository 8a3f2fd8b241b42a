/*
 * clog COMMAND..: runs the command with a pipe for its standard output that does not block and that is read only after the
 * command has ended, so that its writes fail with EAGAIN once the pipe is full. Then prints what is in the pipe, and ends with
 * the command's exit status.
 */
#define _GNU_SOURCE
#include <fcntl.h>
#include <stdio.h>
#include <sys/wait.h>
#include <unistd.h>

static int fault(const char *what)
{
    perror(what);
    return 125;
}

/* The command's exit status, or 125 where it has none. */
static int run(char **command, const int *ends)
{
    int status;
    pid_t child = fork();
    if (child < 0)
        return fault("clog: fork");
    if (child == 0) {
        dup2(ends[1], STDOUT_FILENO);
        execv(command[0], command);
        _exit(fault("clog: execv"));
    }
    if (waitpid(child, &status, 0) < 0)
        return fault("clog: waitpid");
    return WIFEXITED(status) ? WEXITSTATUS(status) : 125;
}

int main(int count, char **words)
{
    char bytes[4096];
    int ends[2], status;
    ssize_t got;
    if (count < 2 || pipe2(ends, O_NONBLOCK) < 0)
        return fault("clog: a command is wanted, and a pipe");
    status = run(words + 1, ends);
    while ((got = read(ends[0], bytes, sizeof bytes)) > 0)
        fwrite(bytes, 1, (size_t)got, stdout);
    return fflush(stdout) == 0 ? status : fault("clog: standard output");
}
