/* nonblocking TEXT WRITER PROGRAM: becomes the program, with standard input a non-blocking pipe that holds the file TEXT.
 * WRITER is `gone`, and the pipe ends there, or `there`, and more may come: the program holds the writing end itself. */
#define _GNU_SOURCE
#include <fcntl.h>
#include <stdio.h>
#include <string.h>
#include <unistd.h>

enum { MOST = 1 << 16 };

static int fail(const char *what)
{
    perror(what);
    return 1;
}

int main(int argc, char **argv)
{
    static char text[MOST];
    int ends[2];
    if (argc != 4)
        return 2;
    FILE *file = fopen(argv[1], "rb");
    if (!file)
        return fail(argv[1]);
    size_t size = fread(text, 1, sizeof text, file);
    if (pipe2(ends, O_NONBLOCK) < 0 || write(ends[1], text, size) != (ssize_t)size || dup2(ends[0], STDIN_FILENO) < 0)
        return fail("a pipe that holds the text");
    if (strcmp(argv[2], "gone") == 0)
        close(ends[1]);
    execl(argv[3], argv[3], (char *)0);
    return fail(argv[3]);
}
