/*
 * Runs a program on a standard input that brings the bytes of a file and then fails: failing_input FILE PROGRAM ARGUMENT.. The input is the master of a
 * pseudo-terminal: it brings what was written to the slave, and once the slave is closed Linux fails the next read with EIO, where a pipe would end. Stops with
 * status 1 and one line where the input can't be made; else the status is the program's. tests/programs.sh runs it.
 */
#define _XOPEN_SOURCE 700

#include <fcntl.h>
#include <stdio.h>
#include <stdlib.h>
#include <sys/ioctl.h>
#include <termios.h>
#include <time.h>
#include <unistd.h>

/* The most bytes of the file: few enough that the terminal holds them all, and the write waits for no reader. */
#define MOST 4000

/* Stops where a step fails. */
static void need(int holds, const char *what)
{
    if (!holds) {
        fprintf(stderr, "failing_input: %s\n", what);
        exit(1);
    }
}

/* The slave of a master, open, and set so that what is written there is brought as it is. */
static int open_slave(int master)
{
    struct termios mode;
    need(grantpt(master) == 0 && unlockpt(master) == 0 && ptsname(master) != NULL, "no slave");
    int slave = open(ptsname(master), O_RDWR | O_NOCTTY);
    need(slave >= 0 && tcgetattr(slave, &mode) == 0, "the slave can't be opened");
    mode.c_oflag &= ~(tcflag_t)OPOST;
    need(tcsetattr(slave, TCSANOW, &mode) == 0, "the slave can't be set");
    return slave;
}

/* Waits, a second at the most, until so many bytes can be read. */
static void await(int master, size_t size)
{
    const struct timespec pause = {0, 1000000};
    int there = 0;
    for (int i = 0; i < 1000 && (size_t)there < size; i++) {
        need(ioctl(master, FIONREAD, &there) == 0, "the bytes can't be counted");
        nanosleep(&pause, NULL);
    }
    need((size_t)there == size, "the bytes are not there");
}

/* Writes the bytes of a file to the slave, and sees that the master has them. */
static void write_file(const char *name, int slave, int master)
{
    static unsigned char bytes[MOST + 1];
    FILE *from = fopen(name, "rb");
    need(from != NULL, "the file can't be read");
    size_t size = fread(bytes, 1, sizeof bytes, from);
    fclose(from);
    need(size <= MOST, "the file is too long");
    need(write(slave, bytes, size) == (ssize_t)size, "the slave can't be written");
    await(master, size);
}

int main(int argc, char **argv)
{
    need(argc > 2, "usage: failing_input FILE PROGRAM ARGUMENT..");
    int master = posix_openpt(O_RDWR | O_NOCTTY);
    need(master >= 0, "no pseudo-terminal");
    int slave = open_slave(master);
    write_file(argv[1], slave, master);
    need(close(slave) == 0 && dup2(master, STDIN_FILENO) == STDIN_FILENO && close(master) == 0, "no standard input");
    execv(argv[2], argv + 2);
    need(0, "the program can't be run");
    return 1;
}
