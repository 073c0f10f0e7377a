#include "reuse_process.h"

#ifndef RIG_KIT

#include <poll.h>
#include <sys/wait.h>
#include <unistd.h>

#else

struct pollfd {
    int fd;
    short events;
    short revents;
};
#define POLLIN 0x001
#define POLLOUT 0x004
#define SIGPIPE 13
#define SIG_DFL ((void (*)(int))0)
#define SIG_IGN ((void (*)(int))1)
#define SEEK_SET 0
#define WIFEXITED(status) (((status)&0x7F) == 0)
#define WEXITSTATUS(status) ((status) >> 8 & 0xFF)
int poll(struct pollfd *, unsigned long, int);
int pipe(int *);
int fork(void);
int dup2(int, int);
int close(int);
int execvp(const char *, char *const *);
int waitpid(int, int *, int);
unsigned alarm(unsigned);
long read(int, void *, size_t);
long write(int, const void *, size_t);
long lseek(int, long, int);
int ftruncate(int, long);
int mkstemp(char *);
int unlink(const char *);

#endif

enum { READ_END, WRITE_END };
enum { TO_PROGRAM, FROM_PROGRAM, MESSAGES, STREAMS }; /* as the program numbers its own */
enum { NO_FILE = -1, NOT_STARTED = 127 }; /* the latter as shells have it */

/* In the new process: the three files become its streams, all else of the pipes is closed. */
static void become(const struct command *command, const int file[STREAMS], const int *others, size_t other_count)
{
    for (int i = 0; i < STREAMS; i++) {
        if (file[i] != NO_FILE && dup2(file[i], i) < 0) {
            _Exit(NOT_STARTED);
        }
    }
    for (size_t i = 0; i < other_count; i++) {
        if (others[i] >= STREAMS) {
            close(others[i]);
        }
    }
    signal(SIGPIPE, SIG_DFL);
    alarm(SECONDS_MOST);
    execvp(command->part[0], (char *const *)command->part);
    _Exit(NOT_STARTED);
}

/* Pipes. */

struct pipes {
    int end[STREAMS][2];
};

static bool pipes_make(struct pipes *pipes)
{
    for (int i = 0; i < STREAMS; i++) {
        if (pipe(pipes->end[i]) != 0) {
            return false;
        }
    }
    return true;
}

static int program_end(int stream)
{
    return stream == TO_PROGRAM ? READ_END : WRITE_END;
}

/* What is on its way between the rig and the program. */
struct traffic {
    struct pollfd stream[STREAMS];
    const uint8_t *input;
    size_t left;
    size_t piece;
};

static void stream_ends(struct pollfd *stream)
{
    close(stream->fd);
    stream->fd = NO_FILE; /* poll passes over it */
}

/* A program that reads no more has closed the pipe: then nothing more is written. */
static void give_piece(struct traffic *t)
{
    size_t count = t->left < t->piece ? t->left : t->piece;
    long written = count > 0 ? (long)write(t->stream[TO_PROGRAM].fd, t->input, count) : 0;
    if (written > 0) {
        t->input += written;
        t->left -= (size_t)written;
    }
    if (written < 0 || t->left == 0) {
        stream_ends(&t->stream[TO_PROGRAM]);
    }
}

/* Keeps what there is room for, and counts all. */
static size_t keep(void *room, size_t room_len, size_t have, const uint8_t *bytes, size_t count)
{
    if (have < room_len) {
        size_t fits = room_len - have < count ? room_len - have : count;
        memcpy((uint8_t *)room + have, bytes, fits);
    }
    return have + count;
}

static void take_piece(struct traffic *t, int stream, struct ran *ran)
{
    static uint8_t bytes[65536];
    long count = (long)read(t->stream[stream].fd, bytes, sizeof bytes);
    if (count <= 0) {
        stream_ends(&t->stream[stream]);
    } else if (stream == FROM_PROGRAM) {
        ran->length = keep(ran->output, sizeof ran->output, ran->length, bytes, (size_t)count);
    } else {
        ran->messages = keep(ran->message, sizeof ran->message - 1, ran->messages, bytes, (size_t)count);
    }
}

/* No stream waits for another: whichever is ready is served. */
static void serve(struct traffic *t, struct ran *ran)
{
    while (t->stream[FROM_PROGRAM].fd != NO_FILE || t->stream[MESSAGES].fd != NO_FILE) {
        if (poll(t->stream, STREAMS, -1) < 0) {
            return;
        }
        if (t->stream[TO_PROGRAM].fd != NO_FILE && t->stream[TO_PROGRAM].revents != 0) {
            give_piece(t);
        }
        for (int i = FROM_PROGRAM; i < STREAMS; i++) {
            if (t->stream[i].fd != NO_FILE && t->stream[i].revents != 0) {
                take_piece(t, i, ran);
            }
        }
    }
}

static struct traffic traffic_of(const struct pipes *pipes, const uint8_t *input, size_t length, size_t piece)
{
    struct traffic t = {.input = input, .left = length, .piece = piece < PIECE_MOST ? piece : PIECE_MOST};
    for (int i = 0; i < STREAMS; i++) {
        t.stream[i] = (struct pollfd){pipes->end[i][1 - program_end(i)], i == TO_PROGRAM ? POLLOUT : POLLIN, 0};
    }
    return t;
}

/* A filter's exit status says nothing, but that it could be started and was not ended by a signal. */
static bool ends_by_itself(int process)
{
    int status = 0;
    return process > 0 && waitpid(process, &status, 0) == process && WIFEXITED(status) && WEXITSTATUS(status) != NOT_STARTED;
}

void run_by_pipes(const struct command *command, const uint8_t *input, size_t length, size_t piece, struct ran *ran)
{
    struct pipes pipes;
    ran->ended = false;
    ran->length = 0;
    ran->messages = 0;
    memset(ran->message, 0, sizeof ran->message);
    signal(SIGPIPE, SIG_IGN);
    if (!pipes_make(&pipes)) {
        return;
    }
    int process = fork();
    if (process == 0) {
        const int file[STREAMS] = {pipes.end[0][READ_END], pipes.end[1][WRITE_END], pipes.end[2][WRITE_END]};
        become(command, file, &pipes.end[0][0], 2 * (size_t)STREAMS);
    }
    for (int i = 0; i < STREAMS; i++) {
        close(pipes.end[i][program_end(i)]);
    }
    struct traffic t = traffic_of(&pipes, input, length, piece);
    serve(&t, ran);
    if (t.stream[TO_PROGRAM].fd != NO_FILE) {
        stream_ends(&t.stream[TO_PROGRAM]);
    }
    ran->ended = ends_by_itself(process);
}

/* Files. */

int scratch_file(void)
{
    char name[] = "/tmp/reuse-rig-XXXXXX";
    int file = mkstemp(name);
    if (file >= 0) {
        unlink(name);
    }
    return file;
}

bool write_whole(int file, const uint8_t *bytes, size_t length)
{
    while (length > 0) {
        long written = (long)write(file, bytes, length);
        if (written <= 0) {
            return false;
        }
        bytes += written;
        length -= (size_t)written;
    }
    return true;
}

size_t read_whole(int file, uint8_t *bytes, size_t room)
{
    size_t have = 0;
    while (have < room) {
        long count = (long)read(file, bytes + have, room - have);
        if (count <= 0) {
            break;
        }
        have += (size_t)count;
    }
    return have;
}

void rewind_file(int file)
{
    lseek(file, 0, SEEK_SET);
}

void empty_file(int file)
{
    if (ftruncate(file, 0) == 0) {
        rewind_file(file);
    }
}

bool run_by_files(const struct command *command, int input, int output)
{
    rewind_file(input);
    empty_file(output);
    int process = fork();
    if (process == 0) {
        const int file[STREAMS] = {input, output, NO_FILE};
        become(command, file, NULL, 0);
    }
    return ends_by_itself(process);
}
