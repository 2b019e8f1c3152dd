/* nuggetbay-case: reads a case text from standard input and prints its frame, as the proved program `case` does, and says by its
 * status how it went, which that one doesn't. All that is computed is computed by nb_case. */
#include <errno.h>
#include <nuggetbay.h>
#include <signal.h>
#include <stdio.h>
#include <string.h>
#include <unistd.h>

/* DONE: a sheet was given, or the words that were asked for. */
enum status { DONE = 0, REFUSED = 1, FAILED = 2 };

static const char HELP[] =
    "usage: nuggetbay-case < CASE\n"
    "\n"
    "Reads a case text from standard input and prints its frame, or the number of its refusal, as one line.\n"
    "\n"
    "  --help       this page\n"
    "  --version    the version\n"
    "\n"
    "status: 0 a sheet was given; 1 the case was refused; 2 not all could be read or written, or an argument is unknown,\n"
    "and standard error says which\n";

static enum status failed(const char *what, int error) {
    fprintf(stderr, "nuggetbay-case: %s: %s\n", what, strerror(error));
    return FAILED;
}

/* Reads until the input ends, reading fails or the buffer is full; answers how many bytes came. */
static size_t read_input(uint8_t *text, size_t most, int *error) {
    size_t length = 0;
    while (length < most) {
        ssize_t got = read(STDIN_FILENO, text + length, most - length);
        if (got > 0) length += (size_t)got;
        else if (got == 0) break;
        else if (errno != EINTR) {
            *error = errno;
            break;
        }
    }
    return length;
}

/* Writes all; answers 0, or what went wrong. A disk may say only at the closing that it is full. */
static int write_output(const void *bytes, size_t length) {
    const char *at = bytes;
    while (length > 0) {
        ssize_t written = write(STDOUT_FILENO, at, length);
        if (written > 0) {
            at += written;
            length -= (size_t)written;
        } else if (written == 0 || errno != EINTR) {
            return written == 0 ? EIO : errno;
        }
    }
    return close(STDOUT_FILENO) == 0 || errno == EINTR ? 0 : errno;
}

static enum status print_words(const char *words) {
    int error = write_output(words, strlen(words));
    return error == 0 ? DONE : failed("standard output can't be written", error);
}

static enum status print_version(void) {
    char words[64];
    unsigned version = nb_version();
    snprintf(words, sizeof words, "nuggetbay-case %u.%u.%u\n", version / 10000, version / 100 % 100, version % 100);
    return print_words(words);
}

/* Where reading fails, what came before is judged, as the proved program does; the status tells. */
static enum status run_case(void) {
    /* one byte more than a text has, so that a longer input is seen to be longer */
    static uint8_t text[NB_TEXT_LENGTH + 1];
    static uint32_t counts[NB_MAP_CELLS];
    static uint64_t marks[NB_MAP_ROWS];
    uint8_t frame[NB_FRAME_LENGTH];
    int reading = 0;
    size_t length = read_input(text, sizeof text, &reading);
    uint8_t refusal = nb_case(text, length, counts, NB_MAP_CELLS, marks, NB_MAP_ROWS, frame, sizeof frame);
    int writing = write_output(frame, refusal == NB_ACCEPTED ? NB_FRAME_LENGTH : NB_REFUSAL_LENGTH);
    enum status status = refusal == NB_ACCEPTED ? DONE : REFUSED;
    if (reading != 0) status = failed("standard input can't be read to its end", reading);
    if (writing != 0) status = failed("standard output can't be written", writing);
    return status;
}

int main(int argc, char **argv) {
    /* a closed pipe, or a file that may not grow, is an error of the writing and not the program's end */
    signal(SIGPIPE, SIG_IGN);
    signal(SIGXFSZ, SIG_IGN);
    for (int i = 1; i < argc; i++)
        if (strcmp(argv[i], "--help") != 0 && strcmp(argv[i], "--version") != 0) {
            fprintf(stderr, "nuggetbay-case: unknown argument '%s': the case is read from standard input; see --help\n", argv[i]);
            return FAILED;
        }
    if (argc < 2) return run_case();
    return strcmp(argv[1], "--help") == 0 ? print_words(HELP) : print_version();
}
