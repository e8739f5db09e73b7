/* Drives the proved model of one IMR+ repeater with its HIMIB from a test harness in C.
 *
 *     struct roverivet chip;
 *     struct roverivet_answer answer;
 *     if (roverivet_open(&chip, NULL, NULL, ROVERIVET_SHORT_LIMIT)) return 3;
 *     unsigned char record[ROVERIVET_SIZE];
 *     roverivet_burst(record, ROVERIVET_TP(0), 1000, 64);
 *     if (roverivet_ask(&chip, record, &answer)) ...        the program has ended
 *     roverivet_close(&chip);
 *
 * One header, C99 and POSIX. It keeps one process: ./roverivet run, or the command named in roverivet_open.
 * The process ends when its input closes, and so with the harness, however that ends. Nothing here models
 * the chip: the answers are the program's. Document 01 has the record and the refusals. An answer that is
 * missing, surplus, out of order, or that no record of its kind can have is an error.
 *
 * Include it before any system header, or define _POSIX_C_SOURCE as 200809L.
 */
#ifndef ROVERIVET_H
#define ROVERIVET_H

#ifndef _POSIX_C_SOURCE
#define _POSIX_C_SOURCE 200809L
#endif

#include <errno.h>
#include <fcntl.h>
#include <poll.h>
#include <stdint.h>
#include <stdio.h>
#include <string.h>
#include <sys/socket.h>
#include <sys/types.h>
#include <sys/wait.h>
#include <unistd.h>

enum { ROVERIVET_SIZE = 32 };

/* The short event limit: the usual one, the least and the largest. */
enum { ROVERIVET_SHORT_LIMIT = 78, ROVERIVET_LEAST_SHORT_LIMIT = 75, ROVERIVET_LARGEST_SHORT_LIMIT = 81 };

/* How many milliseconds an answer may take. */
#ifndef ROVERIVET_PATIENCE
#define ROVERIVET_PATIENCE 60000
#endif

/* ---- ports, flags, kinds */

#define ROVERIVET_TP(number) ((uint16_t)(1u << (number)))
#define ROVERIVET_AUI ((uint16_t)0x100)

enum roverivet_flag {
    ROVERIVET_FCS_BAD = 1,
    ROVERIVET_RATE_ERROR = 2,
    ROVERIVET_COLLISION_SIGNAL = 4,
    ROVERIVET_LOOPBACK_MISSING = 8,
    ROVERIVET_SQE_TEST = 16
};

enum roverivet_kind {
    ROVERIVET_BURST = 1,
    ROVERIVET_PULSE,
    ROVERIVET_TICK,
    ROVERIVET_C_WRITE,
    ROVERIVET_D_WRITE,
    ROVERIVET_C_READ,
    ROVERIVET_D_READ,
    ROVERIVET_RESET
};

/* ---- records */

static inline void roverivet_put32(unsigned char *at, uint32_t value)
{
    for (int byte = 0; byte < 4; byte++)
        at[byte] = (unsigned char)(value >> 8 * byte);
}

/* A record of a kind with every other field zero: enough for a tick, a C read, a D read and a reset. */
static inline void roverivet_record(unsigned char record[ROVERIVET_SIZE], enum roverivet_kind kind)
{
    memset(record, 0, ROVERIVET_SIZE);
    record[0] = (unsigned char)kind;
}

static inline void roverivet_burst(unsigned char record[ROVERIVET_SIZE], uint16_t mask, uint32_t d, uint32_t n)
{
    roverivet_record(record, ROVERIVET_BURST);
    record[2] = (unsigned char)(mask & 0xff);
    record[3] = (unsigned char)(mask >> 8);
    roverivet_put32(record + 4, d);
    roverivet_put32(record + 8, n);
}

/* What a burst may have besides: flags, dribble bits, a collision, a source address. */
static inline void roverivet_flags(unsigned char record[ROVERIVET_SIZE], unsigned flags) { record[1] = (unsigned char)flags; }
static inline void roverivet_dribble(unsigned char record[ROVERIVET_SIZE], unsigned k) { record[12] = (unsigned char)k; }

static inline void roverivet_collision(unsigned char record[ROVERIVET_SIZE], uint32_t c, uint32_t x)
{
    roverivet_put32(record + 16, c);
    roverivet_put32(record + 20, x);
}

static inline void roverivet_source(unsigned char record[ROVERIVET_SIZE], const unsigned char address[6])
{
    memcpy(record + 24, address, 6);
}

static inline void roverivet_pulse(unsigned char record[ROVERIVET_SIZE], uint16_t mask)
{
    roverivet_record(record, ROVERIVET_PULSE);
    record[2] = (unsigned char)(mask & 0xff);
    record[3] = (unsigned char)(mask >> 8);
}

/* A C write or a D write. */
static inline void roverivet_write(unsigned char record[ROVERIVET_SIZE], enum roverivet_kind kind, unsigned byte)
{
    roverivet_record(record, kind);
    record[13] = (unsigned char)byte;
}

/* ---- the program */

struct roverivet {
    pid_t pid;
    int in, out;
    unsigned long asked;
    size_t have;
    char came[128];
};

struct roverivet_answer {
    unsigned long number;
    char word[4];   /* rep, jam, nil, val, ref or ok */
    unsigned value; /* the output mask, the byte read, the refusal's number, else 0 */
};

static inline void roverivet_child(int in, int out, char *const command[])
{
    if (dup2(in, 0) < 0 || dup2(out, 1) < 0)
        _exit(127);
    if (in > 1)
        close(in);
    if (out > 1)
        close(out);
    execvp(command[0], command);
    _exit(127);
}

/* Names on standard error a command that is not ./roverivet, which names its program itself. */
static inline void roverivet_name(const char *command)
{
    const char *slash = strrchr(command, '/');
    if (strcmp(slash ? slash + 1 : command, "roverivet"))
        fprintf(stderr, "roverivet: the answers are those of %s, and not of ./roverivet run\n", command);
}

/* Starts the program. `command` is NULL for ./roverivet run; `start` names a start file or is NULL; `limit` is the
 * short event limit, ROVERIVET_SHORT_LIMIT where nothing else is wanted. With a command of its own, a start file and
 * another limit are among its words, and `limit` is ROVERIVET_SHORT_LIMIT (else -1 with EINVAL). Gives 0; 13, and
 * starts nothing, for a limit outside 75 to 81; or -1 with errno. A command that is not there shows at the first
 * roverivet_ask, and as status 127 of roverivet_close; a start file that does not fit, or that names another limit,
 * as status 2. */
static inline int roverivet_open(struct roverivet *chip, const char *const *command, const char *start, uint64_t limit)
{
    char number[24];
    const char *usual[] = {"./roverivet", "run", "--binary", "--short-limit", number, start ? "--start" : NULL, start, NULL};
    int in[2], out[2];
    memset(chip, 0, sizeof *chip);
    if (limit < ROVERIVET_LEAST_SHORT_LIMIT || limit > ROVERIVET_LARGEST_SHORT_LIMIT)
        return 13;
    if (command && limit != ROVERIVET_SHORT_LIMIT) {
        errno = EINVAL;
        return -1;
    }
    snprintf(number, sizeof number, "%u", (unsigned)limit);
    if (command)
        roverivet_name(command[0]);
    if (socketpair(AF_UNIX, SOCK_STREAM, 0, in))
        return -1;
    if (pipe(out)) {
        close(in[0]);
        close(in[1]);
        return -1;
    }
    fcntl(in[1], F_SETFD, FD_CLOEXEC);
    fcntl(out[0], F_SETFD, FD_CLOEXEC);
    chip->pid = fork();
    if (chip->pid == 0)
        roverivet_child(in[0], out[1], (char *const *)(command ? command : usual));
    close(in[0]);
    close(out[1]);
    chip->in = in[1];
    chip->out = out[0];
    if (chip->pid > 0)
        return 0;
    close(chip->in);
    close(chip->out);
    return -1;
}

/* Reads up to the next line's end into chip->came. Gives the line's length, or -1 if none came. */
static inline int roverivet_line(struct roverivet *chip)
{
    for (;;) {
        char *end = memchr(chip->came, '\n', chip->have);
        if (end)
            return (int)(end - chip->came);
        struct pollfd ready = {chip->out, POLLIN, 0};
        int came = chip->have < sizeof chip->came ? poll(&ready, 1, ROVERIVET_PATIENCE) : 0;
        if (came < 0 && errno == EINTR)
            continue;
        ssize_t got = came > 0 ? read(chip->out, chip->came + chip->have, sizeof chip->came - chip->have) : 0;
        if (got < 0 && errno == EINTR)
            continue;
        if (got <= 0)
            return -1;
        chip->have += (size_t)got;
    }
}

static inline int roverivet_is(const struct roverivet_answer *answer, const char *word)
{
    return !strcmp(answer->word, word);
}

/* The line that an answer is printed as. */
static inline void roverivet_print(const struct roverivet_answer *answer, char line[64])
{
    if (roverivet_is(answer, "ok"))
        snprintf(line, 64, "%lu ok", answer->number);
    else if (roverivet_is(answer, "ref"))
        snprintf(line, 64, "%lu ref %u", answer->number, answer->value);
    else if (roverivet_is(answer, "val"))
        snprintf(line, 64, "%lu val %02x", answer->number, answer->value);
    else
        snprintf(line, 64, "%lu %s %03x", answer->number, answer->word, answer->value);
}

/* The word and the value of a printed line. Gives 0, or -1 if it is no answer. */
static inline int roverivet_parse(const char *line, struct roverivet_answer *answer)
{
    char value[16] = "", same[64];
    memset(answer, 0, sizeof *answer);
    if (sscanf(line, "%lu %3s %15s", &answer->number, answer->word, value) < 2)
        return -1;
    if (sscanf(value, roverivet_is(answer, "ref") ? "%u" : "%x", &answer->value) != 1 && value[0])
        return -1;
    roverivet_print(answer, same);
    return strcmp(line, same) ? -1 : 0;
}

/* Whether a record of this kind can have this answer: a word of its own, or one of its refusals. */
static inline int roverivet_possible(unsigned kind, const struct roverivet_answer *answer)
{
    static const char *const refusals[] = {"8", "8321", "83", "8", "87", "8564", "8", "856", "8"};
    int known = kind >= ROVERIVET_BURST && kind <= ROVERIVET_RESET;
    if (roverivet_is(answer, "ref"))
        return answer->value < 10 && strchr(refusals[known ? kind : 0], (int)('0' + answer->value)) != NULL;
    if (kind == ROVERIVET_BURST)
        return ((roverivet_is(answer, "rep") || roverivet_is(answer, "jam")) && answer->value < 0x200) ||
               (roverivet_is(answer, "nil") && answer->value == 0);
    if (kind == ROVERIVET_C_READ)
        return roverivet_is(answer, "val") && !(answer->value & 0x3f);
    if (kind == ROVERIVET_D_READ)
        return roverivet_is(answer, "val");
    return known && roverivet_is(answer, "ok");
}

/* Whether the program has printed something, or ended, within some milliseconds. */
static inline int roverivet_printed(struct roverivet *chip, int patience)
{
    struct pollfd ready = {chip->out, POLLIN, 0};
    int came;
    do
        came = chip->have ? 1 : poll(&ready, 1, patience);
    while (came < 0 && errno == EINTR);
    return came != 0;
}

/* Sends one record and waits for its answer. Gives 0, or -1 if the program ended, fell silent for a minute,
 * or printed anything else than one answer that a record of this kind can have; a refusal is an answer (word
 * "ref"). */
static inline int roverivet_ask(struct roverivet *chip, const unsigned char record[ROVERIVET_SIZE], struct roverivet_answer *answer)
{
    size_t sent = 0;
    if (roverivet_printed(chip, 0))
        return -1;
    while (sent < ROVERIVET_SIZE) {
        ssize_t more = send(chip->in, record + sent, ROVERIVET_SIZE - sent, MSG_NOSIGNAL);
        if (more < 0 && errno == EINTR)
            continue;
        if (more <= 0)
            return -1;
        sent += (size_t)more;
    }
    int length = roverivet_line(chip);
    if (length < 0)
        return -1;
    chip->came[length] = 0;
    int wrong = roverivet_parse(chip->came, answer) || answer->number != ++chip->asked || !roverivet_possible(record[0], answer);
    chip->have -= (size_t)length + 1;
    memmove(chip->came, chip->came + length + 1, chip->have);
    return wrong ? -1 : 0;
}

/* Closes the program's input, which ends it, and waits. Gives its exit status, or -1 if it was killed or
 * printed something after its last answer. */
static inline int roverivet_close(struct roverivet *chip)
{
    int status = 0;
    close(chip->in);
    int surplus = roverivet_printed(chip, ROVERIVET_PATIENCE) && (chip->have || read(chip->out, chip->came, sizeof chip->came) > 0);
    close(chip->out);
    while (waitpid(chip->pid, &status, 0) < 0)
        if (errno != EINTR)
            return -1;
    return WIFEXITED(status) && !surplus ? WEXITSTATUS(status) : -1;
}

/* ---- what firmware makes of it */

/* Reads `size` bytes of register P, R into `bytes`. Gives 0, a refusal's number, or -1 as roverivet_ask. */
static inline int roverivet_read(struct roverivet *chip, unsigned p, unsigned r, unsigned char *bytes, int size)
{
    unsigned char record[ROVERIVET_SIZE];
    struct roverivet_answer answer;
    for (int step = -2; step < size; step++) {
        if (step < 0)
            roverivet_write(record, ROVERIVET_C_WRITE, step == -2 ? p : 0xe0 | r);
        else
            roverivet_record(record, ROVERIVET_D_READ);
        if (roverivet_ask(chip, record, &answer))
            return -1;
        if (!strcmp(answer.word, "ref"))
            return (int)answer.value;
        if (step >= 0)
            bytes[step] = (unsigned char)answer.value;
    }
    return 0;
}

/* A counter: bank P (16 to 23 for TP0 to TP7, 31 for AUI; 0 for the sums), register R. */
static inline int roverivet_counter(struct roverivet *chip, unsigned p, unsigned r, uint32_t *value)
{
    unsigned char bytes[4];
    int status = roverivet_read(chip, p, r, bytes, 4);
    if (!status)
        *value = bytes[0] | (uint32_t)bytes[1] << 8 | (uint32_t)bytes[2] << 16 | (uint32_t)bytes[3] << 24;
    return status;
}

/* One attribute, by its register R, of all nine ports: TP0 to TP7, then AUI. Gives 0, or what stopped it as roverivet_read. */
static inline int roverivet_attribute(struct roverivet *chip, unsigned r, uint32_t values[9])
{
    for (unsigned port = 0; port < 9; port++) {
        int status = roverivet_counter(chip, port < 8 ? 16 + port : 31, r, &values[port]);
        if (status)
            return status;
    }
    return 0;
}

/* ---- true totals */

/* The sum of the differences of one counter's readings, each reading minus the one before it modulo 2^32. It is the
 * number of credits from the first to the last, if fewer than 2^32 of them (octets of an octet counter) fell between
 * two readings in a row, which no reading can show, and if it fits. Resets do not matter; after a power-up begin
 * again. docs/REFERENCE.md says how often to poll. */
struct roverivet_total {
    uint64_t sum;
    uint32_t last; /* the last reading, once there is one */
    int begun;     /* there is a reading */
    int over;      /* the sum has reached 2^64: `sum` is what it was before, and no total */
};

static inline void roverivet_total_begin(struct roverivet_total *total)
{
    memset(total, 0, sizeof *total);
}

/* One more reading. Gives 0, or -1 from the reading on with which the sum reaches 2^64. */
static inline int roverivet_total_add(struct roverivet_total *total, uint32_t reading)
{
    uint32_t more = total->begun ? (uint32_t)(reading - total->last) : 0;
    total->over = total->over || more > UINT64_MAX - total->sum;
    if (total->over)
        return -1;
    total->sum += more;
    total->last = reading;
    total->begun = 1;
    return 0;
}

#endif
