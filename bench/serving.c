/* Drives what serves stations over datagrams of 127.0.0.1, and measures it. Built and used by serving.sh and silence.sh.

       serving storm PORT RADIOS STATIONS ROUNDS STORE FOLDER NAME WINDOW..
       serving single PORT RADIOS
       serving probes PORT ROUNDS STORE NAME WINDOW..
       serving silence PORT RADIOS STATIONS SECONDS

   Radio i has the port PORT + 1 + i, the BSSID 02:00:00:00:00:01 + i and the network "net"; station s, counted over all
   radios, is at radio s modulo RADIOS. storm lets each station associate; then, at each window, it has them ask for
   reassociation in turn, so many requests being out at a time. It asks the same of a bare loop, a process for each
   radio that receives and sends, and in FOLDER makes bare pairs of a write and a sync, as long as a commit's. Commits
   are counted in the file STORE; where that is "-" there are none. A line has the best of so many ROUNDS of each.

   probes asks radio 0 a thousand times, one at a time with a rest of 5 ms before each: one station for reassociation,
   and then as many passers-by for any network, who then ask at each window. It asks the same of a bare loop. A line has
   the median, the least and the most of so many ROUNDS.

   silence lets each station associate, and then say nothing, until each was disassociated and then deauthenticated,
   which begins after so many SECONDS and after as many again. Meanwhile passers-by ask radio 0 for any network, one at a
   time with a rest of 5 ms before each. A line has the seconds from the first such frame to the last, of either kind, and
   how long an answer took, before and while these came. */
#define _GNU_SOURCE
#include <arpa/inet.h>
#include <errno.h>
#include <fcntl.h>
#include <poll.h>
#include <signal.h>
#include <stdint.h>
#include <stdio.h>
#include <stdlib.h>
#include <string.h>
#include <sys/mman.h>
#include <sys/prctl.h>
#include <time.h>
#include <unistd.h>

enum {
    RADIOS = 8, STATIONS = 8 * 2007, WINDOW = 4096, PROBES = 1000, ROUNDS = 99,
    REQUESTS = 1 << 20, /* of a round, at most */
    RING = 1 << 16,     /* requests behind the oldest one that waits, at most */
    TRIES = 50,         /* of a request */
    ALARM = 120,        /* seconds until all ends, whatever happens */
    STORE_BYTES = 2097216, HALF = 64, HALF_BYTES = 1048576, ROW_BYTES = 20
};
/* Nanoseconds: of a round, and of the joining of all stations. */
static const int64_t SECOND = 1000000000, ROUND = 1000000000, JOINING = 60000000000;
/* And without an answer until a frame is sent again; the variable PATIENCE has other milliseconds. */
static int64_t patience = 200000000;

#define FAIL(...) (fprintf(stderr, "serving: " __VA_ARGS__), fputc('\n', stderr), exit(1))

static void end_late(int signal)
{
    static const char text[] = "serving: no end in two minutes\n";
    _exit(write(2, text, sizeof text - 1) < 0 ? signal : 1);
}

static int64_t now(void)
{
    struct timespec time;
    clock_gettime(CLOCK_MONOTONIC, &time);
    return time.tv_sec * SECOND + time.tv_nsec;
}

/* Frames. */

enum kind { AUTHENTICATION, ASSOCIATION, REASSOCIATION, PROBE };

/* Spells a station's request; its length. */
static int spell(uint8_t *frame, enum kind kind, int station, int radio)
{
    static const uint8_t types[] = {0xb0, 0x00, 0x20, 0x40},
                         elements[] = {0, 3, 'n', 'e', 't', 1, 4, 0x82, 0x84, 0x8b, 0x96},
                         scan[] = {0, 0, 1, 4, 0x82, 0x84, 0x8b, 0x96};
    const uint8_t bssid[] = {2, 0, 0, 0, 0, 1 + radio}, sender[] = {2, 0, 1, 0, station >> 8, station};
    uint8_t *at = frame + 24;
    memset(frame, 0, 24);
    frame[0] = types[kind];
    memcpy(frame + 4, bssid, 6);
    memcpy(frame + 10, sender, 6);
    memcpy(frame + 16, bssid, 6);
    if (kind == PROBE) {
        memset(frame + 4, 0xff, 6);
        memset(frame + 16, 0xff, 6);
        return (uint8_t *)mempcpy(at, scan, sizeof scan) - frame;
    }
    if (kind == AUTHENTICATION)
        return (uint8_t *)mempcpy(at, "\0\0\1\0\0\0", 6) - frame;
    at = mempcpy(at, "\x31\4\12\0", 4);
    if (kind == REASSOCIATION)
        at = mempcpy(at, bssid, 6);
    return (uint8_t *)mempcpy(at, elements, sizeof elements) - frame;
}

/* The station that a frame answers, with status 0 where it has one; -1 of a frame that is no answer. */
static int answered(const uint8_t *frame, ssize_t length)
{
    if (length < 30 || (frame[0] != 0xb0 && frame[0] != 0x10 && frame[0] != 0x30 && frame[0] != 0x50))
        return -1;
    int station = frame[8] << 8 | frame[9], status = frame[0] == 0xb0 ? 28 : 26;
    if (frame[0] != 0x50 && (frame[status] || frame[status + 1]))
        FAIL("station %d is refused with status %d", station, frame[status] | frame[status + 1] << 8);
    return station;
}

/* Sockets. */

static int bound(struct sockaddr_in *own)
{
    int descriptor = socket(AF_INET, SOCK_DGRAM, 0), size = 4 << 20;
    socklen_t length = sizeof *own;
    *own = (struct sockaddr_in){.sin_family = AF_INET, .sin_addr.s_addr = htonl(INADDR_LOOPBACK)};
    if (descriptor < 0 || setsockopt(descriptor, SOL_SOCKET, SO_RCVBUF, &size, sizeof size) < 0 ||
        bind(descriptor, (struct sockaddr *)own, length) < 0 ||
        getsockname(descriptor, (struct sockaddr *)own, &length) < 0)
        FAIL("no socket: %s", strerror(errno));
    return descriptor;
}

static int connected(int port)
{
    struct sockaddr_in peer;
    int descriptor = bound(&peer);
    peer.sin_port = htons(port);
    if (connect(descriptor, (struct sockaddr *)&peer, sizeof peer) < 0)
        FAIL("no socket: %s", strerror(errno));
    return descriptor;
}

/* Begins a process that receives and sends, and no more; its port. It answers each frame as a reassociation request. */
static int begin_loop(void)
{
    struct sockaddr_in own, peer;
    socklen_t length = sizeof peer;
    uint8_t frame[2400];
    int descriptor = bound(&own);
    pid_t process = fork();
    if (process < 0)
        FAIL("no process: %s", strerror(errno));
    if (process == 0) {
        prctl(PR_SET_PDEATHSIG, SIGKILL);
        alarm(ALARM);
        while (recvfrom(descriptor, frame, sizeof frame, 0, (struct sockaddr *)&peer, &length) >= 0) {
            memcpy(frame + 4, frame + 10, 6);
            memset(frame + 24, 0, 12);
            frame[0] = 0x30;
            sendto(descriptor, frame, 36, 0, (struct sockaddr *)&peer, length);
        }
        _exit(0);
    }
    close(descriptor);
    return ntohs(own.sin_port);
}

/* Requests and their answers. Request k is of station k modulo all stations. The answers that a station gets are taken
   for those of its requests in order: one that comes twice is the next request's, where one is out. */

struct storm {
    const int *sockets;
    int radios, stations, window;
    enum kind kind;
    int64_t time, pause; /* how long requests are made, and how long none is made before each */
    long most;           /* requests */
    void (*look)(void);  /* called now and then */
    long next, oldest, count, again;
    int64_t begun, last;
};
struct numbers { long count, again; double rate, median, late; }; /* late: of a hundred one is later; milliseconds */

static uint32_t latency[REQUESTS]; /* in 10 nanoseconds */
static struct { int64_t first, last; int tries, is_answered; } ring[RING];
static long rounds[STATIONS];

static void send_request(const struct storm *storm, long k)
{
    uint8_t frame[64];
    int station = k % storm->stations, radio = station % storm->radios;
    if (++ring[k % RING].tries > TRIES)
        FAIL("no answer to station %d, which asked %d times", station, TRIES);
    ring[k % RING].last = now();
    send(storm->sockets[radio], frame, spell(frame, storm->kind, station, radio), 0);
}

static void send_next(struct storm *storm)
{
    long place = storm->next % RING;
    if (storm->next - storm->oldest >= RING || storm->next >= storm->most || now() - storm->begun > storm->time)
        return;
    if (storm->pause)
        nanosleep(&(struct timespec){.tv_nsec = storm->pause}, NULL);
    ring[place].tries = ring[place].is_answered = 0;
    ring[place].first = now();
    send_request(storm, storm->next++);
}

static void take_answers(struct storm *storm, int radio)
{
    uint8_t frame[2400];
    ssize_t length;
    while ((length = recv(storm->sockets[radio], frame, sizeof frame, MSG_DONTWAIT)) >= 0) {
        int station = answered(frame, length);
        if (station < 0 || station >= storm->stations)
            continue;
        long k = rounds[station] * storm->stations + station;
        if (k >= storm->next)
            continue;
        rounds[station]++;
        ring[k % RING].is_answered = 1;
        storm->last = now();
        latency[storm->count++] = (storm->last - ring[k % RING].first) / 10;
        if (storm->count % 4096 == 0 && storm->look)
            storm->look();
        send_next(storm);
    }
    if (errno == ECONNREFUSED)
        FAIL("nobody serves radio %d", radio);
}

static void send_again(struct storm *storm)
{
    while (storm->oldest < storm->next && ring[storm->oldest % RING].is_answered)
        storm->oldest++;
    for (long k = storm->oldest; k < storm->next; k++)
        if (!ring[k % RING].is_answered && now() - ring[k % RING].last > patience) {
            send_request(storm, k);
            storm->again++;
        }
}

static int rising(const void *a, const void *b)
{
    uint32_t x = *(const uint32_t *)a, y = *(const uint32_t *)b;
    return (x > y) - (x < y);
}

/* Makes requests until there are enough, or it is time; each is answered in the end. */
static struct numbers drive(struct storm storm)
{
    struct pollfd wait[RADIOS];
    int64_t looked = now();
    memset(rounds, 0, sizeof rounds);
    for (int i = 0; i < storm.radios; i++)
        wait[i] = (struct pollfd){.fd = storm.sockets[i], .events = POLLIN};
    storm.begun = looked;
    do {
        for (long out = storm.next - storm.count; out < storm.window; out++)
            send_next(&storm);
        poll(wait, storm.radios, 10);
        for (int i = 0; i < storm.radios; i++)
            if (wait[i].revents)
                take_answers(&storm, i);
        if (now() - looked > SECOND / 100) {
            send_again(&storm);
            looked = now();
        }
    } while (storm.count < storm.next);
    qsort(latency, storm.count, sizeof *latency, rising);
    return (struct numbers){storm.count, storm.again, storm.count * 1e9 / (storm.last - storm.begun),
                            latency[storm.count / 2] / 1e5, latency[storm.count * 99 / 100] / 1e5};
}

/* The store (docs/STORE.md): how many groups were committed, and how many bytes of records they have. */

static const volatile uint8_t *store;
static struct { uint64_t epoch; long at, groups, bytes; int is_lost; } found;

static uint64_t number(long at, int bytes)
{
    uint64_t value = 0;
    while (bytes-- > 0)
        value = value << 8 | store[at + bytes];
    return value;
}

/* Goes on to the last group, in the other half where there was a switch. Two since the last look lose the count. */
static void look_at_store(void)
{
    for (int i = 0; store && i < 2; i++) {
        while (found.at && store[found.at] == 1) {
            found.groups++;
            found.bytes += number(found.at + 1, 4);
            found.at += 5 + number(found.at + 1, 4);
        }
        for (long half = HALF; half <= HALF + HALF_BYTES; half += HALF_BYTES)
            if (store[half] == 1 && number(half + 1, 8) > found.epoch) {
                found.is_lost |= found.epoch && number(half + 1, 8) != found.epoch + 1;
                found.epoch = number(half + 1, 8);
                found.at = half + 13 + number(half + 9, 4);
            }
    }
}

static void open_store(const char *name)
{
    int descriptor = open(name, O_RDONLY);
    void *place = mmap(NULL, STORE_BYTES, PROT_READ, MAP_SHARED, descriptor, 0);
    if (descriptor < 0 || place == MAP_FAILED)
        FAIL("cannot read %s", name);
    store = place;
    look_at_store();
}

/* Pairs of a write and a sync a second, as those of a commit with so many bytes of records, in a file like a store. */
static double pair_rate(const char *folder, long bytes)
{
    static char zeros[STORE_BYTES];
    char name[4096];
    long count = 0, at = 0;
    snprintf(name, sizeof name, "%s/pairs", folder);
    int descriptor = open(name, O_RDWR | O_CREAT | O_TRUNC, 0600);
    if (descriptor < 0 || pwrite(descriptor, zeros, STORE_BYTES, 0) != STORE_BYTES || fsync(descriptor) < 0)
        FAIL("cannot write %s: %s", name, strerror(errno));
    int64_t begun = now();
    for (; now() - begun < ROUND / 2; count++, at = at + 2 * (bytes + 6) < STORE_BYTES ? at + bytes + 5 : 0)
        if (pwrite(descriptor, zeros, bytes + 5, at + 1) < 0 || fdatasync(descriptor) < 0 ||
            pwrite(descriptor, "\1", 1, at) < 0 || fdatasync(descriptor) < 0)
            FAIL("cannot write %s: %s", name, strerror(errno));
    close(descriptor);
    unlink(name);
    return count * 1e9 / (now() - begun);
}

/* What is printed, with the load of the last minute at the end. */

static void print_load(void)
{
    double minute = 0;
    getloadavg(&minute, 1);
    printf(" %5.1f\n", minute);
    fflush(stdout);
}

static void print_storm(struct storm storm, const int *loops, int turns, const char *folder, const char *name)
{
    struct storm bare = storm;
    struct numbers best = {0}, one;
    double loop = 0, rows = 0, pairs = 0, rate;
    bare.sockets = loops;
    bare.time = ROUND / 2;
    storm.look = look_at_store;
    while (turns-- > 0) {
        look_at_store();
        long groups = found.groups, bytes = found.bytes;
        one = drive(storm);
        look_at_store();
        groups = found.groups - groups;
        bytes = found.bytes - bytes;
        if (one.rate > best.rate) {
            best = one;
            rows = groups ? (double)bytes / ROW_BYTES / groups : 0;
        }
        if (groups && (rate = pair_rate(folder, bytes / groups)) > pairs)
            pairs = rate;
        if ((rate = drive(bare).rate) > loop)
            loop = rate;
    }
    printf("%-7s %8d %6d %9.0f %8.2f %8.2f %6ld %9.0f %6.2f", name, storm.stations, storm.window, best.rate,
           best.median, best.late, best.again, loop, best.rate / loop);
    if (rows > 0 && !found.is_lost)
        printf(" %6.1f %8.0f %8.0f %6.2f", rows, best.rate / rows, pairs, best.rate / rows / pairs);
    else
        printf(" %6s %8s %8s %6s", "-", "-", "-", "-");
    print_load();
}

/* Of 500 requests, 10 milliseconds apart, how long the answer took: the median and p99, and those of the bare loop. */
static void print_single(struct storm storm, const int *loops)
{
    storm.window = 1;
    storm.pause = SECOND / 100;
    storm.most = 500;
    struct numbers one = drive(storm);
    storm.sockets = loops;
    struct numbers bare = drive(storm);
    printf("%8.3f %8.3f %8.3f %8.3f", one.median, one.late, bare.median, bare.late);
    print_load();
}

static int rising_numbers(const void *a, const void *b)
{
    double x = *(const double *)a, y = *(const double *)b;
    return (x > y) - (x < y);
}

/* Prints the median of so many numbers, the least of them and the most. */
static void print_spread(double *numbers, int count, int decimals)
{
    qsort(numbers, count, sizeof *numbers, rising_numbers);
    printf(" %8.*f %7.*f %7.*f", decimals, numbers[count / 2], decimals, numbers[0], decimals, numbers[count - 1]);
}

static void print_rounds(struct storm storm, const int *loops, int turns, const char *name)
{
    static const char *const words[] = {"authenticate", "associate", "reassociate", "probe"};
    double rates[ROUNDS], medians[ROUNDS], lates[ROUNDS], loop_medians[ROUNDS], loop_lates[ROUNDS], commits[ROUNDS];
    struct storm bare = storm;
    bare.sockets = loops;
    bare.time = storm.time / 5;
    bare.most = storm.most / 5;
    storm.look = look_at_store;
    for (int i = 0; i < turns; i++) {
        look_at_store();
        long groups = found.groups;
        struct numbers one = drive(storm);
        look_at_store();
        struct numbers loop = drive(bare);
        rates[i] = one.rate;
        medians[i] = one.median;
        lates[i] = one.late;
        loop_medians[i] = loop.median;
        loop_lates[i] = loop.late;
        commits[i] = found.is_lost ? -1 : (found.groups - groups) * 1e3 / one.count;
    }
    qsort(loop_medians, turns, sizeof *loop_medians, rising_numbers);
    qsort(loop_lates, turns, sizeof *loop_lates, rising_numbers);
    qsort(commits, turns, sizeof *commits, rising_numbers);
    printf("%-7s %-11s ", name, words[storm.kind]);
    printf(storm.pause ? "  idle" : "%6d", storm.window);
    print_spread(rates, turns, 0);
    print_spread(medians, turns, 3);
    print_spread(lates, turns, 3);
    printf(" %7.3f %7.3f", loop_medians[turns / 2], loop_lates[turns / 2]);
    if (store && commits[0] >= 0)
        printf(" %7.0f", commits[turns / 2]);
    else
        printf(" %7s", "-");
    print_load();
}

/* Silence. */

struct farewells { long count; int64_t first, last; };

/* Sends the request of a passer-by; when. */
static int64_t ask_in_passing(int descriptor, int passer)
{
    uint8_t frame[64];
    send(descriptor, frame, spell(frame, PROBE, passer, 0), 0);
    return now();
}

/* What came at a radio: counts a farewell, and tells whether the passer-by was answered. */
static int take_farewells(int descriptor, int passer, struct farewells *back, struct farewells *gone)
{
    uint8_t frame[2400];
    ssize_t length;
    int is_answered = 0;
    while ((length = recv(descriptor, frame, sizeof frame, MSG_DONTWAIT)) >= 0) {
        struct farewells *which = length >= 26 && frame[0] == 0xa0 ? back : length >= 26 && frame[0] == 0xc0 ? gone : NULL;
        if (which) {
            which->last = now();
            if (which->count++ == 0)
                which->first = which->last;
        } else if (answered(frame, length) == passer && frame[0] == 0x50) {
            is_answered = 1;
        }
    }
    if (errno == ECONNREFUSED)
        FAIL("nobody serves a radio");
    return is_answered;
}

/* Prints of so many latencies how many there are, the median, what one of a hundred is above, and the greatest. */
static void print_latencies(uint32_t *of, long count)
{
    qsort(of, count, sizeof *of, rising);
    if (count)
        printf(" %7ld %7.2f %7.2f %7.2f", count, of[count / 2] / 1e5, of[count * 99 / 100] / 1e5, of[count - 1] / 1e5);
    else
        printf(" %7d %7s %7s %7s", 0, "-", "-", "-");
}

static void fall_silent(const int *sockets, int radios, long stations, int seconds)
{
    static uint32_t before[REQUESTS], meanwhile[REQUESTS];
    struct pollfd wait[RADIOS];
    struct farewells back = {0}, gone = {0};
    long quiet = 0, busy = 0;
    int passer = STATIONS, is_answered = 1; /* no station */
    int64_t heard = now(), sent = 0, again = 0, answered_at = 0;
    for (int i = 0; i < radios; i++)
        wait[i] = (struct pollfd){.fd = sockets[i], .events = POLLIN};
    while (gone.count < stations) {
        if (is_answered && now() - answered_at > SECOND / 200) {
            passer = STATIONS + (passer + 1) % PROBES;
            is_answered = 0;
            sent = again = ask_in_passing(sockets[0], passer);
        } else if (!is_answered && now() - again > patience) {
            again = ask_in_passing(sockets[0], passer);
        }
        poll(wait, radios, 1);
        for (int i = 0; i < radios; i++)
            if (wait[i].revents && take_farewells(sockets[i], i ? -1 : passer, &back, &gone) && !is_answered) {
                int is_busy = (back.count && back.count < stations) || gone.count;
                is_answered = 1;
                answered_at = now();
                if (is_busy && busy < REQUESTS)
                    meanwhile[busy++] = (answered_at - sent) / 10;
                if (!is_busy && quiet < REQUESTS)
                    before[quiet++] = (answered_at - sent) / 10;
            }
        if (now() - heard > (2 * seconds + 1800) * SECOND)
            FAIL("of %ld stations %ld went back, and %ld went", stations, back.count, gone.count);
    }
    printf("%8ld %6d %8.1f %8.1f %8.1f %8.1f", stations, radios, (back.first - heard) / 1e9, (back.last - back.first) / 1e9,
           (gone.first - heard) / 1e9, (gone.last - gone.first) / 1e9);
    print_latencies(before, quiet);
    print_latencies(meanwhile, busy);
    print_load();
}

/* What each mode does, once there are sockets for the radios and for as many bare loops. */

static int number_of(const char *word, int least, int most, const char *what)
{
    int value = atoi(word);
    if (value < least || value > most)
        FAIL("%s is from %d to %d", what, least, most);
    return value;
}

static void join(struct storm storm)
{
    storm.most = storm.stations;
    storm.time = JOINING;
    for (storm.window = 64; storm.kind < REASSOCIATION; storm.kind++)
        if (drive(storm).count < storm.stations)
            FAIL("not all stations were answered within a minute");
}

static void rejoin(struct storm storm, const int *loops, int count, char **words)
{
    int turns = number_of(words[5], 1, ROUNDS, "ROUNDS");
    join(storm);
    if (strcmp(words[6], "-"))
        open_store(words[6]);
    storm.kind = REASSOCIATION;
    storm.time = ROUND;
    storm.most = REQUESTS;
    for (int i = 9; i < count; i++) {
        storm.window = number_of(words[i], 1, WINDOW, "WINDOW");
        print_storm(storm, loops, turns, words[7], words[8]);
    }
}

static void ask_singly(struct storm storm, const int *loops)
{
    join(storm);
    storm.kind = REASSOCIATION;
    storm.time = JOINING;
    print_single(storm, loops);
}

static void scan(struct storm storm, const int *loops, int count, char **words)
{
    int turns = number_of(words[3], 1, ROUNDS, "ROUNDS");
    join(storm);
    if (strcmp(words[4], "-"))
        open_store(words[4]);
    storm.time = JOINING;
    storm.window = 1;
    storm.most = PROBES;
    storm.pause = SECOND / 200;
    storm.kind = REASSOCIATION;
    print_rounds(storm, loops, turns, words[5]);
    storm.kind = PROBE;
    storm.stations = PROBES;
    print_rounds(storm, loops, turns, words[5]);
    storm.pause = 0;
    storm.time = ROUND;
    storm.most = REQUESTS;
    for (int i = 6; i < count; i++) {
        storm.window = number_of(words[i], 1, WINDOW, "WINDOW");
        print_rounds(storm, loops, turns, words[5]);
    }
}

static void be_silent(struct storm storm, int seconds)
{
    alarm(ALARM + 2 * seconds + 1800);
    join(storm);
    fall_silent(storm.sockets, storm.radios, storm.stations, seconds);
}

int main(int count, char **words)
{
    int sockets[RADIOS], loops[RADIOS], is_storm = count > 9 && !strcmp(words[1], "storm"),
        is_single = count == 4 && !strcmp(words[1], "single"), is_scan = count > 5 && !strcmp(words[1], "probes"),
        is_silence = count == 6 && !strcmp(words[1], "silence");
    struct storm storm = {.sockets = sockets};
    signal(SIGALRM, end_late);
    alarm(ALARM);
    if (getenv("PATIENCE"))
        patience = number_of(getenv("PATIENCE"), 20, 60000, "PATIENCE") * (SECOND / 1000);
    if (!is_storm && !is_single && !is_scan && !is_silence)
        FAIL("storm PORT RADIOS STATIONS ROUNDS STORE FOLDER NAME WINDOW.., single PORT RADIOS, "
             "probes PORT ROUNDS STORE NAME WINDOW.., or silence PORT RADIOS STATIONS SECONDS");
    int port = number_of(words[2], 1024, 65000, "PORT");
    storm.radios = is_scan ? 1 : number_of(words[3], 1, RADIOS, "RADIOS");
    storm.stations =
        is_storm || is_silence ? number_of(words[4], storm.radios, STATIONS, "STATIONS") : storm.radios;
    for (int i = 0; i < storm.radios; i++) {
        sockets[i] = connected(port + 1 + i);
        if (!is_silence)
            loops[i] = connected(begin_loop());
    }
    if (is_storm)
        rejoin(storm, loops, count, words);
    else if (is_silence)
        be_silent(storm, number_of(words[5], 1, 86400, "SECONDS"));
    else if (is_single)
        ask_singly(storm, loops);
    else
        scan(storm, loops, count, words);
    return 0;
}
