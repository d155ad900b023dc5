"""A plain C program that runs the same loops as `perple run`, which the benchmarks stand it beside: one thread a location, each of which
stores to its own and reads the next one's, through a store buffer of eight writes in software that drains by the same rule (a word
of Xoshiro256++ an action, at 64 of 256), over sequentially consistent atomics, into logs. Its threads meet before their first
iteration as those of the real program do. Started with `job`, it does the whole job of `run N --count heuristic`: it reads such a test
from its input, takes threads, locations and the condition from it, runs, picks a frame for each iteration, tests it, and writes the
report with a line for each hit."""
import os
import shutil
import subprocess

# Words: the threads, the iterations. Output: the microseconds of the threads' loops, those of all with the count of two threads'
# frames, and the frames that hit. Or the words `job` and the iterations: the report.
SOURCE = r"""
#include <pthread.h>
#include <sched.h>
#include <stdatomic.h>
#include <stdint.h>
#include <stdio.h>
#include <stdlib.h>
#include <string.h>
#include <time.h>
enum { MOST_THREADS = 8, MOST_ACTIONS = 16, CAPACITY = 8, RATE = 64, MOST_LOOKS = 5000, QUICK_LOOKS = 1000 };
enum { MOST_TEXT = 65536, MOST_ATOMS = 32 };
enum kind { STORE, LOAD };
struct action { enum kind kind; uint32_t loc; };
struct entry { uint64_t value; uint32_t loc; };
struct walker {
    _Alignas(128) uint64_t words[4];
    struct entry buffer[CAPACITY];
    unsigned first, count, length;
    struct action body[MOST_ACTIONS];
    uint64_t *log;
};
static _Atomic uint64_t field[16];
static atomic_int came, saw;
static int threads;
static uint64_t iterations;
static struct walker walkers[MOST_THREADS];

static uint64_t rotated(uint64_t x, int by) { return x << by | x >> (64 - by); }

static uint64_t next_word(uint64_t *s) {
    uint64_t result = rotated(s[0] + s[3], 23) + s[0], t = s[1] << 17;
    s[2] ^= s[0]; s[3] ^= s[1]; s[1] ^= s[2]; s[0] ^= s[3]; s[2] ^= t; s[3] = rotated(s[3], 45);
    return result;
}

static void seed(uint64_t *s, uint64_t from) {
    for (int i = 0; i < 4; i++) {
        uint64_t z = from += 0x9e3779b97f4a7c15ull;
        z = (z ^ z >> 30) * 0xbf58476d1ce4e5b9ull;
        z = (z ^ z >> 27) * 0x94d049bb133111ebull;
        s[i] = z ^ z >> 31;
    }
}

static void look_for_all(atomic_int *count) {
    atomic_fetch_add(count, 1);
    for (int look = 0; look < MOST_LOOKS && atomic_load(count) < threads; look++)
        if (look < QUICK_LOOKS) __builtin_ia32_pause(); else sched_yield();
}

static void drain(struct walker *w) {
    struct entry *oldest = &w->buffer[w->first];
    atomic_store(&field[oldest->loc], oldest->value);
    w->first = (w->first + 1) % CAPACITY;
    w->count--;
}

static uint64_t load(struct walker *w, uint32_t loc) {
    for (unsigned k = w->count; k-- > 0;) {
        struct entry *entry = &w->buffer[(w->first + k) % CAPACITY];
        if (entry->loc == loc) return entry->value;
    }
    return atomic_load(&field[loc]);
}

static void act(struct walker *w, struct action a, uint64_t value) {
    if (next_word(w->words) % 256 < RATE && w->count > 0) drain(w);
    if (a.kind == LOAD) {
        *w->log++ = load(w, a.loc);
    } else {
        if (w->count == CAPACITY) drain(w);
        w->buffer[(w->first + w->count++) % CAPACITY] = (struct entry){value, a.loc};
    }
}

static void *walk(void *it) {
    struct walker *w = it;
    look_for_all(&came);
    look_for_all(&saw);
    for (uint64_t i = 0; i < iterations; i++) {
        if (i == 8 || i == 16 || i == 32 || i == 64) sched_yield();
        for (unsigned p = 0; p < w->length; p++) act(w, w->body[p], i + 1);
    }
    while (w->count > 0) drain(w);
    return 0;
}

static double microseconds(void) {
    struct timespec t;
    clock_gettime(CLOCK_MONOTONIC, &t);
    return t.tv_sec * 1e6 + t.tv_nsec / 1e3;
}


static void run_all(void) {
    pthread_t made[MOST_THREADS];
    for (int t = 1; t < threads; t++) pthread_create(&made[t], 0, walk, &walkers[t]);
    walk(&walkers[0]);
    for (int t = 1; t < threads; t++) pthread_join(made[t], 0);
}

/* What the text says: one store and one load a thread, locations of one letter, a condition of registers that are 0. */
static char text[MOST_TEXT + 1], name[64];
static struct { int reader, writer; } atoms[MOST_ATOMS];
static int atom_count;

static int find_all(int *threads_of, enum kind kind) {
    int found = 0;
    for (char *at = strstr(text, "P0"); (at = strchr(at, '[')) != 0; at++) {
        int stores = at[2] == ']' && at[3] == ',';
        if ((kind == STORE) == stores) threads_of[found++] = at[1];
    }
    return found;
}

static void read_text(void) {
    int stored[MOST_THREADS], loaded[MOST_THREADS];
    text[fread(text, 1, MOST_TEXT, stdin)] = 0;
    sscanf(text, "X86 %63s", name);
    threads = find_all(stored, STORE);
    find_all(loaded, LOAD);
    for (int t = 0; t < threads; t++) {
        walkers[t].body[0] = (struct action){STORE, stored[t] % 16};
        walkers[t].body[1] = (struct action){LOAD, loaded[t] % 16};
        walkers[t].length = 2;
    }
    for (char *at = strstr(text, "exists"); (at = strstr(at, ":EAX=0")) != 0; at++) {
        int reader = at[-1] - '0', writer = 0;
        while (walkers[writer].body[0].loc != walkers[reader].body[1].loc) writer++;
        atoms[atom_count].reader = reader;
        atoms[atom_count++].writer = writer;
    }
}

/* The frame that iteration i of the base picks: each atom, the first that can, chooses its writer's iteration. */
static void pick(uint64_t *const *logs, uint64_t i, uint64_t *frame) {
    unsigned chosen = 1u << atoms[0].reader;
    for (int a = 1; a < atom_count; a++)
        if (atoms[a].reader < atoms[0].reader) chosen = 1u << atoms[a].reader;
    for (int t = 0; t < threads; t++) frame[t] = i;
    for (int a = 0; a < atom_count;) {
        int r = atoms[a].reader, w = atoms[a].writer;
        if ((chosen >> r & 1) && !(chosen >> w & 1)) {
            uint64_t value = logs[r][frame[r]];
            frame[w] = value < iterations ? value : iterations - 1;
            chosen |= 1u << w;
            a = 0;
        } else {
            a++;
        }
    }
}

static int hits_at(uint64_t *const *logs, const uint64_t *frame) {
    for (int a = 0; a < atom_count; a++)
        if (logs[atoms[a].reader][frame[atoms[a].reader]] >= frame[atoms[a].writer] + 1) return 0;
    return 1;
}

static char *put_number(char *at, uint64_t n) {
    char digits[20];
    int count = 0;
    do digits[count++] = '0' + n % 10; while (n /= 10);
    while (count > 0) *at++ = digits[--count];
    return at;
}

static int do_job(void) {
    uint64_t *logs[MOST_THREADS], frame[MOST_THREADS], hits = 0;
    read_text();
    for (int t = 0; t < threads; t++) {
        logs[t] = walkers[t].log = malloc(iterations * 8);
        seed(walkers[t].words, t);
    }
    run_all();
    char *lines = malloc(iterations * (5 + 7 * threads)), *end = lines;
    for (uint64_t i = 0; i < iterations; i++) {
        pick(logs, i, frame);
        if (!hits_at(logs, frame)) continue;
        hits++;
        memcpy(end, "Hit", 3);
        end += 3;
        for (int t = 0; t < threads; t++) {
            *end++ = ' ';
            end = put_number(end, frame[t]);
        }
        *end++ = '\n';
    }
    printf("Test %s\nThreads %d\nIterations %llu\nHeuristic %llu\n", name, threads, (unsigned long long)iterations,
           (unsigned long long)hits);
    fwrite(lines, 1, end - lines, stdout);
    return 0;
}

static int time_loops(void) {
    uint64_t *logs[MOST_THREADS], hits = 0;
    for (int t = 0; t < threads; t++) {
        logs[t] = walkers[t].log = malloc(iterations * 8);
        seed(walkers[t].words, t);
        walkers[t].body[0] = (struct action){STORE, t};
        walkers[t].body[1] = (struct action){LOAD, (t + 1) % threads};
        walkers[t].length = 2;
    }
    double start = microseconds();
    run_all();
    double walked = microseconds();
    if (threads == 2 && iterations <= 10000)
        for (uint64_t i = 0; i < iterations; i++)
            for (uint64_t j = 0; j < iterations; j++)
                hits += (logs[0][i] < j + 1) & (logs[1][j] < i + 1);
    printf("%.0f %.0f %llu\n", walked - start, microseconds() - start, (unsigned long long)hits);
    return 0;
}

int main(int count, char **words) {
    iterations = strtoull(words[2], 0, 10);
    if (strcmp(words[1], "job") == 0) return do_job();
    threads = atoi(words[1]);
    return time_loops();
}
"""


# A library that stands before the system's in a run: it writes into the file that SPAN_FILE names how many microseconds went by from the
# start of the first thread to where the last one is joined, at the first time that none is left.
SPAN = r"""
#define _GNU_SOURCE
#include <dlfcn.h>
#include <pthread.h>
#include <stdio.h>
#include <stdlib.h>
#include <time.h>
static double first;
static int running, ended;

static double microseconds(void) {
    struct timespec t;
    clock_gettime(CLOCK_MONOTONIC, &t);
    return t.tv_sec * 1e6 + t.tv_nsec / 1e3;
}

static void tell(double span) {
    FILE *file = fopen(getenv("SPAN_FILE"), "w");
    if (file == 0) return;
    fprintf(file, "%.0f\n", span);
    fclose(file);
}

int pthread_create(pthread_t *made, const pthread_attr_t *attributes, void *(*body)(void *), void *it) {
    if (!ended && running++ == 0) first = microseconds();
    int (*create)(pthread_t *, const pthread_attr_t *, void *(*)(void *), void *) = dlsym(RTLD_NEXT, "pthread_create");
    return create(made, attributes, body, it);
}

int pthread_join(pthread_t made, void **result) {
    int (*join)(pthread_t, void **) = dlsym(RTLD_NEXT, "pthread_join");
    int answer = join(made, result);
    if (!ended && --running == 0) {
        ended = 1;
        tell(microseconds() - first);
    }
    return answer;
}
"""


def compiled(folder, name, source, *words):
    """What gcc makes of a source, or None where gcc is not there."""
    if shutil.which("gcc") is None:
        return None
    path = os.path.join(folder, name)
    with open(path + ".c", "w") as file:
        file.write(source)
    subprocess.run(["gcc", "-O3", "-march=x86-64-v2", "-pthread", *words, "-o", path, path + ".c"], check=True)
    return path


def build(folder):
    """The built program's path, or None where gcc is not there."""
    return compiled(folder, "loops", SOURCE)


def build_span(folder):
    """The path of the library that times the threads of a run, or None where gcc is not there."""
    return compiled(folder, "span.so", SPAN, "-shared", "-fPIC")


def run(program, threads, iterations):
    """The three numbers of its output."""
    ran = subprocess.run([program, str(threads), str(iterations)], capture_output=True, check=True)
    return [int(word) for word in ran.stdout.split()]


def job(program, text, iterations):
    """What the whole job writes."""
    ran = subprocess.run([program, "job", str(iterations)], input=text, capture_output=True, check=True)
    return ran.stdout
