// Stands in for libexports.a where it cannot be linked: each exported function hands its call to the program SERVER, which has the real
// library, and takes over what that left in the lent slices. SERVER is a shell command.
#include "calls.h"
#include <pthread.h>
#include <stddef.h>
#include <stdio.h>
#include <stdlib.h>
#include <string.h>
#include <unistd.h>

static FILE *requests, *answers;
static pthread_mutex_t one_at_a_time = PTHREAD_MUTEX_INITIALIZER;

static void fail(const char *what) {
    fprintf(stderr, "bridge: %s\n", what);
    abort();
}

static void start(void) {
    int in[2], out[2];
    if (pipe(in) || pipe(out)) fail("no pipe");
    pid_t child = fork();
    if (child < 0) fail("no process");
    if (child == 0) {
        dup2(in[0], 0);
        dup2(out[1], 1);
        close(in[0]), close(in[1]), close(out[0]), close(out[1]);
        execl("/bin/sh", "sh", "-c", "exec " SERVER, (char *)NULL);
        _exit(127);
    }
    close(in[0]), close(out[1]);
    requests = fdopen(in[1], "w");
    answers = fdopen(out[0], "r");
    if (!requests || !answers) fail("no stream");
}

static void put(const void *from, size_t bytes) {
    if (bytes && fwrite(from, 1, bytes, requests) != bytes) fail("the server takes nothing");
}

static void get(void *to, size_t bytes) {
    if (bytes && fread(to, 1, bytes, answers) != bytes) fail("the server ended");
}

struct lent {
    void *at;
    uint64_t cells;
    uint32_t cell_bytes;
    uint32_t written;
};

static uint32_t forward(const struct header *header, const struct lent *lent) {
    uint32_t answer;
    pthread_mutex_lock(&one_at_a_time);
    if (!requests) start();
    put(header, sizeof *header);
    for (uint32_t i = 0; i < header->slices; i++) {
        struct slice_header own = {lent[i].cells, lent[i].cell_bytes, lent[i].written};
        put(&own, sizeof own);
        put(lent[i].at, lent[i].cells * lent[i].cell_bytes);
    }
    if (fflush(requests)) fail("the server takes nothing");
    get(&answer, sizeof answer);
    for (uint32_t i = 0; i < header->slices; i++)
        if (lent[i].written) get(lent[i].at, lent[i].cells * lent[i].cell_bytes);
    pthread_mutex_unlock(&one_at_a_time);
    return answer;
}

static uint32_t bits(float value) {
    uint32_t word;
    memcpy(&word, &value, sizeof word);
    return word;
}

// A slice is a pointer and a number of cells; those of a type that is only read are not sent back.
#define SLICE(type, name) type *name, size_t name##_cells
#define READ(name) {(void *)name, name##_cells, sizeof *name, 0}
#define WRITTEN(name) {name, name##_cells, sizeof *name, 1}
#define FIGURE(name) {name, 1, sizeof *name, 1}
#define FORWARD(which, way, ...)                                                                        \
    struct header header = {which, way, sizeof lent / sizeof *lent, {__VA_ARGS__}};                     \
    return forward(&header, lent)

// A function and the one of the same signature that is its old way.
#define TWO_WAYS(function, name) function(name, STRICT) function(name##_old_way, OLD_WAY)

#define LABEL_OF(name, way)                                                                             \
    uint32_t name(uint32_t dim, uint32_t k, SLICE(const uint8_t, row), SLICE(const uint8_t, centroids), \
                  SLICE(uint8_t, result)) {                                                             \
        struct lent lent[] = {READ(row), READ(centroids), WRITTEN(result)};                             \
        FORWARD(LABEL, way, dim, k);                                                                    \
    }
TWO_WAYS(LABEL_OF, families_label)

uint32_t families_closure(uint32_t dim, uint32_t count, uint16_t max_replicas, float epsilon, SLICE(const uint8_t, vector),
                          SLICE(const uint8_t, centroids), SLICE(uint8_t, result)) {
    struct lent lent[] = {READ(vector), READ(centroids), WRITTEN(result)};
    FORWARD(CLOSURE, STRICT, dim, count, max_replicas, bits(epsilon));
}

#define LABEL_ROWS_OF(name, way)                                                                        \
    uint32_t name(uint32_t rows, uint32_t dim, uint32_t k, SLICE(const float, values),                  \
                  SLICE(const float, centroids), SLICE(uint16_t, labels), uint32_t *unplaced) {         \
        struct lent lent[] = {READ(values), READ(centroids), WRITTEN(labels), FIGURE(unplaced)};        \
        FORWARD(LABEL_ROWS, way, rows, dim, k);                                                         \
    }
TWO_WAYS(LABEL_ROWS_OF, families_label_rows)

#define PLACE_ROWS_OF(name, way)                                                                        \
    uint32_t name(uint32_t rows, uint32_t dim, uint32_t k, SLICE(const float, values),                  \
                  SLICE(const float, centroids), SLICE(uint16_t, labels), SLICE(float, distances),      \
                  uint32_t *unplaced) {                                                                 \
        struct lent lent[] = {READ(values), READ(centroids), WRITTEN(labels), WRITTEN(distances),       \
                              FIGURE(unplaced)};                                                        \
        FORWARD(PLACE_ROWS, way, rows, dim, k);                                                         \
    }
TWO_WAYS(PLACE_ROWS_OF, families_place_rows)

#define KMEANS_OF(name, way)                                                                            \
    uint32_t name(uint32_t rows, uint32_t dim, uint32_t k, uint32_t iterations, uint32_t restarts,      \
                  uint32_t points, uint32_t block, uint32_t spherical, SLICE(const uint32_t, draws),    \
                  SLICE(const float, values), SLICE(uint16_t, labels), SLICE(float, centroids),         \
                  double *objective, uint32_t *restart, uint32_t *unplaced, SLICE(float, training)) {   \
        struct lent lent[] = {                                                                          \
            READ(draws),       READ(values),    WRITTEN(labels),  WRITTEN(centroids),                   \
            FIGURE(objective), FIGURE(restart), FIGURE(unplaced), WRITTEN(training),                    \
        };                                                                                              \
        FORWARD(KMEANS, way, rows, dim, k, iterations, restarts, points, block, spherical);             \
    }
TWO_WAYS(KMEANS_OF, families_kmeans)

#define GROUP_OF(name, way)                                                                             \
    uint32_t name(uint32_t rows, uint32_t dim, uint32_t limit, uint32_t branching, float weight,        \
                  uint32_t budget, uint32_t spherical, SLICE(const uint32_t, draws),                    \
                  SLICE(const float, values), SLICE(uint16_t, order), SLICE(uint16_t, ends),            \
                  SLICE(float, means), uint32_t *groups,                                                \
                  uint32_t *splits, uint32_t *unplaced, SLICE(float, gathered), SLICE(float, training)) { \
        struct lent lent[] = {                                                                          \
            READ(draws),    READ(values),   WRITTEN(order),   WRITTEN(ends),     WRITTEN(means),        \
            FIGURE(groups), FIGURE(splits), FIGURE(unplaced), WRITTEN(gathered), WRITTEN(training),     \
        };                                                                                              \
        FORWARD(GROUP, way, rows, dim, limit, branching, bits(weight), budget, spherical);              \
    }
TWO_WAYS(GROUP_OF, families_group)

float families_root(float x) {
    struct header header = {ROOT, STRICT, 0, {bits(x)}};
    uint32_t root = forward(&header, NULL);
    float value;
    memcpy(&value, &root, sizeof value);
    return value;
}

uint32_t families_list(SLICE(const uint8_t, file), SLICE(uint8_t, text)) {
    struct lent lent[] = {READ(file), WRITTEN(text)};
    FORWARD(LIST, STRICT, 0);
}

uint32_t families_write_result(uint32_t rows, uint32_t dim, uint32_t groups, SLICE(const uint16_t, order), SLICE(const uint16_t, ends),
                               SLICE(const uint32_t, means), SLICE(uint8_t, file)) {
    struct lent lent[] = {READ(order), READ(ends), READ(means), WRITTEN(file)};
    FORWARD(WRITE_RESULT, STRICT, rows, dim, groups);
}

uint32_t families_result_numbers(SLICE(const uint8_t, file), uint32_t *rows, uint32_t *dim, uint32_t *groups) {
    struct lent lent[] = {READ(file), FIGURE(rows), FIGURE(dim), FIGURE(groups)};
    FORWARD(RESULT_NUMBERS, STRICT, 0);
}

uint32_t families_read_result(SLICE(const uint8_t, file), SLICE(uint16_t, order), SLICE(uint16_t, ends), SLICE(uint32_t, means),
                              uint32_t *rows, uint32_t *dim, uint32_t *groups) {
    struct lent lent[] = {
        READ(file), WRITTEN(order), WRITTEN(ends), WRITTEN(means), FIGURE(rows), FIGURE(dim), FIGURE(groups),
    };
    FORWARD(READ_RESULT, STRICT, 0);
}
