/* Calls every name of the library on the example G1 with lent buffers of size 0, one short of full, full, and longer; the writers also with
 * outputs of size 0 and one short of the encoding; and the graph writer and reader at a file of 65,536 bytes and of one more. Each answer and every
 * place of every buffer is held to document 01. */
#include <stdio.h>
#include <string.h>

#include "toadtrellis.h"

/* Places past the full size, and the byte that every place holds before a call. */
enum { SPARE = 8, FILL = 0xa5, MOST = 65536 };

static const uint8_t G1[] = {1, 4, 2, 'A', 'C', 1, 'G', 2, 'T', 'T', 2, 'C', 'A', 4, 1, 2, 1, 3, 2, 4, 3, 4, 2, 3, 1, 2, 4, 3, 1, 3, 4};
static const uint8_t A1[] = {2, 6, 'A', 'C', 'T', 'T', 'C', 'A', 3, 1, 1, 1, 2, 2, 3, 1, 3, 2, 2, 4, 1, 5, 2, 2};

static uint8_t letters[32768 + SPARE], out[MOST + SPARE];
static uint32_t lengths[1024 + SPARE], edges[8192 + SPARE], paths[16384 + SPARE], counts[16 + SPARE], anchors[10240 + SPARE];
static uint32_t reach[16384 + SPARE], distance[16384 + SPARE], closed[1024 + SPARE], scores[2048 + SPARE], chain[2048 + SPARE];

static long checks, failures;

static void expect(int holds, const char *name, const char *what)
{
    checks++;
    if (!holds) {
        failures++;
        printf("FAILED %s: %s\n", name, what);
    }
}

/* A lent buffer: where it is, the bytes of an element, its full size, and what it holds in its used places after acceptance. */
typedef struct {
    void *at;
    size_t unit, full;
    const void *used;
    size_t used_bytes;
} Room;

/* An entry: its buffers, its call with their sizes, and the answer on G1. */
typedef struct {
    const char *name;
    Room rooms[5];
    int count;
    void (*call)(const size_t *sizes, uint32_t *answer);
    uint32_t accepted[7];
} Entry;

static const uint32_t LENGTHS[] = {2, 1, 2, 2}, EDGES[] = {1, 2, 1, 3, 2, 4, 3, 4}, COUNTS[] = {3, 3};
static const uint32_t ANCHORS[] = {1, 1, 1, 2, 2, 3, 1, 3, 2, 2, 4, 1, 5, 2, 2}, SCORES[] = {2, 4, 6}, CHAIN[] = {1, 2, 3};
static uint32_t PATHS[1024 + 3] = {1, 2, 4}, REACH[64], DISTANCE[64], CLOSED[4];

/* The places of G1 that are not packed: path 2, and two cells of each row of the tables. */
static void lay(void)
{
    static const uint32_t r[4][2] = {{1, 1}, {2, 1}, {1, 2}, {3, 3}}, d[4][2] = {{0, 0}, {0, 2}, {2, 0}, {0, 0}};
    PATHS[1024] = 1, PATHS[1025] = 3, PATHS[1026] = 4;
    for (int v = 0; v < 4; v++)
        for (int i = 0; i < 2; i++)
            REACH[16 * v + i] = r[v][i], DISTANCE[16 * v + i] = d[v][i];
}

#define ANSWER(call)                               \
    do {                                           \
        memset(answer, 0, 7 * sizeof *answer);     \
        __typeof__(call) r = (call);               \
        memcpy(answer, &r, sizeof r);              \
    } while (0)

static void read_graph(const size_t *s, uint32_t *answer)
{
    ANSWER(toad_read_graph(G1, sizeof G1, letters, s[0], lengths, s[1], edges, s[2], paths, s[3], counts, s[4]));
}

static void read_anchors(const size_t *s, uint32_t *answer)
{
    ANSWER(toad_read_anchors(G1, sizeof G1, A1, sizeof A1, letters, s[0], anchors, s[1]));
}

static void tables(const size_t *s, uint32_t *answer)
{
    ANSWER(toad_tables(G1, sizeof G1, reach, s[0], distance, s[1], closed, s[2]));
}

static void sweep(const size_t *s, uint32_t *answer)
{
    ANSWER(toad_sweep(G1, sizeof G1, A1, sizeof A1, scores, s[0], chain, s[1]));
}

static void plain(const size_t *s, uint32_t *answer)
{
    ANSWER(toad_plain(G1, sizeof G1, A1, sizeof A1, scores, s[0], chain, s[1]));
}

static const Entry ENTRIES[] = {
    {"toad_read_graph",
     {{letters, 1, 32768, "ACGTTCA", 7}, {lengths, 4, 1024, LENGTHS, sizeof LENGTHS}, {edges, 4, 8192, EDGES, sizeof EDGES},
      {paths, 4, 16384, PATHS, sizeof PATHS}, {counts, 4, 16, COUNTS, sizeof COUNTS}},
     5, read_graph, {0, 0, 0, 4, 7, 4, 2}},
    {"toad_read_anchors",
     {{letters, 1, 32768, "ACTTCA", 6}, {anchors, 4, 10240, ANCHORS, sizeof ANCHORS}},
     2, read_anchors, {0, 0, 0, 6, 3}},
    {"toad_tables",
     {{reach, 4, 16384, REACH, sizeof REACH}, {distance, 4, 16384, DISTANCE, sizeof DISTANCE}, {closed, 4, 1024, CLOSED, sizeof CLOSED}},
     3, tables, {0, 0, 0, 4, 2, 2, 2}},
    {"toad_sweep",
     {{scores, 4, 2048, SCORES, sizeof SCORES}, {chain, 4, 2048, CHAIN, sizeof CHAIN}},
     2, sweep, {0, 0, 0, 3, 6, 2, 3}},
    {"toad_plain",
     {{scores, 4, 2048, SCORES, sizeof SCORES}, {chain, 4, 2048, CHAIN, sizeof CHAIN}},
     2, plain, {0, 0, 0, 3, 6, 0, 3}},
};

static int all(const uint8_t *at, size_t from, size_t to, uint8_t byte)
{
    for (size_t i = from; i < to; i++)
        if (at[i] != byte)
            return 0;
    return 1;
}

/* Lends one buffer with a size below full: 13, the rest 0, and no place written. */
static void small(const Entry *e, int which, size_t size)
{
    static const uint32_t refused[7] = {13};
    size_t sizes[5];
    uint32_t answer[7];
    for (int i = 0; i < e->count; i++) {
        memset(e->rooms[i].at, FILL, (e->rooms[i].full + SPARE) * e->rooms[i].unit);
        sizes[i] = i == which ? size : e->rooms[i].full;
    }
    e->call(sizes, answer);
    expect(memcmp(answer, refused, sizeof refused) == 0, e->name, "a buffer below full size is refused with 13 and 0 in the rest");
    for (int i = 0; i < e->count; i++)
        expect(all(e->rooms[i].at, 0, (e->rooms[i].full + SPARE) * e->rooms[i].unit, FILL), e->name, "a refusal writes nothing");
}

/* Lends every buffer with its full size and `more` places: the content, 0 up to the full size, and the rest untouched. */
static void full(const Entry *e, size_t more)
{
    size_t sizes[5];
    uint32_t answer[7];
    for (int i = 0; i < e->count; i++) {
        memset(e->rooms[i].at, FILL, (e->rooms[i].full + SPARE) * e->rooms[i].unit);
        sizes[i] = e->rooms[i].full + more;
    }
    e->call(sizes, answer);
    expect(memcmp(answer, e->accepted, sizeof answer) == 0, e->name, "the answer on G1");
    for (int i = 0; i < e->count; i++) {
        const Room *r = &e->rooms[i];
        expect(memcmp(r->at, r->used, r->used_bytes) == 0, e->name, "the used places");
        expect(all(r->at, r->used_bytes, r->full * r->unit, 0), e->name, "0 up to the full size");
        expect(all(r->at, r->full * r->unit, (r->full + SPARE) * r->unit, FILL), e->name, "untouched beyond the full size");
    }
}

/* The content of G1 in the buffers, as the readers lay it. */
static void fill_g1(void)
{
    toad_read_graph(G1, sizeof G1, letters, 32768, lengths, 1024, edges, 8192, paths, 16384, counts, 16);
}

static ToadWritten write_graph(const size_t *s, size_t room)
{
    memset(out, FILL, sizeof out);
    return toad_write_graph(4, 4, 2, letters, s[0], lengths, s[1], edges, s[2], paths, s[3], counts, s[4], out, room);
}

static ToadWritten write_anchors(const size_t *s, size_t room)
{
    memset(out, FILL, sizeof out);
    return toad_write_anchors(6, 3, letters, s[0], anchors, s[1], G1, sizeof G1, out, room);
}

/* A writer: its content buffers below full size, then its output of size 0, one short, just right, and longer. */
static void writer(const char *name, ToadWritten (*write)(const size_t *, size_t), const size_t *fulls, int count, const uint8_t *file, uint32_t bytes)
{
    size_t sizes[5];
    for (int i = 0; i < count; i++) {
        for (int k = 0; k < 2; k++) {
            memcpy(sizes, fulls, count * sizeof *sizes);
            sizes[i] = k == 0 ? 0 : fulls[i] - 1;
            ToadWritten r = write(sizes, MOST);
            expect(r.number == 13 && r.file == 0 && r.place == 0 && r.bytes == 0, name, "a buffer below full size is refused with 13");
            expect(all(out, 0, sizeof out, FILL), name, "a refusal writes nothing");
        }
    }
    size_t rooms[] = {0, bytes - 1, bytes, MOST};
    for (int k = 0; k < 4; k++) {
        ToadWritten r = write(fulls, rooms[k]);
        uint32_t wrote = rooms[k] < bytes ? 0 : bytes;
        expect(r.number == (wrote ? 0u : 14u) && r.file == 0 && r.place == 0 && r.bytes == wrote, name, "14 exactly if the encoding is longer than the room");
        expect(memcmp(out, file, wrote) == 0, name, "the bytes of the file");
        expect(all(out, wrote, sizeof out, FILL), name, "untouched past the last byte written");
    }
}

static void writers(void)
{
    static const size_t graph_sizes[] = {32768, 1024, 8192, 16384, 16}, anchor_sizes[] = {32768, 10240};
    fill_g1();
    writer("toad_write_graph", write_graph, graph_sizes, 5, G1, sizeof G1);
    toad_read_anchors(G1, sizeof G1, A1, sizeof A1, letters, 32768, anchors, 10240);
    writer("toad_write_anchors", write_anchors, anchor_sizes, 2, A1, sizeof A1);
}

/* 1,024 vertices in a row and sixteen paths through all of them, with so many letters that the file has 65,536 bytes and `more`. */
static ToadWritten long_graph(uint32_t more)
{
    memset(letters, 'A', 32768);
    for (uint32_t v = 0; v < 1024; v++)
        lengths[v] = 29 + (v < 203 + more);
    for (uint32_t e = 0; e < 1023; e++)
        edges[2 * e] = e + 1, edges[2 * e + 1] = e + 2;
    for (uint32_t i = 0; i < 16384; i++)
        paths[i] = i % 1024 + 1;
    for (uint32_t i = 0; i < 16; i++)
        counts[i] = 1024;
    memset(out, FILL, sizeof out);
    return toad_write_graph(1024, 1023, 16, letters, 32768, lengths, 1024, edges, 8192, paths, 16384, counts, 16, out, MOST + SPARE);
}

static void longest(void)
{
    ToadWritten w = long_graph(1);
    expect(w.number == 4 && w.file == 1 && w.place == MOST && w.bytes == 0, "toad_write_graph", "a file of 65,537 bytes is not written");
    expect(all(out, 0, sizeof out, FILL), "toad_write_graph", "nor any byte of it");
    w = long_graph(0);
    expect(w.number == 0 && w.bytes == MOST, "toad_write_graph", "a file of 65,536 bytes");
    expect(all(out, MOST, sizeof out, FILL), "toad_write_graph", "and no byte more");
    ToadGraph g = toad_read_graph(out, MOST, letters, 32768, lengths, 1024, edges, 8192, paths, 16384, counts, 16);
    expect(g.number == 0 && g.vertices == 1024 && g.edges == 1023 && g.paths == 16, "toad_read_graph", "65,536 bytes are read");
    g = toad_read_graph(out, MOST + 1, letters, 32768, lengths, 1024, edges, 8192, paths, 16384, counts, 16);
    expect(g.number == 4 && g.file == 1 && g.place == MOST, "toad_read_graph", "65,537 bytes are refused with 4");
}

/* The letters of each anchor in each file, and the empty part where there is none. */
static void parts(void)
{
    static const uint32_t in_graph[] = {3, 8, 11}, in_read[] = {2, 4, 6};
    for (uint32_t j = 0; j <= 4; j++) {
        for (uint32_t which = 0; which <= 3; which++) {
            ToadPart p = toad_letters(G1, sizeof G1, A1, sizeof A1, j, which);
            int there = 1 <= j && j <= 3 && 1 <= which && which <= 2;
            uint32_t start = !there ? 0 : which == 1 ? in_graph[j - 1] : in_read[j - 1];
            expect(p.start == start && p.length == (there ? 2u : 0u), "toad_letters", "where the letters stand");
        }
    }
    ToadPart p = toad_letters(G1, sizeof G1 - 1, A1, sizeof A1, 1, 2);
    expect(p.start == 0 && p.length == 0, "toad_letters", "the empty part where a file is refused");
    p = toad_letters(G1, 0, A1, 0, 1, 1);
    expect(p.start == 0 && p.length == 0, "toad_letters", "the empty part for empty files");
}

/* Files of no bytes. */
static void empty(void)
{
    ToadGraph g = toad_read_graph(G1, 0, letters, 32768, lengths, 1024, edges, 8192, paths, 16384, counts, 16);
    expect(g.number == 1 && g.file == 1 && g.place == 0, "toad_read_graph", "an empty file");
    ToadAnchors a = toad_read_anchors(G1, sizeof G1, A1, 0, letters, 32768, anchors, 10240);
    expect(a.number == 1 && a.file == 2 && a.place == 0, "toad_read_anchors", "an empty anchor file");
    ToadTables t = toad_tables(G1, 0, reach, 16384, distance, 16384, closed, 1024);
    expect(t.number == 1 && t.file == 1 && t.place == 0, "toad_tables", "an empty file");
    ToadChain c = toad_sweep(G1, 0, A1, 0, scores, 2048, chain, 2048);
    expect(c.number == 1 && c.file == 1 && c.place == 0, "toad_sweep", "empty files");
    c = toad_plain(G1, sizeof G1, A1, 0, scores, 2048, chain, 2048);
    expect(c.number == 1 && c.file == 2 && c.place == 0, "toad_plain", "an empty anchor file");
}

int main(void)
{
    lay();
    for (size_t k = 0; k < sizeof ENTRIES / sizeof *ENTRIES; k++) {
        for (int i = 0; i < ENTRIES[k].count; i++) {
            small(&ENTRIES[k], i, 0);
            small(&ENTRIES[k], i, ENTRIES[k].rooms[i].full - 1);
        }
        full(&ENTRIES[k], 0);
        full(&ENTRIES[k], SPARE / 2);
    }
    writers();
    longest();
    parts();
    empty();
    printf("sizes: %ld checks, %ld failed\n", checks, failures);
    return failures != 0;
}
