/* Lists the best chain of graph.bin and anchors.bin in the folder named by the first argument, through the static library. */
#include <stdio.h>
#include <stdlib.h>
#include <string.h>

#include "toadtrellis.h"

enum { ROOM = 65537 };

/* The bytes of a file, one more than a file may have at most; -1 if it cannot be read. */
static long load(const char *folder, const char *name, uint8_t *bytes)
{
    char path[4096];
    snprintf(path, sizeof path, "%s/%s", folder, name);
    FILE *f = fopen(path, "rb");
    if (f == NULL)
        return -1;
    size_t n = fread(bytes, 1, ROOM, f);
    int failed = ferror(f);
    fclose(f);
    return failed ? -1 : (long)n;
}

int main(int argc, char **argv)
{
    static uint8_t graph[ROOM], file[ROOM], letters[32768];
    static uint32_t scores[2048], chain[2048], anchors[10240];
    const char *folder = argc > 1 ? argv[1] : ".";
    long n = load(folder, "graph.bin", graph);
    long m = load(folder, "anchors.bin", file);
    if (n < 0 || m < 0) {
        printf("no file %d\n", n < 0 ? 1 : 2);
        return 1;
    }
    ToadChain r = toad_sweep(graph, n, file, m, scores, 2048, chain, 2048);
    if (r.number != 0) {
        printf("refused %u file %u place %u\n", r.number, r.file, r.place);
        return 1;
    }
    toad_read_anchors(graph, n, file, m, letters, 32768, anchors, 10240);
    printf("anchors %u score %u rounds %u\n", r.anchors, r.score, r.rounds);
    for (uint32_t i = 0; i < r.length; i++) {
        uint32_t j = chain[i];
        const uint32_t *a = anchors + 5 * (j - 1);
        printf("%u %u %u %u %u %u %u\n", j, a[0], a[1], a[1] + a[3] - 1, a[2], a[2] + a[3] - 1, scores[j - 1]);
    }
    return 0;
}
