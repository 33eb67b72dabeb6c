/* Toadtrellis: reads and writes graph files and anchor files, makes the reach and distance tables of a graph, and finds the best chain of
 * anchors. Each function is proved to give the one answer that document 01 names, and to leave what it names in every place of every buffer, for
 * every input. Link target/staticlib/libtoadtrellis.a (`make lib`), which needs nothing but the C library's memset and memcpy.
 *
 * A slice is a pointer and then a length, counted in elements. Letters and files are bytes; all other numbers are uint32_t. All numbering is from 1;
 * places in a file count from 0.
 *
 * Every byte string gets a reply. Each answer but ToadPart has the number, the file (1 graph, 2 anchors) and the place of the first fault; an
 * acceptance has 0 in all three. A refusal writes to no buffer that was lent, and its other numbers are 0. No function trusts its caller to have checked a file or a size.
 * What C itself asks is left to the caller: a pointer is not NULL, also where its length is 0, and is valid for its length; and a buffer that is
 * written overlaps no other argument.
 *
 *   1  bytes end within the file                                       8  a path step that is not an edge
 *   2  number not in fewest bytes, or too great                        9  a vertex on no path
 *   3  first number not the kind wanted                               10  bytes left over
 *   4  a count, length or weight out of range; file too long          11  anchor outside label or read, or x, c or length 0
 *   5  not a letter                                                   12  anchor's letters differ
 *   6  no such vertex                                                 13  a lent buffer below full size (place 0, file 0)
 *   7  edges, anchors or a path not strictly rising                   14  the writer's output is too short (place 0, file 0)
 *
 * Full sizes of lent buffers, in elements: letters 32,768; lengths 1,024; edges 8,192; paths 16,384; counts 16; anchors 10,240; reach and
 * distance 16,384 each; closed 1,024; scores and chain 2,048. A buffer below its full size gives 13, before any file is looked at. After acceptance,
 * unused places up to the full size hold 0, and places beyond it are untouched. Path i starts at place 1,024 (i - 1); cell (v, i) of a table is at
 * 16 (v - 1) + i - 1; all else is packed in file order.
 *
 * Nothing is kept from call to call, so calls on different buffers may run at the same time. The tables that a call works on are on its stack: a
 * thread that calls toad_sweep or toad_plain needs 1 MiB of it, and half of that for toad_tables.
 */
#ifndef TOADTRELLIS_H
#define TOADTRELLIS_H

#include <stddef.h>
#include <stdint.h>

#ifdef __cplusplus
extern "C" {
#endif

typedef struct {
    uint32_t number, file, place;
    uint32_t vertices, letters, edges, paths;
} ToadGraph;

typedef struct {
    uint32_t number, file, place;
    uint32_t bytes;
} ToadWritten;

typedef struct {
    uint32_t number, file, place;
    uint32_t letters, anchors;
} ToadAnchors;

typedef struct {
    uint32_t number, file, place;
    uint32_t vertices, paths, reach_rounds, distance_rounds;
} ToadTables;

typedef struct {
    uint32_t number, file, place;
    uint32_t anchors, score, rounds, length;
} ToadChain;

typedef struct {
    uint32_t start, length;
} ToadPart;

/* Reads a graph file. The buffers hold, in file order: the letters of all labels; the labels' lengths; the two vertices of each edge; the vertices
 * of each path, each path in its room of 1,024 places; and how many vertices each path has. The answer counts them. The file is accepted exactly when
 * every rule for graph files holds; what is read, written again with toad_write_graph, is the same bytes. */
ToadGraph toad_read_graph(const uint8_t *file, size_t file_len,
                          uint8_t *letters, size_t letters_len, uint32_t *lengths, size_t lengths_len,
                          uint32_t *edges, size_t edges_len, uint32_t *paths, size_t paths_len,
                          uint32_t *counts, size_t counts_len);

/* Writes the graph file of content: n vertices, m edges and k paths, laid as toad_read_graph lays them; places past those that are used are not
 * looked at. A fault of the content gets the number that the reader would give, with file 1 and place 0; 4 with place 65,536 says that the file would
 * be longer than that; 14 that the output is too short, which is given exactly then. The output may have any size, and past the last byte written it
 * is untouched. What is written and read again is the same content. */
ToadWritten toad_write_graph(uint32_t n, uint32_t m, uint32_t k,
                             const uint8_t *letters, size_t letters_len, const uint32_t *lengths, size_t lengths_len,
                             const uint32_t *edges, size_t edges_len, const uint32_t *paths, size_t paths_len,
                             const uint32_t *counts, size_t counts_len, uint8_t *out, size_t out_len);

/* Reads an anchor file over a graph file, the whole of which is checked first. The buffers hold the read's letters, and five numbers for each anchor:
 * v, x, c, length, weight. An anchor is accepted only if the letters of its label and of the read are the same. */
ToadAnchors toad_read_anchors(const uint8_t *graph, size_t graph_len, const uint8_t *file, size_t file_len,
                              uint8_t *letters, size_t letters_len, uint32_t *anchors, size_t anchors_len);

/* Writes the anchor file of content: a read of r letters and n anchors, laid as toad_read_anchors lays them. The graph file is checked right after
 * the buffers; then the content, whose faults have file 2 and place 0; then 14, exactly if the output is too short. */
ToadWritten toad_write_anchors(uint32_t r, uint32_t n,
                               const uint8_t *letters, size_t letters_len, const uint32_t *anchors, size_t anchors_len,
                               const uint8_t *graph, size_t graph_len, uint8_t *out, size_t out_len);

/* Makes the tables of a graph file. Reach cell (v, i): the greatest position on path i whose vertex has a walk to v, 0 if none has. Distance cell
 * (v, i): the least length of a walk from that vertex to v, 0 where the reach cell is 0. Closed walk of v: the least length of a walk from v to v with
 * at least one edge, 0 if there is none. The answer says how many rounds each table took; neither count exceeds the number of vertices. */
ToadTables toad_tables(const uint8_t *file, size_t file_len,
                       uint32_t *reach, size_t reach_len, uint32_t *distance, size_t distance_len,
                       uint32_t *closed, size_t closed_len);

/* Finds the best chain by the sweep, which goes by the cover's tables in vertex order. `scores` holds for each anchor the best score of all chains
 * that end there, also where the graph has cycles; `chain` the numbers of the chain's anchors, in read order. The chain is valid, no valid chain of
 * the given anchors scores higher, and of equal chains it is the one that document 01 names. The answer has the anchors of the file, the greatest
 * score, the rounds, at most one for each anchor, and the chain's length. With no anchors the chain is empty, and the score and rounds are 0. */
ToadChain toad_sweep(const uint8_t *graph, size_t graph_len, const uint8_t *file, size_t file_len,
                     uint32_t *scores, size_t scores_len, uint32_t *chain, size_t chain_len);

/* Finds the same scores and the same chain by the plain pass over pairs, which audits the sweep: neither engine calls the other, and each is
 * proved by itself. Its rounds are 0. */
ToadChain toad_plain(const uint8_t *graph, size_t graph_len, const uint8_t *file, size_t file_len,
                     uint32_t *scores, size_t scores_len, uint32_t *chain, size_t chain_len);

/* Says where the letters of one anchor stand in the file named, 1 the graph file, 2 the anchor file: the place of the first, and how many. 0 and 0
 * exactly when a file is refused, the anchor's number is not 1 to N, or the file named is neither. */
ToadPart toad_letters(const uint8_t *graph, size_t graph_len, const uint8_t *file, size_t file_len,
                      uint32_t number, uint32_t which);

#ifdef __cplusplus
}
#endif

#endif
