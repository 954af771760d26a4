/* Shortest trees of sources under prices, and what they load: the part of python/mcf/trees that numpy alone is slow at.
 *
 * A network is a list of arcs, those of one tail side by side: first[v] to first[v + 1] leave node v, each with its head and its cell.
 * A tree has for each node the arc that leads to it, -1 at the source, at what is not reached, and where nothing is carried.
 */
#include <math.h>
#include <stdint.h>
#include <stdlib.h>
#include <string.h>

typedef struct {
    int32_t nodes, cells;
    const int32_t *first, *head, *tail, *cell;
} Graph;

typedef struct {
    int32_t *heap, *place, *order;
    int32_t size, found;
} Queue;

static int queue_made(Queue *queue, int32_t nodes)
{
    int32_t *room = malloc(3 * sizeof(int32_t) * (size_t)nodes);
    queue->heap = room;
    queue->place = room + nodes;
    queue->order = room + 2 * (size_t)nodes;
    return room != NULL;
}

/* Dijkstra's search with a binary heap, for keys of a type; `order` then has the nodes that are reached, the nearest first. */
#define SEARCH(NAME, KEY, FAR)                                                                                  \
    static void NAME##_up(Queue *q, const KEY *far, int32_t at)                                                 \
    {                                                                                                           \
        int32_t node = q->heap[at];                                                                             \
        while (at > 0 && far[q->heap[(at - 1) / 2]] > far[node]) {                                              \
            q->heap[at] = q->heap[(at - 1) / 2];                                                                \
            q->place[q->heap[at]] = at;                                                                         \
            at = (at - 1) / 2;                                                                                  \
        }                                                                                                       \
        q->heap[at] = node;                                                                                     \
        q->place[node] = at;                                                                                    \
    }                                                                                                           \
    static int32_t NAME##_next(Queue *q, const KEY *far)                                                        \
    {                                                                                                           \
        int32_t least = q->heap[0], node = q->heap[--q->size], at = 0, child;                                   \
        while ((child = 2 * at + 1) < q->size) {                                                                \
            if (child + 1 < q->size && far[q->heap[child + 1]] < far[q->heap[child]])                           \
                child++;                                                                                        \
            if (far[q->heap[child]] >= far[node])                                                               \
                break;                                                                                          \
            q->heap[at] = q->heap[child];                                                                       \
            q->place[q->heap[at]] = at;                                                                         \
            at = child;                                                                                         \
        }                                                                                                       \
        q->heap[at] = node;                                                                                     \
        q->place[node] = at;                                                                                    \
        return least;                                                                                           \
    }                                                                                                           \
    static void NAME(const Graph *g, const KEY *price, int32_t source, KEY *far, int16_t *before, Queue *q)     \
    {                                                                                                           \
        for (int32_t node = 0; node < g->nodes; node++) {                                                       \
            far[node] = FAR;                                                                                    \
            before[node] = -1;                                                                                  \
            q->place[node] = -1;                                                                                \
        }                                                                                                       \
        far[source] = 0;                                                                                        \
        q->heap[0] = source;                                                                                    \
        q->place[source] = 0;                                                                                   \
        q->size = 1;                                                                                            \
        q->found = 0;                                                                                           \
        while (q->size > 0) {                                                                                   \
            int32_t node = NAME##_next(q, far);                                                                 \
            q->order[q->found++] = node;                                                                        \
            for (int32_t arc = g->first[node]; arc < g->first[node + 1]; arc++) {                               \
                int32_t head = g->head[arc];                                                                    \
                KEY over = far[node] + price[g->cell[arc]];                                                     \
                if (over < far[head]) {                                                                         \
                    if (q->place[head] < 0) {                                                                   \
                        q->place[head] = q->size;                                                               \
                        q->heap[q->size++] = head;                                                              \
                    }                                                                                           \
                    far[head] = over;                                                                           \
                    before[head] = (int16_t)arc;                                                                \
                    NAME##_up(q, far, q->place[head]);                                                          \
                }                                                                                               \
            }                                                                                                   \
        }                                                                                                       \
    }

SEARCH(search, double, INFINITY)
SEARCH(search_whole, int64_t, INT64_C(1) << 62)

/* The load of each cell where a tree carries what is wanted at its nodes; arcs that carry nothing leave the tree. */
static void load(const Graph *g, const Queue *q, const double *wanted, int16_t *before, double *carried, double *loads)
{
    memset(loads, 0, sizeof(double) * (size_t)g->cells);
    memcpy(carried, wanted, sizeof(double) * (size_t)g->nodes);
    for (int32_t at = q->found - 1; at > 0; at--) {
        int32_t node = q->order[at], arc = before[node];
        if (carried[node] > 0) {
            carried[g->tail[arc]] += carried[node];
            loads[g->cell[arc]] += carried[node];
        } else {
            before[node] = -1;
        }
    }
}

/* How much of a source's flow goes over to a tree, so that the sum of exponentials is least: `full` is the fullness of cells, by
 * `step` more where all goes over. The derivative is halved in, since Newton's steps are short where exponentials are steep; the last
 * two are Newton's. */
static double part_to_move(int32_t cells, const double *full, const double *step, double steep)
{
    double low = 0, high = 1, part = 1;
    for (int round = 0; round < 22; round++) {
        double slope = 0, curve = 0, top = -INFINITY;
        for (int32_t c = 0; c < cells; c++)
            if (step[c] != 0 && full[c] + part * step[c] > top)
                top = full[c] + part * step[c];
        for (int32_t c = 0; c < cells; c++)
            if (step[c] != 0) {
                double power = steep * (full[c] + part * step[c] - top);
                if (power > -40) {
                    double value = exp(power) * step[c];
                    slope += value;
                    curve += steep * value * step[c];
                }
            }
        if (slope <= 0)
            low = part;
        else
            high = part;
        if (low == 1)
            break;
        double newton = part - slope / curve;
        part = round > 18 && newton > low && newton < high ? newton : (low + high) / 2;
    }
    return part;
}

/* Passes over all sources: each moves a part of its flow to the shortest tree under prices that grow exponentially with the fullness
 * of cells. `before` and `parts` have for each pass and source the tree and which part of the flow is on it at the end. */
int mcf_passes(int32_t nodes, int32_t cells, const int32_t *first, const int32_t *head, const int32_t *tail, const int32_t *cell,
               const double *room, int32_t sources, const int32_t *source, const double *wanted, int32_t passes, double steep,
               double growth, int16_t *before, double *parts, double *flows)
{
    Graph g = {nodes, cells, first, head, tail, cell};
    Queue q;
    double *loads = calloc((size_t)cells * 5 + 2 * (size_t)nodes, sizeof(double));
    if (!queue_made(&q, nodes) || !loads) {
        free(loads);
        return 1;
    }
    double *price = loads + cells, *tree = price + cells, *full = tree + cells, *step = full + cells;
    double *far = step + cells, *carried = far + nodes;
    for (int32_t pass = 0; pass < passes; pass++, steep *= growth)
        for (int32_t s = 0; s < sources; s++) {
            size_t at = (size_t)pass * sources + s;
            double *flow = flows + (size_t)s * cells, top = 0, part = 1;
            for (int32_t c = 0; c < cells; c++)
                if (loads[c] * room[c] > top)
                    top = loads[c] * room[c];
            for (int32_t c = 0; c < cells; c++) {
                full[c] = top > 0 ? loads[c] * room[c] / top : 0;
                price[c] = (exp(steep * (full[c] - 1)) + 1e-9) * room[c];
            }
            search(&g, price, source[s], far, before + at * nodes, &q);
            load(&g, &q, wanted + (size_t)s * nodes, before + at * nodes, carried, tree);
            if (pass > 0) {
                for (int32_t c = 0; c < cells; c++)
                    step[c] = (tree[c] - flow[c]) * room[c] / top;
                part = part_to_move(cells, full, step, steep);
            }
            for (int32_t c = 0; c < cells; c++) {
                double more = part * (tree[c] - flow[c]);
                flow[c] += more;
                loads[c] += more;
            }
            for (int32_t earlier = 0; earlier < pass; earlier++)
                parts[(size_t)earlier * sources + s] *= 1 - part;
            parts[at] = part;
        }
    free(q.heap);
    free(loads);
    return 0;
}

/* The shortest tree of each source under prices, and for each what its targets cost together. */
int mcf_trees(int32_t nodes, int32_t cells, const int32_t *first, const int32_t *head, const int32_t *tail, const int32_t *cell,
              const double *price, int32_t sources, const int32_t *source, const double *wanted, int16_t *before, double *cost)
{
    Graph g = {nodes, cells, first, head, tail, cell};
    Queue q;
    double *far = malloc(sizeof(double) * (2 * (size_t)nodes + (size_t)cells));
    if (!queue_made(&q, nodes) || !far) {
        free(far);
        return 1;
    }
    for (int32_t s = 0; s < sources; s++) {
        const double *mine = wanted + (size_t)s * nodes;
        search(&g, price, source[s], far, before + (size_t)s * nodes, &q);
        cost[s] = 0;
        for (int32_t node = 0; node < nodes; node++)
            if (mine[node] > 0)
                cost[s] += mine[node] * far[node];
        load(&g, &q, mine, before + (size_t)s * nodes, far + nodes, far + 2 * (size_t)nodes);
    }
    free(q.heap);
    free(far);
    return 0;
}

/* Distances in whole numbers from each source to all nodes, 2^62 where a node is not reached. */
int mcf_distances(int32_t nodes, int32_t cells, const int32_t *first, const int32_t *head, const int32_t *tail, const int32_t *cell,
                  const int64_t *length, int32_t sources, const int32_t *source, int64_t *far)
{
    Graph g = {nodes, cells, first, head, tail, cell};
    Queue q;
    int16_t *before = malloc(sizeof(int16_t) * (size_t)nodes);
    if (!queue_made(&q, nodes) || !before) {
        free(before);
        return 1;
    }
    for (int32_t s = 0; s < sources; s++)
        search_whole(&g, length, source[s], far + (size_t)s * nodes, before, &q);
    free(q.heap);
    free(before);
    return 0;
}

/* The loads of trees in some cells: row[c] is the place of cell c in a row of `loads`, -1 where it has none. */
int mcf_loads(int32_t nodes, const int32_t *tail, const int32_t *cell, const int32_t *row, int32_t rows, int64_t trees,
              const int16_t *before, const int32_t *of_source, const double *wanted, double *loads)
{
    int32_t *children = malloc(sizeof(int32_t) * 2 * (size_t)nodes), *stack = children + nodes;
    double *carried = malloc(sizeof(double) * (size_t)nodes);
    if (!children || !carried) {
        free(children);
        free(carried);
        return 1;
    }
    for (int64_t tree = 0; tree < trees; tree++, before += nodes, loads += rows) {
        int32_t size = 0;
        memset(children, 0, sizeof(int32_t) * (size_t)nodes);
        memset(loads, 0, sizeof(double) * (size_t)rows);
        memcpy(carried, wanted + (size_t)of_source[tree] * nodes, sizeof(double) * (size_t)nodes);
        for (int32_t node = 0; node < nodes; node++)
            if (before[node] >= 0)
                children[tail[before[node]]]++;
        for (int32_t node = 0; node < nodes; node++)
            if (before[node] >= 0 && !children[node])
                stack[size++] = node;
        while (size > 0) {
            int32_t node = stack[--size], arc = before[node], parent = tail[arc];
            if (row[cell[arc]] >= 0)
                loads[row[cell[arc]]] += carried[node];
            carried[parent] += carried[node];
            if (--children[parent] == 0 && before[parent] >= 0)
                stack[size++] = parent;
        }
    }
    free(children);
    free(carried);
    return 0;
}

static uint8_t *copied(uint8_t *out, const uint8_t *from, int64_t count)
{
    memcpy(out, from, (size_t)count);
    return out + count;
}

static uint8_t *written(uint8_t *out, int64_t number)
{
    uint8_t digits[20];
    int count = 0;
    do
        digits[count++] = (uint8_t)('0' + number % 10);
    while (number /= 10);
    while (count > 0)
        *out++ = digits[--count];
    return out;
}

/* The lines of paths in a certificate, as many as fit into some room; returns how many, -1 for want of memory. A row has the tree along
 * which it goes, its end that is not the root, whether it goes to the root, its weight, and where in `text` the id of its demand stands;
 * `words` are the names of cells one behind the other, that of cell c from word[c] to word[c + 1]. */
int64_t mcf_lines(int32_t nodes, const int32_t *tail, const int32_t *cell, const int16_t *before, const uint8_t *words, const int64_t *word,
                  const uint8_t *text, int64_t rows, const int32_t *tree, const int32_t *node, const uint8_t *turned, const int64_t *weight,
                  const int64_t *first, const int64_t *end, uint8_t *out, int64_t room, int64_t *bytes)
{
    int32_t *cells = malloc(sizeof(int32_t) * (size_t)nodes);
    uint8_t *begun = out;
    int64_t row = 0;
    if (!cells)
        return -1;
    for (; row < rows; row++) {
        const int16_t *mine = before + (size_t)tree[row] * nodes;
        int64_t size = 5 + (end[row] - first[row]) + 1 + 20 + 1;
        int32_t count = 0;
        for (int32_t at = node[row]; mine[at] >= 0; at = tail[mine[at]]) {
            cells[count++] = cell[mine[at]];
            size += 1 + word[cells[count - 1] + 1] - word[cells[count - 1]];
        }
        if (size > room - (out - begun))
            break;
        out = copied(out, (const uint8_t *)"path ", 5);
        out = copied(out, text + first[row], end[row] - first[row]);
        *out++ = ' ';
        out = written(out, weight[row]);
        for (int32_t step = 0; step < count; step++) {
            int32_t c = cells[turned[row] ? step : count - 1 - step];
            *out++ = ' ';
            out = copied(out, words + word[c], word[c + 1] - word[c]);
        }
        *out++ = '\n';
    }
    free(cells);
    *bytes = out - begun;
    return row;
}
