/* Lists the connected cubic graphs with a number of vertices, each once up to the names of its vertices, as lines of graph6:
   cubic N, or cubic N bipartite for the bipartite ones alone.

   A labelling is made by a search in breadth: vertex 0 first, and at each vertex in turn those of its neighbours that have no label
   yet take the next ones. Its rows are the sorted neighbours of each vertex. Each connected graph has such labellings, and among them
   those with the least rows. So the program makes all rows that such a search can leave, and keeps a graph if and only if no other
   search of it, from any vertex and in any order of the neighbours, leaves lesser rows. */
#include <stdio.h>
#include <stdlib.h>
#include <string.h>

enum { MOST = 32 };

static int order, bipartite;
static int degree[MOST], row[MOST][3], side[MOST];

/* The searches of the finished graph: label[v] is the label of v, or -1; at[k] is the vertex with the label k. */
static int label[MOST], at[MOST];

/* Whether a search whose first rows are those of the graph can leave lesser rows; `next` labels are given, and k is the next vertex. */
static int is_beaten(int k, int next) {
    int sorted[3], new[3], many = 0, old = 0;
    if (k == order) return 0;
    for (int i = 0; i < 3; i++) {
        int w = row[at[k]][i];
        if (label[w] < 0) new[many++] = w;
        else sorted[old++] = label[w];
    }
    for (int i = 0; i < many; i++) sorted[old + i] = next + i;
    for (int i = 1; i < old; i++)
        for (int j = i; j > 0 && sorted[j - 1] > sorted[j]; j--) {
            int kept = sorted[j];
            sorted[j] = sorted[j - 1];
            sorted[j - 1] = kept;
        }
    for (int i = 0; i < 3; i++)
        if (sorted[i] != row[k][i]) return sorted[i] < row[k][i];
    static const int turns[6][3] = {{0, 1, 2}, {1, 0, 2}, {0, 2, 1}, {2, 0, 1}, {1, 2, 0}, {2, 1, 0}};
    int orders = many == 3 ? 6 : many == 2 ? 2 : 1, beaten = 0;
    for (int t = 0; t < orders && !beaten; t++) {
        for (int i = 0; i < many; i++) {
            label[new[turns[t][i]]] = next + i;
            at[next + i] = new[turns[t][i]];
        }
        beaten = is_beaten(k + 1, next + many);
    }
    for (int i = 0; i < many; i++) label[new[i]] = -1;
    return beaten;
}

static int has_least_rows(void) {
    for (int root = 0; root < order; root++) {
        memset(label, -1, sizeof label);
        label[root] = 0;
        at[0] = root;
        if (is_beaten(0, 1)) return 0;
    }
    return 1;
}

static void write_graph(void) {
    int bits = 0, count = 0;
    putchar(63 + order);
    for (int b = 1; b < order; b++)
        for (int a = 0; a < b; a++) {
            bits = bits << 1 | (row[b][0] == a || row[b][1] == a || row[b][2] == a);
            if (++count == 6) {
                putchar(63 + bits);
                bits = count = 0;
            }
        }
    if (count) putchar(63 + (bits << (6 - count)));
    putchar('\n');
}

static void join(int a, int b) {
    row[a][degree[a]++] = b;
    row[b][degree[b]++] = a;
}

static void part(int a, int b) {
    degree[a]--;
    degree[b]--;
}

/* Fills the rows from vertex v on, of which the neighbours below `from` are decided; the labels below `next` are given. Neighbours
   come in rising order, so each row is sorted when it is full. */
static void fill(int v, int from, int next) {
    if (v == order) {
        if (has_least_rows()) write_graph();
        return;
    }
    if (degree[v] == 3) {
        if (v + 1 < next || v + 1 == order) fill(v + 1, v + 2, next);
        return;
    }
    for (int w = from; w <= next && w < order; w++) {
        if (degree[w] == 3 || (bipartite && w < next && side[w] == side[v])) continue;
        if (w == next) side[w] = !side[v];
        join(v, w);
        fill(v, w + 1, w == next ? next + 1 : next);
        part(v, w);
    }
}

int main(int words, char **word) {
    order = words > 1 ? atoi(word[1]) : 0;
    bipartite = words > 2 && strcmp(word[2], "bipartite") == 0;
    if (order < 4 || order > MOST || order % 2 || words > 3 || (words == 3 && !bipartite)) {
        fputs("cubic: cubic N [bipartite], N even, from 4 to 32\n", stderr);
        return 2;
    }
    fill(0, 1, 1);
    return 0;
}
