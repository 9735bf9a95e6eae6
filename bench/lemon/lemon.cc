// LEMON's MaxMatching as a peer of mcg, over the LEMON library (Debian's liblemon-dev).
#include <lemon/adaptors.h>
#include <lemon/matching.h>
#include <lemon/smart_graph.h>
#include "peer.h"

using namespace lemon;

struct LemonEngine {
  typedef SmartGraph::NodeMap<bool> Keep;
  typedef FilterNodes<SmartGraph, Keep> Sub;
  const McgGraph& src;
  SmartGraph g;
  std::vector<SmartGraph::Node> node;
  std::vector<SmartGraph::Edge> edge;
  Keep keep;
  SmartGraph::EdgeMap<bool> in;  // the matching of run()
  int size = 0;
  std::vector<int> mate, mate_edge;
  std::vector<char> st;

  explicit LemonEngine(const McgGraph& s) : src(s), keep(g, true), in(g, false) {
    for (int i = 0; i < s.n; ++i) node.push_back(g.addNode());
    for (auto& x : s.e) edge.push_back(g.addEdge(node[x.first], node[x.second]));
    for (auto v : node) keep[v] = true;
    for (auto e : edge) in[e] = false;
  }
  void run(bool) {
    MaxMatching<SmartGraph> mm(g);
    mm.run();
    size = mm.matchingSize();
    mate.assign(src.n, -1);
    mate_edge.assign(src.n, -1);
    st.resize(src.n);
    for (int v = 0; v < src.n; ++v) {
      auto s = mm.status(node[v]);
      st[v] = s == MaxMatching<SmartGraph>::D ? 'D' : s == MaxMatching<SmartGraph>::A ? 'A' : 'C';
    }
    for (size_t i = 0; i < edge.size(); ++i)
      if (mm.matching(edge[i])) {
        in[edge[i]] = true;
        int a = src.e[i].first, b = src.e[i].second;
        mate[a] = b, mate[b] = a, mate_edge[a] = mate_edge[b] = i;
      }
  }
  int size_without(int u, int v) {
    keep[node[u]] = keep[node[v]] = false;
    Sub sub(g, keep);
    MaxMatching<Sub> mm(sub);
    mm.run();
    int k = mm.matchingSize();  // while u and v are away: it walks the filtered nodes
    keep[node[u]] = keep[node[v]] = true;
    return k;
  }
  bool augment_without(int u, int v) {
    keep[node[u]] = keep[node[v]] = false;
    Sub sub(g, keep);
    MaxMatching<Sub> mm(sub);
    mm.matchingInit(in);
    mm.startSparse();
    int k = mm.matchingSize();
    keep[node[u]] = keep[node[v]] = true;
    return k == src.n / 2 - 1;
  }
  void even_without(int u, std::vector<char>& out) {
    keep[node[u]] = false;
    Sub sub(g, keep);
    MaxMatching<Sub> mm(sub);
    mm.matchingInit(in);
    mm.startSparse();
    keep[node[u]] = true;
    out.assign(src.n, 0);
    for (int v = 0; v < src.n; ++v)
      if (v != u) out[v] = mm.status(node[v]) == MaxMatching<Sub>::EVEN;
  }
};

int main(int argc, char** argv) { return peer_main<LemonEngine>(argc, argv); }
