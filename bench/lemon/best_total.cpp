// The greatest total that the free deals of a ticket can gain, by LEMON's network simplex.

#include <cstddef>
#include <cstdint>
#include <vector>

#include <lemon/network_simplex.h>
#include <lemon/smart_graph.h>

namespace {

constexpr std::size_t side = 16;

using Graph = lemon::SmartDigraph;
using Simplex = lemon::NetworkSimplex<Graph>;

// Numbers of arcs or nodes, in the order in which these were added. LEMON's own maps are slower to fill: they are told of
// each addition.
template <typename Item>
struct Of {
  using Key = Item;
  using Value = int;
  const std::vector<int> &numbers;
  int operator[](Item item) const { return numbers[Graph::id(item)]; }
};

// Hours flow round: from a hub to growers, over free deals to pilots, and back. An hour costs what it gains, below 0.
class Network {
public:
  Network(std::size_t growers, std::size_t pilots) : growers(growers), supply(1 + growers + pilots) {
    const std::size_t arcs = growers + pilots + growers * pilots;
    graph.reserveNode(static_cast<int>(supply.size()));
    graph.reserveArc(static_cast<int>(arcs));
    capacity.reserve(arcs);
    cost.reserve(arcs);
    for (std::size_t node = 0; node < supply.size(); ++node) {
      graph.addNode();
    }
  }

  Graph::Node hub() const { return node(0); }
  Graph::Node grower(std::size_t i) const { return node(1 + i); }
  Graph::Node pilot(std::size_t j) const { return node(1 + growers + j); }

  void connect(Graph::Node from, Graph::Node to, int hours, int gain) {
    graph.addArc(from, to);
    capacity.push_back(hours);
    cost.push_back(-gain);
  }

  // The same without gain, where all hours flow to begin with: they are supplied at the end, and can flow back.
  void connect_full(Graph::Node from, Graph::Node to, int hours) {
    connect(to, from, hours, 0);
    supply[Graph::id(to)] += hours;
    supply[Graph::id(from)] -= hours;
  }

  std::int64_t best_total() const {
    Simplex simplex(graph);
    simplex.upperMap(Of<Graph::Arc>{capacity}).costMap(Of<Graph::Arc>{cost}).supplyMap(Of<Graph::Node>{supply});
    if (simplex.run() != Simplex::OPTIMAL) {
      return -1;
    }
    return -simplex.totalCost<std::int64_t>();
  }

private:
  static Graph::Node node(std::size_t id) { return Graph::nodeFromId(static_cast<int>(id)); }

  std::size_t growers;
  Graph graph;
  std::vector<int> capacity;
  std::vector<int> cost;
  std::vector<int> supply;
};

}  // namespace

// Rows are of 16 places, squares of 16 rows. The flow begins with everybody's hours if `full`, else with none; that changes
// the time and not the answer, which is the total, or -1 if none was found.
extern "C" std::int64_t lemon_best_total(bool full, std::size_t growers, std::size_t pilots,
                                         const std::uint16_t *grower_hours, const std::uint16_t *pilot_hours,
                                         const std::uint16_t *free_cap, const std::uint16_t *joint_gain) {
  Network network(growers, pilots);
  const auto connect = [&](Graph::Node from, Graph::Node to, int hours) {
    if (full) {
      network.connect_full(from, to, hours);
    } else {
      network.connect(from, to, hours, 0);
    }
  };
  for (std::size_t i = 0; i < growers; ++i) {
    connect(network.hub(), network.grower(i), grower_hours[i]);
  }
  for (std::size_t j = 0; j < pilots; ++j) {
    connect(network.pilot(j), network.hub(), pilot_hours[j]);
  }
  for (std::size_t i = 0; i < growers; ++i) {
    for (std::size_t j = 0; j < pilots; ++j) {
      const std::size_t pair = side * i + j;
      if (free_cap[pair] > 0) {
        network.connect(network.grower(i), network.pilot(j), free_cap[pair], joint_gain[pair]);
      }
    }
  }
  return network.best_total();
}
