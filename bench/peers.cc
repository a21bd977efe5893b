// What a user would take in place of the planner: the least times of a plan from its opening, and whether it contradicts itself, by
// Boost.Graph, by LEMON, in full rounds over a dense table (`rounds`), and along what the round before changed (`changes`). Each goes
// from a list of lags to a row of least times, and what it builds of the list is in its time. Reads the plans that `bench plans`
// prints, and prints a line for each: its kind and number, how it ends, and the nanoseconds of each of the four.
#include <algorithm>
#include <array>
#include <chrono>
#include <cstdint>
#include <iostream>
#include <limits>
#include <string>
#include <utility>
#include <vector>

#include <boost/graph/adjacency_list.hpp>
#include <boost/graph/bellman_ford_shortest_paths.hpp>
#include <lemon/bellman_ford.h>
#include <lemon/list_graph.h>

using Clock = std::chrono::steady_clock;

const int64_t NONE = std::numeric_limits<int64_t>::min() / 4;

struct Lag { size_t to, from; int64_t minutes; };
struct Plan { std::string kind, number; size_t events; std::vector<Lag> lags; };
using Times = std::vector<int64_t>;

// Each of the four writes the least times, NONE where no chain reaches the event, or answers false: the plan contradicts itself.

bool by_boost(const Plan& plan, Times& times) {
  using Graph = boost::adjacency_list<boost::vecS, boost::vecS, boost::directedS, boost::no_property,
                                      boost::property<boost::edge_weight_t, int64_t>>;
  const int64_t far = std::numeric_limits<int64_t>::max();
  Graph graph(plan.events);
  for (const Lag& lag : plan.lags) boost::add_edge(lag.from, lag.to, -lag.minutes, graph);
  times.assign(plan.events, far);
  times[0] = 0;
  const bool ok = boost::bellman_ford_shortest_paths(
      graph, plan.events, boost::weight_map(boost::get(boost::edge_weight, graph)).distance_map(times.data()));
  for (int64_t& time : times) time = time == far ? NONE : -time;
  return ok;
}

bool by_lemon(const Plan& plan, Times& times) {
  using Graph = lemon::ListDigraph;
  Graph graph;
  std::vector<Graph::Node> nodes;
  for (size_t event = 0; event < plan.events; event++) nodes.push_back(graph.addNode());
  Graph::ArcMap<int64_t> weights(graph);
  for (const Lag& lag : plan.lags) weights[graph.addArc(nodes[lag.from], nodes[lag.to])] = -lag.minutes;
  lemon::BellmanFord<Graph, Graph::ArcMap<int64_t>> solver(graph, weights);
  solver.init();
  solver.addSource(nodes[0]);
  const bool ok = solver.checkedStart();
  times.assign(plan.events, NONE);
  for (size_t event = 0; event < plan.events; event++)
    if (solver.reached(nodes[event])) times[event] = -solver.dist(nodes[event]);
  return ok;
}

Times table_of(const Plan& plan) {
  Times table(plan.events * plan.events, NONE);
  for (const Lag& lag : plan.lags) table[lag.to * plan.events + lag.from] = lag.minutes;
  return table;
}

bool go_rounds(size_t events, const Times& table, Times& times) {
  Times next(events);
  for (size_t round = 0; round < events; round++) {
    bool changed = false;
    for (size_t to = 0; to < events; to++) {
      int64_t most = times[to];
      for (size_t from = 0; from < events; from++) {
        const int64_t lag = table[to * events + from];
        if (lag != NONE && times[from] != NONE) most = std::max(most, times[from] + lag);
      }
      if (most != times[to]) changed = true;
      next[to] = most;
    }
    std::swap(times, next);
    if (!changed) return true;
  }
  return false;
}

// First from every event, whether there is a schedule; then from the opening, the least times.
bool by_rounds(const Plan& plan, Times& times) {
  const Times table = table_of(plan);
  times.assign(plan.events, 0);
  if (!go_rounds(plan.events, table, times)) return false;
  times.assign(plan.events, NONE);
  times[0] = 0;
  return go_rounds(plan.events, table, times);
}

// A word of events, and how one is taken out of it.
using Word = uint64_t;

size_t take_first(Word& word) {
  const size_t event = __builtin_ctzll(word);
  word &= word - 1;
  return event;
}

bool go_along(size_t events, const Times& table, const std::array<Word, 64>& waiting, Word changed, Times& times) {
  Times next = times;
  for (size_t round = 0; round < events && changed != 0; round++) {
    Word now = 0;
    while (changed != 0) {
      const size_t from = take_first(changed);
      for (Word word = waiting[from]; word != 0;) {
        const size_t to = take_first(word);
        const int64_t sum = times[from] + table[to * events + from];
        if (sum > next[to]) { next[to] = sum; now |= Word{1} << to; }
      }
    }
    for (Word word = now; word != 0;) {
      const size_t event = take_first(word);
      times[event] = next[event];
    }
    changed = now;
  }
  return changed == 0;
}

bool by_changes(const Plan& plan, Times& times) {
  const Times table = table_of(plan);
  std::array<Word, 64> waiting{};
  for (size_t to = 0; to < plan.events; to++)
    for (size_t from = 0; from < plan.events; from++)
      if (table[to * plan.events + from] != NONE) waiting[from] |= Word{1} << to;
  times.assign(plan.events, 0);
  if (!go_along(plan.events, table, waiting, (Word{1} << plan.events) - 1, times)) return false;
  times.assign(plan.events, NONE);
  times[0] = 0;
  return go_along(plan.events, table, waiting, 1, times);
}

// The sum that the planner's side prints, over words, by Fowler, Noll and Vo.
std::string outcome(bool ok, const Times& times) {
  if (!ok) return "contradicts";
  uint64_t sum = 14695981039346656037u;
  for (int64_t time : times) sum = (sum ^ uint64_t(time == NONE ? int64_t{1} << 62 : time)) * 1099511628211u;
  return std::to_string(sum);
}

// The nanoseconds of a call, in the best of five runs of five milliseconds at least; the clock is read after 16 calls.
template <class Call> int64_t best_time(Call call) {
  double best = std::numeric_limits<double>::max();
  for (int run = 0; run < 5; run++) {
    int calls = 0;
    Clock::duration spent;
    const auto start = Clock::now();
    do {
      for (int k = 0; k < 16; k++) call();
      calls += 16;
      spent = Clock::now() - start;
    } while (spent < std::chrono::milliseconds(5));
    best = std::min(best, std::chrono::duration<double, std::nano>(spent).count() / calls);
  }
  return int64_t(best);
}

int main() {
  Plan plan;
  size_t count;
  for (std::string word; std::cin >> word >> plan.kind >> plan.number >> plan.events >> count;) {
    plan.lags.resize(count);
    for (Lag& lag : plan.lags) std::cin >> lag.to >> lag.from >> lag.minutes;
    std::cout << plan.kind << ' ' << plan.number;
    Times times;
    std::array<std::pair<std::string, int64_t>, 4> found;
    size_t k = 0;
    for (auto solve : {by_boost, by_lemon, by_rounds, by_changes}) {
      const bool ok = solve(plan, times);
      found[k++] = {outcome(ok, times), best_time([&] { return solve(plan, times); })};
    }
    for (const auto& [ends, nanos] : found) std::cout << ' ' << ends << ' ' << nanos;
    std::cout << std::endl;
  }
}
