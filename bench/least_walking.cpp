// least_walking: the least walking (people times travel) of any plan with the arrival curve of a block, by a min-cost flow over the time-expanded
// network. Reads a building up to its `end` and then an answer block. Prints the walking of the block's moves, and the least.
//
// It shares nothing with the planner: the flow is LEMON's network simplex (package liblemon-dev). g++ -O2 -o least_walking least_walking.cpp
#include <lemon/network_simplex.h>
#include <lemon/smart_graph.h>

#include <iostream>
#include <map>
#include <sstream>
#include <string>
#include <vector>

struct Window { int since, until; };
struct Arc { int tail, head, travel, rate; std::vector<Window> windows; };
struct Node { int capacity; bool exit; };
struct Arrival { int node, moment, people; };

struct Building {
    std::map<std::string, int> numbers;
    std::map<std::pair<int, int>, int> arc_numbers;
    std::vector<Node> nodes;
    std::vector<Arc> arcs;
    std::vector<Arrival> people;

    Arc &arc(const std::string &tail, const std::string &head) { return arcs[arc_numbers.at({numbers.at(tail), numbers.at(head)})]; }
};

struct Block { int cleared = 0; long walking = 0; std::vector<long> out; };

void read_node(Building &building, std::istream &fields) {
    std::string name;
    int capacity = 0, start = 0;
    fields >> name;
    const bool exit = !(fields >> capacity >> start);
    const int number = building.nodes.size();
    building.numbers[name] = number;
    building.nodes.push_back({capacity, exit});
    if (start > 0) building.people.push_back({number, 0, start});
}

void read_arc(Building &building, std::istream &fields) {
    std::string tail, head;
    int travel, rate;
    fields >> tail >> head >> travel >> rate;
    const int from = building.numbers.at(tail), to = building.numbers.at(head);
    building.arc_numbers[{from, to}] = building.arcs.size();
    building.arcs.push_back({from, to, travel, rate, {}});
}

Building read_building(std::istream &input) {
    Building building;
    std::string line, word, tail, head, room;
    while (std::getline(input, line)) {
        std::istringstream fields(line);
        if (!(fields >> word) || word[0] == '#') continue;
        if (word == "end") break;
        if (word == "node") read_node(building, fields);
        if (word == "arc") read_arc(building, fields);
        if (word == "window") {
            Window window;
            fields >> tail >> head >> window.since >> window.until;
            building.arc(tail, head).windows.push_back(window);
        }
        if (word == "entrant") {
            int moment, people;
            fields >> room >> moment >> people;
            building.people.push_back({building.numbers.at(room), moment, people});
        }
    }
    return building;
}

Block read_block(std::istream &input, Building &building) {
    Block block;
    std::string line, word, tail, head;
    while (std::getline(input, line)) {
        std::istringstream fields(line);
        fields >> word;
        if (word == "end") break;
        if (word == "cleared") fields >> block.cleared;
        if (word == "out") {
            long moment, people;
            fields >> moment >> people;
            block.out.push_back(people);
        }
        if (word == "move") {
            long moment, people;
            fields >> moment >> tail >> head >> people;
            block.walking += people * building.arc(tail, head).travel;
        }
    }
    return block;
}

bool is_open(const Arc &arc, int moment) {
    for (const Window &window : arc.windows)
        if (window.since <= moment && moment < window.until) return false;
    return true;
}

long least_walking(const Building &building, const Block &block) {
    typedef lemon::SmartDigraph Graph;
    const int moments = block.cleared + 1, count = building.nodes.size();
    Graph graph;
    graph.reserveNode((count + 1) * moments);
    for (int number = 0; number < (count + 1) * moments; number++) graph.addNode();
    const auto pair = [&](int node, int moment) { return graph.nodeFromId(node * moments + moment); };
    const auto arrival = [&](int moment) { return pair(count, moment); };
    Graph::ArcMap<long> most(graph), cost(graph);
    Graph::NodeMap<long> supply(graph, 0);
    for (const Arc &arc : building.arcs)
        for (int moment = 0; moment + arc.travel < moments; moment++) {
            if (!is_open(arc, moment)) continue;
            const int then = moment + arc.travel;
            const auto step = graph.addArc(pair(arc.tail, moment), building.nodes[arc.head].exit ? arrival(then) : pair(arc.head, then));
            most[step] = arc.rate;
            cost[step] = arc.travel;
        }
    for (int node = 0; node < count; node++)
        for (int moment = 0; moment + 1 < moments && !building.nodes[node].exit; moment++)
            most[graph.addArc(pair(node, moment), pair(node, moment + 1))] = building.nodes[node].capacity;
    for (const Arrival &some : building.people) supply[pair(some.node, some.moment)] += some.people;
    for (int moment = 0; moment < moments; moment++) supply[arrival(moment)] -= block.out[moment] - (moment > 0 ? block.out[moment - 1] : 0);
    lemon::NetworkSimplex<Graph, long, long> flow(graph);
    flow.upperMap(most).costMap(cost).supplyMap(supply);
    return flow.run() == flow.OPTIMAL ? static_cast<long>(flow.totalCost()) : -1;
}

int main() {
    Building building = read_building(std::cin);
    const Block block = read_block(std::cin, building);
    const long least = least_walking(building, block);
    if (least < 0) return 1;
    std::cout << block.walking << " " << least << "\n";
}
