// A token goes round 64 nodes. Each takes it one time unit after the node before it.
#include <systemc>
#include <cstdio>
#include <memory>
#include <vector>

struct Node : sc_core::sc_module {
    SC_HAS_PROCESS(Node);
    Node(sc_core::sc_module_name name, int number) : sc_module(name), number(number) {
        SC_METHOD(take);
        dont_initialize();
        sensitive << input;
    }
    void emit(const char *event) {
        long long tick = sc_core::sc_time_stamp().value() / 1000;
        std::printf("%lld R%d > M%d.%s\n%lld R%d < M%d.EO\n", tick, number, number, event, tick, number, number);
        next->input.notify(1, sc_core::SC_NS);
    }
    void take() { emit("EI1"); }
    sc_core::sc_event input;
    Node *next = nullptr;
    int number;
};

int sc_main(int, char **words) {
    std::vector<std::unique_ptr<Node>> nodes;
    for (int at = 0; at < 64; at++) nodes.push_back(std::make_unique<Node>(("M" + std::to_string(at)).c_str(), at));
    for (int at = 0; at < 64; at++) nodes[at]->next = nodes[(at + 1) % 64].get();
    std::printf("0 R0 < S.COLD\n");
    nodes[0]->emit("EI2");
    sc_core::sc_start(std::atof(words[1]) - 0.5, sc_core::SC_NS);
    return 0;
}
