// A clock, a switch and a latch: each clock tick sets the latch, or resets it.
#include <systemc>
#include <cstdio>

struct Blinker : sc_core::sc_module {
    SC_CTOR(Blinker) {
        SC_METHOD(start);
        SC_METHOD(clock);
        dont_initialize();
        sensitive << cycle;
        SC_METHOD(choose);
        dont_initialize();
        sensitive << ticked;
        SC_METHOD(set);
        dont_initialize();
        sensitive << on;
        SC_METHOD(reset);
        dont_initialize();
        sensitive << off;
    }
    long long tick() { return sc_core::sc_time_stamp().value() / 1000; }
    void start() {
        std::printf("0 MAIN < S.COLD\n0 MAIN > C.START DT=1\n");
        cycle.notify(1, sc_core::SC_NS);
    }
    void clock() {
        std::printf("%lld MAIN < C.EO\n", tick());
        ticked.notify(sc_core::SC_ZERO_TIME);
        cycle.notify(1, sc_core::SC_NS);
    }
    void choose() {
        std::printf("%lld MAIN > W.EI G=%s\n%lld MAIN < W.EO%d\n", tick(), lamp ? "TRUE" : "FALSE", tick(), lamp);
        (lamp ? off : on).notify(sc_core::SC_ZERO_TIME);
    }
    void set() {
        lamp = true;
        std::printf("%lld MAIN > L.S\n%lld MAIN < L.EO Q=TRUE\n", tick(), tick());
    }
    void reset() {
        lamp = false;
        std::printf("%lld MAIN > L.R\n%lld MAIN < L.EO Q=FALSE\n", tick(), tick());
    }
    sc_core::sc_event cycle, ticked, on, off;
    bool lamp = false;
};

int sc_main(int, char **words) {
    Blinker blinker("blinker");
    sc_core::sc_start(std::atof(words[1]) - 0.5, sc_core::SC_NS);
    return 0;
}
