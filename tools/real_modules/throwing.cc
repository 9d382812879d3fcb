// Exceptions without a library: what they call is left to the host.
struct Guard { ~Guard(); };
struct Fault { int code; };
extern int risky(int);
int guarded(int n) {
    Guard held;
    try {
        Guard inner;
        if (n < 0) throw Fault{n};
        return risky(n);
    } catch (const Fault &fault) {
        return fault.code;
    } catch (int code) {
        try { return risky(code); } catch (...) { throw; }
    } catch (...) {
        return -1;
    }
}
int (*volatile entry)(int) = guarded;
extern "C" void _start() { entry(3); }
