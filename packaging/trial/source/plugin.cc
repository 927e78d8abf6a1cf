template<class T> struct Pair { T a, b; T sum() const { return a + b; } };
extern "C" int plug(const char *s) { Pair<int> p{ *s, 1 }; return p.sum(); }
