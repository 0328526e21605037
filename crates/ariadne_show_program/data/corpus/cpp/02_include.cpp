// The headers are wrong too.
#include "02_outer.hpp"
int main() {
    return CALL(inner, 1);
}
