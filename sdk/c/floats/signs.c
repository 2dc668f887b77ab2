/* IEEE 754, 5.5.1: abs, negate and copySign change the bit of the sign alone, of NaNs too. */
#include "floats.h"

EXPORT(word, NAME(abs))(word a) { return a & ~SIGN; }
EXPORT(word, NAME(neg))(word a) { return a ^ SIGN; }
EXPORT(word, NAME(copysign))(word a, word b) { return (a & ~SIGN) | (b & SIGN); }
