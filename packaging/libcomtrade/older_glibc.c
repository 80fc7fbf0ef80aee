/* glibc 2.35 gave hypot a new version, which libcomtrade.so.1 would ask for. It has to run with
 * glibc 2.28, so it is linked with -Wl,--wrap=hypot and calls this instead. */
#include <math.h>

double __wrap_hypot(double x, double y);

double __wrap_hypot(double x, double y) {
    double a = fabs(x), b = fabs(y), large = a < b ? b : a, small = a < b ? a : b, share;
    if (!(0 < large) || large == HUGE_VAL) return large + small;
    share = small / large;
    return large * sqrt(1 + share * share);
}
