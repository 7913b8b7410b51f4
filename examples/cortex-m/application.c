/* An application: says its version, and which one it is that may be started from now on. */
#include "board.h"

extern const uint32_t header[];

int main(void) {
    say("version ");
    say_number(header[1]);
    say(" runs, the least is ");
    say_number(kept->least_version);
    say("\n");
    return 0;
}
