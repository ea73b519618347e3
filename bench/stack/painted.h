// What the painting programs share: each paints calls, at their worst, and fails where an answer is wrong or the stack above 6 KiB.
#include "bare.h"
#include "stack.h"

enum { ALLOWED = 6 << 10 };

static int failed;
static long most;
static const char *worst;

// `good` says whether the call answered as it should.
static void painted(const char *call, const char *about, long taken, int good) {
    if (!good) {
        failed = 1;
        say("FAILED stack of ");
        say(call);
        say(", ");
        say(about);
        say(": a wrong answer\n");
    }
    if (taken > most) {
        most = taken;
        worst = about;
    }
}

// Tells the most that was painted since it last told.
static void tell(const char *call) {
    say(call);
    say(": ");
    say_number(most);
    say(" bytes of stack, ");
    say(worst);
    say("\n");
    if (most > ALLOWED) {
        failed = 1;
        say("FAILED stack of ");
        say(call);
        say(": above 6144 bytes\n");
    }
    most = 0;
}
