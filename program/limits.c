/* Linked with the proved program. Where a file may not grow further the write is to fail: the message that then follows says what
   became of the register, and a signal would end the program without a word. Rattle's start ignores SIGPIPE for the same reason;
   for this signal its library has no call. */
#include <signal.h>

__attribute__((constructor)) static void ignore_the_limit(void)
{
    signal(SIGXFSZ, SIG_IGN);
}
