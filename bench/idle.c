/* Reads standard input to its end and does nothing with it: what a program's memory is before it has done anything. */
#include <unistd.h>

int main(void)
{
    static char room[4096];
    while (read(0, room, sizeof room) > 0)
        ;
    return 0;
}
