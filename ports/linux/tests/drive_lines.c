// Answers raw lines as nvme_lines does, but from the drive in memory behind the fake of Linux.
//
// usage: drive_lines BLOCK ZONES SIZE CAPACITY TRANSFER ACTIVE OPEN < lines > replies
#define main nvme_lines_main
#include "nvme_lines.c"
#undef main
#include "fake_linux.h"

int main(int count, char **words) {
    uint32_t numbers[7];
    if (count != 8) return fail("there are not seven numbers", "");
    for (int i = 0; i < 7; i++) numbers[i] = (uint32_t)atoi(words[i + 1]);
    const struct shape shape = {numbers[0], numbers[1], numbers[2], numbers[3], numbers[4], numbers[5], numbers[6]};
    begin_world(&shape);
    // The drive of the guest has neither a Read Only zone nor an Offline one.
    for (uint32_t i = 0; i < shape.zones; i++) world.drive.zones[i] = (struct zone){EMPTY, 0};
    char path[] = "/dev/ng0n1";
    char *given[] = {words[0], path, words[1], words[5], NULL};
    int status = nvme_lines_main(4, given);
    end_world();
    return status;
}
