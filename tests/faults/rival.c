// Another user who wants to have the folder FOLDER/NAME before its owner: makes it, as a folder or as a link to one, leaves it a moment, and takes
// it away again, until somebody has put something in it.
#include <stdlib.h>
#include <sys/stat.h>
#include <unistd.h>

int main(int count, char **words) {
    if (count != 3 || chdir(words[1]) != 0) {
        return 2;
    }
    umask(0);
    mkdir("rival", 0777);
    srandom((unsigned)getpid());
    for (;;) {
        int is_folder = random() % 2;
        int made = is_folder ? mkdir(words[2], 0777) : symlink("rival", words[2]);
        if (made == 0) {
            usleep((unsigned)(random() % 3000));
            if (is_folder ? rmdir(words[2]) != 0 : unlink(words[2]) != 0) {
                return 1;
            }
        }
    }
}
