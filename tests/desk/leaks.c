/* leaks COMMAND ++ COMMAND ++ ..: commands of the desk, one after the other in one process. Leaks are looked for where
   a process ends, which takes 4 s on some processors, and so once for all of them. Ends where a command is not done,
   with the exit status of that command. */
#define main desk
#include "../../desk/main.c"
#undef main

int main(int argc, char **argv) {
    int status = DONE;
    for (int first = 1; first < argc && status == DONE;) {
        int end = first;
        while (end < argc && strcmp(argv[end], "++") != 0) end++;
        argv[end] = NULL;
        /* The word before a command is the program's name. */
        status = desk(end - first + 1, argv + first - 1);
        first = end + 1;
    }
    return status;
}
