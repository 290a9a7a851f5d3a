/* Which body is chosen, and which bodies are reached, of a program that has them all (`tools/mutate/wrong-bodies`).

   The number of the chosen one, 0 if none is, and the path of a file are written into a copy of the program. A body
   that is reached has its byte in that file set to 1; without a path nothing is noted. It asks the system itself, so
   that libraries which have calls fail see none of this. */
#include <fcntl.h>
#include <sys/mman.h>
#include <sys/syscall.h>

#define BODIES 4096

static volatile char text[512] = "chosen body 0000 reached ";
enum { NUMBER = 12, DIGITS = 4, PATH = 25 };

static long ask(long call, long first, long second, long third, long fourth, long fifth) {
    long answer;
    register long r10 __asm__("r10") = fourth;
    register long r8 __asm__("r8") = fifth;
    register long r9 __asm__("r9") = 0;
    __asm__ volatile("syscall"
                     : "=a"(answer)
                     : "a"(call), "D"(first), "S"(second), "d"(third), "r"(r10), "r"(r8), "r"(r9)
                     : "rcx", "r11", "memory");
    return answer;
}

static char *noted(void) {
    long file = text[PATH] ? ask(SYS_openat, AT_FDCWD, (long)&text[PATH], O_RDWR | O_CLOEXEC, 0, 0) : -1;
    if (file < 0)
        return 0;
    long at = ask(SYS_mmap, 0, BODIES, PROT_READ | PROT_WRITE, MAP_SHARED, file);
    ask(SYS_close, file, 0, 0, 0, 0);
    return at > 0 ? (char *)at : 0;
}

/* 1 if that body is chosen, or else 0. */
unsigned chosen_body(unsigned number) {
    static char *volatile reached;
    static volatile int chosen = -1;
    if (chosen < 0) {
        int found = 0;
        for (int it = NUMBER; it < NUMBER + DIGITS; it++)
            found = found * 10 + (text[it] - '0');
        reached = noted();
        chosen = found;
    }
    if (reached && number < BODIES)
        reached[number] = 1;
    return number == (unsigned)chosen;
}
