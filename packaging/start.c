/*
 * Two functions that the program would otherwise take from a recent glibc: one that starts it, and one that gives the
 * features of the processor. packaging/program.sh links the packaged program with them, so that it runs with older
 * versions of glibc too; the rest of the program is the same.
 */
#include <cpuid.h>
#include <stddef.h>

typedef int program(int argc, char **argv, char **environment);

/* The functions that run before main, in the table that the linker makes. They take the same arguments as main. */
typedef void initializer(int argc, char **argv, char **environment);
extern initializer *const __init_array_start[] __attribute__((visibility("hidden")));
extern initializer *const __init_array_end[] __attribute__((visibility("hidden")));

/*
 * The function of glibc that starts a program. Since 2.34, glibc has two versions of it: the new one runs the
 * initializers of the program itself, and this older one, which every glibc has, leaves them to a function that the
 * program passes.
 */
int start_main_of_glibc(program *main, int argc, char **argv, program *before, void (*after)(void),
                        void (*loader_at_exit)(void), void *stack_end);
__asm__(".symver start_main_of_glibc, __libc_start_main@GLIBC_2.2.5");

static int run_initializers(int argc, char **argv, char **environment) {
    for (initializer *const *each = __init_array_start; each != __init_array_end; each++) {
        (*each)(argc, argv, environment);
    }
    return 0;
}

/* The start file calls this function instead of glibc's, with null for `before` and `after`. */
int township_start_main(program *main, int argc, char **argv, program *before, void (*after)(void),
                        void (*loader_at_exit)(void), void *stack_end) {
    (void)before;
    (void)after;
    return start_main_of_glibc(main, argc, argv, run_initializers, NULL, loader_at_exit, stack_end);
}

/* A leaf of the processor's features: the four registers as the processor fills them, and the same registers with
   only the features that the system supports. */
struct feature_leaf {
    unsigned int given[4];
    unsigned int usable[4];
};

/*
 * Returns a leaf by glibc's number for it (since 2.33). When the program starts, it looks here for the features of
 * x86-64-v2, which are in the first leaf and in the first extended leaf; every system supports them. Any other leaf is
 * empty, so a program that needs one of its features does not start.
 */
__attribute__((visibility("hidden"))) const struct feature_leaf *__x86_get_cpuid_feature_leaf(unsigned int number) {
    static const unsigned int leaves[] = {1, 0, 0x80000001};
    static struct feature_leaf leaf;
    unsigned int *found = leaf.usable;

    leaf = (struct feature_leaf){{0}, {0}};
    if (number < sizeof leaves / sizeof leaves[0] && leaves[number] != 0) {
        (void)__get_cpuid(leaves[number], &found[0], &found[1], &found[2], &found[3]);
    }
    return &leaf;
}
