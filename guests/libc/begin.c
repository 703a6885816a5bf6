/* From the opening stack to main: the first thread's own variables, arguments, environment, constructors, and the
 * group's end with what main returns. */
#include <picolibc.h>
#include <picotls.h>
#include <stdlib.h>
#include <unistd.h>

extern char **environ;
extern char __first_thread[];

int main(int argc, char **argv, char **environment);
void __libc_init_array(void);
_Noreturn void begin(char **stack);

/* What stands from the stack pointer up: argc, the arguments and a null pointer, the environment and a null pointer. */
_Noreturn void begin(char **stack)
{
    _init_tls(__first_thread);
    int argc = *(long *)stack;
    char **argv = stack + 1;
    environ = argv + argc + 1;
    __libc_init_array();
    exit(main(argc, argv, environ));
}
