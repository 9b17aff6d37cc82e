/* Runs the checks of the Rust wrapper, and says how many there were. */
#include <stdio.h>
#include <stdlib.h>

unsigned run_checks(void);
void failed(void);
void rust_eh_personality(void);

/* Rust's core names this where it unwinds; the checks abort instead. */
void rust_eh_personality(void)
{
}

void failed(void)
{
    puts("a check of the Rust wrapper failed");
    exit(1);
}

int main(void)
{
    printf("%u checks of the Rust wrapper passed\n", run_checks());
    return 0;
}
