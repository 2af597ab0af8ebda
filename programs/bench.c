/* The bench program's main. All else is proved, in crates/serve and below: it returns the status that
 * the library answers. bench_run's two parameters there are handles of no bytes, so that none is passed. */
#include <stdint.h>

uint32_t bench_run(void);

int main(void) {
    return (int)bench_run();
}
