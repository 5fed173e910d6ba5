/* A program over the static library, with names of its own that the library has inside. */
#include <tx.h>

int lock(void);
int all = 1, keeper = 2, settings = 3;

int lock(void)
{
    return all + keeper + settings;
}

int main(void)
{
    return lock() == 6 && tx_close() == TX_OK ? 0 : 1;
}
