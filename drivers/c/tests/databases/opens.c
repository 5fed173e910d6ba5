/* Opens and closes what the settings name, and prints what tx_open returned, and why. */
#include <garterfossil.h>
#include <stdio.h>
#include <tx.h>

int main(void)
{
    int result = tx_open();

    printf("%d %s\n", result, result == TX_OK ? "" : gf_error());
    tx_close();
    return 0;
}
