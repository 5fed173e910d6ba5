// Moves money from an account in PostgreSQL to one in MariaDB: transfer FROM TO AMOUNT
//
// CGO_CFLAGS and CGO_LDFLAGS say where the driver is: what `pkg-config --cflags` and `--libs` print of garterfossil, libpq and
// libmariadb, with -lgf_postgresql -lgf_mariadb.
package main

/*
#include <stdlib.h>
#include <garterfossil.h>
#include <gf_mariadb.h>
#include <gf_postgresql.h>
#include <tx.h>
*/
import "C"

import (
	"errors"
	"fmt"
	"os"
	"runtime"
	"unsafe"
)

func rmid(name string) C.int {
	text := C.CString(name)
	defer C.free(unsafe.Pointer(text))
	return C.gf_rmid(text)
}

func pay(account, amount string) error {
	bank := C.gf_pg_connection(rmid("bank"))
	statement := C.CString("UPDATE account SET balance = balance - " + amount + " WHERE id = " + account)
	defer C.free(unsafe.Pointer(statement))
	result := C.PQexec(bank, statement)
	defer C.PQclear(result)
	if C.PQresultStatus(result) != C.PGRES_COMMAND_OK || C.GoString(C.PQcmdTuples(result)) != "1" {
		return errors.New("bank: " + C.GoString(C.PQerrorMessage(bank)))
	}
	return nil
}

func receive(account, amount string) error {
	shop := C.gf_mariadb_connection(rmid("shop"))
	statement := C.CString("UPDATE account SET balance = balance + " + amount + " WHERE id = " + account)
	defer C.free(unsafe.Pointer(statement))
	if C.mysql_query(shop, statement) != 0 || C.mysql_affected_rows(shop) != 1 {
		return errors.New("shop: " + C.GoString(C.mysql_error(shop)))
	}
	return nil
}

func transfer(from, to, amount string) error {
	// TX belongs to a thread: the goroutine keeps its own from tx_open to tx_close.
	runtime.LockOSThread()
	defer runtime.UnlockOSThread()
	defer C.tx_close()
	if C.tx_open() != C.TX_OK || C.tx_begin() != C.TX_OK {
		return errors.New(C.GoString(C.gf_error()))
	}
	err := pay(from, amount)
	if err == nil {
		err = receive(to, amount)
	}
	if err != nil {
		C.tx_rollback()
		return err
	}
	if ended := C.tx_commit(); ended != C.TX_OK {
		return fmt.Errorf("tx_commit %d: %s", ended, C.GoString(C.gf_error()))
	}
	return nil
}

func main() {
	if err := transfer(os.Args[1], os.Args[2], os.Args[3]); err != nil {
		fmt.Fprintln(os.Stderr, "not transferred:", err)
		os.Exit(1)
	}
}
