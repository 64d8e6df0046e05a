// Does what draw.c does, by the package.
package main

import (
	"fmt"
	"os"
	"runtime"
	"sync"

	"lakhdzeva.example/lakhdzeva/v3"
)

func text(answer []byte, err error) string {
	if err != nil {
		return err.Error()
	}
	return string(answer)
}

func draw() {
	key := text(lakhdzeva.Generate([]byte(`{"bytes":100}`)))
	object := text(lakhdzeva.Encrypt([]byte(os.Args[1]), []byte(os.Args[2]), lakhdzeva.Object, []byte("hello")))
	fmt.Printf("%s\t%s\n", key, object)
}

func main() {
	if len(os.Args) == 3 {
		draw()
		return
	}
	var group sync.WaitGroup
	for thread := 0; thread < 8; thread++ {
		group.Add(1)
		go func() {
			defer group.Done()
			runtime.LockOSThread()
			draw()
		}()
	}
	group.Wait()
}
