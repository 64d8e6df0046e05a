// Does what judge.py does, by claims.go.
package main

import (
	"bufio"
	"fmt"
	"os"
	"strconv"
	"strings"

	"lakhdzeva.example/lakhdzeva/v3"
)

func number(text string) float64 {
	value, err := strconv.ParseFloat(text, 64)
	if err != nil {
		panic(err)
	}
	return value
}

func answer(keys *lakhdzeva.Keys, line string) string {
	fields := strings.Split(line, "\t")
	expected := Expected{Leeway: number(fields[1])}
	for at, text := range []**string{&expected.Issuer, &expected.Audience, &expected.Type} {
		if fields[at+2] != "-" {
			*text = &fields[at+2]
		}
	}
	token := []byte(fields[5])
	payload, err := keys.Verify(token)
	if err == nil {
		_, err = claimsOf(token, payload, expected, number(fields[0]))
	}
	if err != nil {
		return err.Error()
	}
	return "yes"
}

func main() {
	keys, err := lakhdzeva.NewKeys([]byte(os.Args[1]))
	if err != nil {
		panic(err)
	}
	lines := bufio.NewScanner(os.Stdin)
	lines.Buffer(nil, 1<<20)
	for lines.Scan() {
		fmt.Println(answer(keys, lines.Text()))
	}
}
