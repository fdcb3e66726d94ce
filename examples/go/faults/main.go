// Checks documents over a schema that is held, and prints each fault with its line, column, rule and hint: faults SCHEMA DOCUMENT...
package main

import (
	"fmt"
	"log"
	"os"

	"graphqlchecked"
)

// read is the text in a file.
func read(path string) graphqlchecked.Text {
	bytes, err := os.ReadFile(path)
	if err != nil {
		log.Fatal(err)
	}
	return graphqlchecked.Text{Path: path, Bytes: bytes}
}

func main() {
	schema, err := graphqlchecked.Open(read(os.Args[1]))
	if err != nil {
		log.Fatal(err)
	}
	for _, path := range os.Args[2:] {
		faults, err := schema.Check(read(path))
		if err != nil {
			log.Fatal(err)
		}
		for _, fault := range faults {
			fmt.Println(fault)
		}
		if len(faults) == 0 {
			fmt.Printf("%s: accepted\n", path)
		}
	}
}
