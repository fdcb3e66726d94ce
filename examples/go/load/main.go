// Asks a gateway: load [-requests N] [-clients N] ADDRESS DOCUMENT...
//
// So many clients send the documents in turn, one request at a time each, until there were so many requests. It prints a line of
// JSON: how many were answered with each status, and how many a second.
package main

import (
	"bytes"
	"encoding/json"
	"flag"
	"fmt"
	"io"
	"log"
	"net/http"
	"os"
	"sync"
	"sync/atomic"
	"time"
)

func main() {
	requests := flag.Int64("requests", 10000, "how many in all")
	clients := flag.Int("clients", 8, "how many at once")
	flag.Parse()
	var bodies [][]byte
	for _, path := range flag.Args()[1:] {
		text, err := os.ReadFile(path)
		if err != nil {
			log.Fatal(err)
		}
		body, err := json.Marshal(map[string]string{"query": string(text)})
		if err != nil {
			log.Fatal(err)
		}
		bodies = append(bodies, body)
	}
	client := &http.Client{Transport: &http.Transport{MaxIdleConnsPerHost: *clients}, Timeout: 20 * time.Second}
	var sent int64
	var group sync.WaitGroup
	var mutex sync.Mutex
	statuses := map[int]int{}
	start := time.Now()
	for i := 0; i < *clients; i++ {
		group.Add(1)
		go func() {
			defer group.Done()
			own := map[int]int{}
			for number := atomic.AddInt64(&sent, 1); number <= *requests; number = atomic.AddInt64(&sent, 1) {
				answer, err := client.Post("http://"+flag.Arg(0), "application/json", bytes.NewReader(bodies[number%int64(len(bodies))]))
				if err != nil {
					log.Fatal(err)
				}
				io.Copy(io.Discard, answer.Body)
				answer.Body.Close()
				own[answer.StatusCode]++
			}
			mutex.Lock()
			defer mutex.Unlock()
			for status, count := range own {
				statuses[status] += count
			}
		}()
	}
	group.Wait()
	told, err := json.Marshal(map[string]interface{}{"statuses": statuses, "a_second": int(float64(*requests) / time.Since(start).Seconds())})
	if err != nil {
		log.Fatal(err)
	}
	fmt.Println(string(told))
}
