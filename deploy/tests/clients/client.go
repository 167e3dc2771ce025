// Go's net/http: client URL. Prints the status and the milliseconds of each request, as JSON.
package main

import (
	"encoding/json"
	"fmt"
	"io"
	"net/http"
	"os"
	"sync"
	"time"
)

func main() {
	clients := []*http.Client{{Transport: &http.Transport{MaxIdleConnsPerHost: 8}}, {Transport: &http.Transport{MaxIdleConnsPerHost: 8}}}
	found := [][2]float64{}
	var lock sync.Mutex
	send := func(number int) {
		began := time.Now()
		request, _ := http.NewRequest("GET", os.Args[1], nil)
		request.Header.Set("Register-Party", "1")
		request.Header.Set("Register-Role", "stateAdministrator")
		status := 0
		reply, err := clients[number%2].Do(request)
		if err == nil {
			io.Copy(io.Discard, reply.Body)
			reply.Body.Close()
			status = reply.StatusCode
		}
		lock.Lock()
		found = append(found, [2]float64{float64(status), float64(time.Since(began).Microseconds()) / 1000})
		lock.Unlock()
	}
	for number := 0; number < 50; number++ {
		send(number)
	}
	for round := 0; round < 10; round++ {
		var group sync.WaitGroup
		for number := 0; number < 5; number++ {
			group.Add(1)
			go func(number int) {
				defer group.Done()
				send(number)
			}(number)
		}
		group.Wait()
	}
	text, _ := json.Marshal(found)
	fmt.Println(string(text))
}
