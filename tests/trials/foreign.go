// Makes the requests that stand on standard input, a JSON object a line, by Go's net/http. Each reply is a line:
// status and body.
package main

import (
	"bufio"
	"encoding/json"
	"fmt"
	"io"
	"log"
	"net/http"
	"os"
	"strings"
)

type asked struct {
	Method, Target, Body string
	Fields               map[string]string
}

func answer(base string, line []byte) (string, error) {
	var it asked
	if err := json.Unmarshal(line, &it); err != nil {
		return "", err
	}
	request, err := http.NewRequest(it.Method, base+it.Target, strings.NewReader(it.Body))
	if err != nil {
		return "", err
	}
	for name, value := range it.Fields {
		request.Header.Set(name, value)
	}
	reply, err := http.DefaultClient.Do(request)
	if err != nil {
		return "", err
	}
	defer reply.Body.Close()
	body, err := io.ReadAll(reply.Body)
	return fmt.Sprintf("%d %s", reply.StatusCode, body), err
}

func main() {
	lines := bufio.NewScanner(os.Stdin)
	for lines.Scan() {
		line, err := answer(os.Args[1], lines.Bytes())
		if err != nil {
			log.Fatal(err)
		}
		fmt.Println(line)
	}
}
