// A backend for the measurement: each POST is answered by the same short JSON text, of a stated length; behind the word
// "chunked" in one chunk.
package main

import (
	"io"
	"log"
	"net/http"
	"os"
)

const answer = `{"price":42}`

func main() {
	framing := map[bool][2]string{false: {"Content-Length", "12"}, true: {"Transfer-Encoding", "chunked"}}[len(os.Args) > 2]
	handler := func(w http.ResponseWriter, r *http.Request) {
		if _, err := io.Copy(io.Discard, r.Body); err != nil {
			return
		}
		h := w.Header()
		h["Content-Type"] = []string{"application/json"}
		h[framing[0]] = []string{framing[1]}
		io.WriteString(w, answer)
	}
	log.Fatal(http.ListenAndServe(os.Args[1], http.HandlerFunc(handler)))
}
