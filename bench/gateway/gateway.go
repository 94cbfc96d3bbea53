// The gateway that a team would write in Go with the standard library, for the measurement: the same plan file, the same
// limit of branches at once, the same deadlines. Words: ADDRESS PLANS close|keep. With `close` each branch has a backend
// connection of its own, as in connect_gateway; with `keep` backend connections are used again.
package main

import (
	"bytes"
	"context"
	"encoding/json"
	"errors"
	"fmt"
	"io"
	"log"
	"net/http"
	"os"
	"strconv"
	"sync"
	"time"
)

const longestBody = 65536

type Branch struct {
	Name    string `json:"name"`
	Address string `json:"address"`
	Path    string `json:"path"`
}

type Plan struct {
	Path     string   `json:"path"`
	Limit    int      `json:"limit"`
	Timeout  int      `json:"timeout_ms"`
	Branches []Branch `json:"branches"`
}

type Gateway struct {
	plans  map[string]Plan
	client http.Client
}

func load(path string) (map[string]Plan, error) {
	text, err := os.ReadFile(path)
	if err != nil {
		return nil, err
	}
	var list []Plan
	if err := json.Unmarshal(text, &list); err != nil {
		return nil, err
	}
	plans := make(map[string]Plan)
	for _, plan := range list {
		plans[plan.Path] = plan
	}
	return plans, nil
}

// The call's own deadline or the plan's, whichever is sooner.
func (p Plan) within(r *http.Request) (context.Context, context.CancelFunc) {
	limit := p.Timeout
	if own, err := strconv.Atoi(r.Header.Get("Connect-Timeout-Ms")); err == nil && (limit == 0 || own < limit) {
		limit = own
	}
	if limit == 0 {
		return context.WithCancel(r.Context())
	}
	return context.WithTimeout(r.Context(), time.Duration(limit)*time.Millisecond)
}

func (g *Gateway) ask(ctx context.Context, branch Branch, body []byte) ([]byte, error) {
	request, err := http.NewRequestWithContext(ctx, http.MethodPost, "http://"+branch.Address+branch.Path, bytes.NewReader(body))
	if err != nil {
		return nil, err
	}
	request.Header.Set("Content-Type", "application/json")
	request.Header.Set("Connect-Protocol-Version", "1")
	reply, err := g.client.Do(request)
	if err != nil {
		return nil, err
	}
	defer reply.Body.Close()
	text, err := io.ReadAll(io.LimitReader(reply.Body, longestBody+1))
	switch {
	case err != nil:
		return nil, err
	case reply.StatusCode != http.StatusOK || len(text) > longestBody || !json.Valid(text):
		return nil, errors.New("no answer of " + branch.Name)
	}
	return text, nil
}

// All branches' answers, so many of them asked at once, or the first error.
func (g *Gateway) gather(ctx context.Context, plan Plan, body []byte) ([][]byte, error) {
	ctx, cancel := context.WithCancel(ctx)
	defer cancel()
	var first error
	var failed sync.Once
	answers := make([][]byte, len(plan.Branches))
	places := make(chan struct{}, plan.Limit)
	var out sync.WaitGroup
	for at, branch := range plan.Branches {
		places <- struct{}{}
		out.Add(1)
		go func(at int, branch Branch) {
			defer func() { <-places; out.Done() }()
			answer, err := g.ask(ctx, branch, body)
			if err != nil {
				failed.Do(func() { first = err; cancel() })
			}
			answers[at] = answer
		}(at, branch)
	}
	out.Wait()
	return answers, first
}

func refuse(w http.ResponseWriter, status int, code string) {
	w.Header().Set("Content-Type", "application/json")
	w.WriteHeader(status)
	fmt.Fprintf(w, `{"code":%q}`, code)
}

func (g *Gateway) ServeHTTP(w http.ResponseWriter, r *http.Request) {
	plan, found := g.plans[r.URL.Path]
	if !found {
		http.NotFound(w, r)
		return
	}
	body, err := io.ReadAll(http.MaxBytesReader(w, r.Body, longestBody))
	if err != nil || !json.Valid(body) {
		refuse(w, http.StatusBadRequest, "invalid_argument")
		return
	}
	ctx, cancel := plan.within(r)
	defer cancel()
	answers, err := g.gather(ctx, plan, body)
	switch {
	case errors.Is(err, context.DeadlineExceeded):
		refuse(w, http.StatusGatewayTimeout, "deadline_exceeded")
		return
	case err != nil:
		refuse(w, http.StatusServiceUnavailable, "unavailable")
		return
	}
	joined := []byte{'{'}
	for at, branch := range plan.Branches {
		if at > 0 {
			joined = append(joined, ',')
		}
		joined = strconv.AppendQuote(joined, branch.Name)
		joined = append(append(joined, ':'), answers[at]...)
	}
	w.Header().Set("Content-Type", "application/json")
	w.Write(append(joined, '}'))
}

func main() {
	plans, err := load(os.Args[2])
	if err != nil {
		log.Fatal(err)
	}
	transport := &http.Transport{DisableKeepAlives: os.Args[3] == "close", MaxIdleConnsPerHost: 512}
	log.Fatal(http.ListenAndServe(os.Args[1], &Gateway{plans, http.Client{Transport: transport}}))
}
