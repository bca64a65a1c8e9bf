// Sends requests to a server and looks at each of them and at its reply with kin-openapi: the description's path, the server's address, and
// then for each request its method, target, media type and body. It prints the status and the body of each reply.
package main

import (
	"bytes"
	"context"
	"fmt"
	"io"
	"net/http"
	"os"
	"strings"

	"github.com/getkin/kin-openapi/openapi3"
	"github.com/getkin/kin-openapi/openapi3filter"
	"github.com/getkin/kin-openapi/routers"
	"github.com/getkin/kin-openapi/routers/legacy"
)

func check(err error) {
	if err != nil {
		fmt.Println(err)
		os.Exit(1)
	}
}

func ask(router routers.Router, method, url, media, body string) {
	request, err := http.NewRequest(method, url, strings.NewReader(body))
	check(err)
	if body != "" {
		request.Header.Set("Content-Type", media)
	}
	route, values, err := router.FindRoute(request)
	check(err)
	options := &openapi3filter.Options{AuthenticationFunc: openapi3filter.NoopAuthenticationFunc, IncludeResponseStatus: true}
	input := &openapi3filter.RequestValidationInput{Request: request, PathParams: values, Route: route, Options: options}
	check(openapi3filter.ValidateRequest(context.Background(), input))
	reply, err := http.DefaultClient.Do(request)
	check(err)
	text, err := io.ReadAll(reply.Body)
	check(err)
	check(openapi3filter.ValidateResponse(context.Background(), &openapi3filter.ResponseValidationInput{
		RequestValidationInput: input, Status: reply.StatusCode, Header: reply.Header, Body: io.NopCloser(bytes.NewReader(text)), Options: options}))
	fmt.Printf("%d %s\n", reply.StatusCode, strings.ReplaceAll(string(text), "\n", "\\n"))
}

func main() {
	description, err := openapi3.NewLoader().LoadFromFile(os.Args[1])
	check(err)
	check(description.Validate(context.Background()))
	description.Servers = openapi3.Servers{{URL: os.Args[2]}}
	router, err := legacy.NewRouter(description)
	check(err)
	for at := 3; at+3 < len(os.Args); at += 4 {
		ask(router, os.Args[at], os.Args[2]+os.Args[at+1], os.Args[at+2], os.Args[at+3])
	}
}
